"""Changes of patch texts that filters print: each takes one cause of a difference away, from both outputs alike."""
import re

from filter_parts import BEGINS, GIT_LINES, HALF, RANGES, STARS, file_patches, joined, lines_of, parts, with_hunks
from filter_patterns import chosen_otherwise, without_patches

WRITTEN, FORMATTED, FOUND, RECOUNTED = [], [], [], []


def change(table, key):
    """Adds a change to a table under a key."""
    def register(function):
        table.append((key, function))
        return function
    return register


def text_of(case):
    """The patch text of a case, or its texts one behind the other."""
    named = [word for word in case.runs[0].words if word in ('p', 'q')] or ['p']
    return b''.join(case.tree[name.encode()].data for name in named)


@change(FORMATTED, 'line-feed-cut')
def without_last_told(case, out):
    """No line that tells of a missing line feed at the end of a text that has none there itself."""
    return out if text_of(case).endswith(b'\n') else b'\n'.join(line for line in lines_of(out) if not line.startswith(b'\\'))


def behind_lone_halves(text):
    """The block or the header lines that stand directly behind a context hunk whose second half has no lines."""
    found = parts(text)
    pairs = [(one, other) for one, other in zip(found, found[1:]) if one.kind == 'hunk' and HALF.match(one.lines[-1])]
    return [line for _, other in pairs if other.kind in ('block', 'header') for line in other.lines]


@change(WRITTEN, 'patchutils-slips')
def without_followers(case, out):
    """Nothing of what patchutils loses or writes twice behind a context hunk whose second half has no lines: stars, a file patch."""
    lost, lines = behind_lone_halves(text_of(case)), lines_of(out)
    lines = [line for at, line in enumerate(lines) if not (line.startswith(STARS) and lines[at + 1:at + 2] == [STARS])]
    found, inside = [], False
    for part in parts(b'\n'.join(lines)):
        inside = part.kind != 'block' and (inside if part.kind != 'header' else set(part.lines) <= set(lost))
        part.lines = [] if inside else [line for line in part.lines if part.kind not in ('text', 'block') or line not in lost]
        found.append(part)
    return joined(found)


@change(WRITTEN, 'text-between')
def without_text(case, out):
    """No text outside of file patches; it must be of the text that was read."""
    known, found = set(lines_of(text_of(case))), parts(out)
    for part in found:
        if part.kind == 'text' and not any(map(BEGINS.match, part.lines)):
            part.lines = [line for line in part.lines if line not in known]
    return joined(found)


@change(WRITTEN, 'moved-starts')
def without_starts(case, out):
    """No new starts."""
    lines = [RANGES.sub(lambda found: found.group(0).replace(b'+' + found.group(3), b'+0', 1), line, 1) for line in lines_of(out)]
    return b'\n'.join(of_length(line) if HALF.match(line) and line.startswith(b'---') else line for line in lines)


def of_length(line):
    """The range line of a second half with the number of its lines alone."""
    first, last = HALF.match(line).group(2, 3)
    return b'--- 0,%d ----' % (int(last or first) - int(first)) + line[HALF.match(line).end():]


@change(WRITTEN, 'patchutils-slips')
def without_new_blocks(case, out):
    """No block of git with a new file's mode, which patchutils takes for text."""
    return joined(part for part in parts(out) if part.kind != 'block' or not any(line.startswith(b'new file mode') for line in part.lines))


def numbers_lines(case):
    """Whether lines are numbered."""
    return any(word.startswith('--as-numbered-lines') for word in case.runs[0].words)


@change(WRITTEN, 'patchutils-slips')
def without_git_lines(case, out):
    """No lines of git headers where lines are numbered: patchutils loses those of a new file."""
    lost = (b'diff --git ', *GIT_LINES)
    return b'\n'.join(line for line in lines_of(out) if not line.startswith(lost)) if numbers_lines(case) else out


@change(WRITTEN, 'as-numbered-lines')
def without_backslash_lines(case, out):
    """No backslash line with a number."""
    return b'\n'.join(line for line in lines_of(out) if not re.fullmatch(rb'\d+\t: No newline at end of file', line)) if numbers_lines(case) else out


@change(WRITTEN, 'patchutils-slips')
def without_null_prefix(case, out):
    """No prefix in front of /dev/null, which is no name."""
    return re.sub(rb'(?m)^(---|\+\+\+|\*\*\*) \S+//dev/null$', rb'\1 /dev/null', out) if any(word.startswith('--add') for word in case.runs[0].words) else out


@change(WRITTEN, 'patchutils-slips')
def without_star_text(case, out):
    """Nothing behind the stars of a context hunk, which patchutils drops."""
    return b'\n'.join(STARS if line.startswith(STARS) else line for line in lines_of(out))


@change(WRITTEN, 'headerless-hunks')
def without_lone_hunks(case, out):
    """No hunks that stand behind one header line or none, or not right behind both."""
    if not case.facts.get('damaged'):
        return out
    apart = [names for names, hunks in file_patches(text_of(case)) if not hunks]
    found = parts(without_patches(out, apart) if apart else out)
    return joined(part for part in found if part.kind != 'text' or not any(map(BEGINS.match, part.lines)))


@change(WRITTEN, 'files-without-hunks')
def without_lone_headers(case, out):
    """No header lines without a hunk, and no block in front of them."""
    return joined(with_hunks(parts(out)))


@change(FORMATTED, 'format-text')
def without_hunk_text(case, out):
    """No lines of git or diff in front of header lines, nothing behind range lines."""
    lines = lines_of(joined(part for part in parts(out) if part.kind != 'block'))
    return b'\n'.join(bare_range(line) for line in lines)


def bare_range(line):
    """A range line without the text behind it; another line as it is."""
    found = RANGES.match(line) or HALF.match(line)
    return STARS if line.startswith(STARS) else found.group(0) if found else line


def halves(hunk):
    """The two halves of a context hunk, each with its range line; the line of stars is left out."""
    second = next((at for at, line in enumerate(hunk.lines) if at > 1 and HALF.match(line) and line.startswith(b'---')), len(hunk.lines))
    return hunk.lines[1:second], hunk.lines[second:]


def with_halves(out, of_halves):
    """The text with the halves of its context hunks changed by a function."""
    found = parts(out)
    for part in found:
        if part.kind == 'hunk' and part.lines[0].startswith(STARS):
            part.lines = part.lines[:1] + [line for half in of_halves(*halves(part)) for line in half]
    return joined(found)


@change(FORMATTED, 'patchutils-slips')
def without_ends(case, out):
    """No second half behind a first one that tells that its last line has no line feed; patchutils loses it."""
    return with_halves(out, lambda old, new: [old] if any(line.startswith(b'\\') for line in old) else [old, new])


@change(FORMATTED, 'patchutils-slips')
def without_stray_ranges(case, out):
    """No range line of a hunk that is left out; patchutils writes it."""
    found = parts(out)
    for part in found:
        part.lines = [line for line in part.lines if part.kind != 'text' or not HALF.match(line)]
    return joined(found)


def lacks_side(hunk):
    """Whether a hunk has no new lines, or one of the context form no lines of either side, nor of context."""
    if RANGES.match(hunk.lines[0]):
        return bool(re.match(rb'@@ [^+]*\+\d+,0 @@', hunk.lines[0]))
    return not all(half[1:] for half in halves(hunk)) and not any(line.startswith(b'  ') for line in hunk.lines)


def near_removals(text):
    """The names of file patches that have a hunk without lines of a side, or stand behind such a hunk."""
    found, behind = [], False
    for names, hunks in file_patches(text):
        gone = [lacks_side(hunk) for hunk in hunks]
        found += [names] if behind or any(gone) else []
        behind = any(gone[-1:])
    return found


@change(FORMATTED, 'patchutils-slips')
def without_near_removals(case, out):
    """No file patch with a hunk without lines of a side, and none behind one: patchutils counts wrong there, or loses what comes behind."""
    lines = lines_of(without_patches(out, near_removals(text_of(case))))
    return b'\n'.join(line for at, line in enumerate(lines) if not (HALF.match(line) and line.startswith(b'***') and lines[at - 1] != STARS))


def ranges_ended(text):
    """How range lines begin of hunks that were of the context form and tell of the old side that its last line has no line feed."""
    olds = [halves(part)[0] for part in parts(text) if part.kind == 'hunk' and part.lines[0].startswith(STARS)]
    numbers = [HALF.match(old[0]).group(2, 3) for old in olds if old[-1].startswith(b'\\')]
    return tuple(b'@@ -%s,%d ' % (first, int(last) - int(first) + 1) if last else b'@@ -%s ' % first for first, last in numbers)


@change(FORMATTED, 'patchutils-slips')
def without_ended_hunks(case, out):
    """No hunk of the context form that tells of its old side that the last line has no line feed; patchutils loses it with its header lines."""
    ended = ranges_ended(text_of(case))
    if not ended:
        return out
    found = parts(b'\n'.join(line for line in lines_of(out) if not line.startswith(b'\\')))
    for part in found:
        part.lines = [line for line in part.lines if part.kind != 'text' or not HALF.match(line) and line[:2] not in (b'  ', b'! ', b'+ ', b'- ')]
    return joined(with_hunks([part for part in found if part.kind != 'hunk' or not part.lines[0].startswith(ended)]))


@change(FORMATTED, 'patchutils-slips')
def without_unmarked(case, out):
    """Nothing where a hunk has a line that lost its mark; patchutils stops there, and says so with status 0."""
    lines = [line for part in parts(text_of(case)) if part.kind == 'hunk' for line in part.lines]
    return b'' if case.facts.get('damaged') and any(line[:1] in (b'', b'\t') for line in lines) else out


@change(FOUND, 'basic-patterns')
def without_basic(case, out):
    """No file patch or hunk that a pattern finds as a basic expression alone, or as an extended one alone."""
    return chosen_otherwise(case.runs[0].words, text_of(case), out, 'basic')


@change(FOUND, 'patchutils-slips')
def without_line_ends(case, out):
    """No file patch or hunk that is found by the end of a line, which patchutils doesn't see."""
    return chosen_otherwise(case.runs[0].words, text_of(case), out, 'ends')


@change(FOUND, 'patchutils-slips')
def without_told_lines(case, out):
    """No file patch or hunk that is found by a line that is none of a file: the second range line, or one that tells of a missing line feed."""
    return chosen_otherwise(case.runs[0].words, text_of(case), out, 'told')


def without_ranges(case, out, said):
    """No range lines in file patches for which a function says so."""
    lines, told = lines_of(out), lines_of(text_of(case))
    starts = [0] + [part.at for part in parts(text_of(case)) if part.kind == 'header'] + [len(told)]
    for start, end in zip(starts, starts[1:]):
        if said(told[start + 2:end], lines[start + 2:end]):
            lines[start:end] = [b'@@' if RANGES.match(line) else line for line in lines[start:end]]
    return b'\n'.join(lines) + out[len(out.rstrip(b'\n')):]


@change(RECOUNTED, 'recounted-text')
def without_blank_lines(case, out):
    """No ranges where a hunk may hold a mail's signature, or a line that lost its mark."""
    return without_ranges(case, out, lambda told, _: any(line in (b'', b'-- ', b'--') or line[:1] in b'\t\f\r' for line in told))


@change(RECOUNTED, 'recounted-text')
def without_damaged_ranges(case, out):
    """No ranges where a range line is damaged."""
    return without_ranges(case, out, lambda *both: any(re.match(rb'@ |@@ [^@]*$', line) for lines in both for line in lines))


@change(RECOUNTED, 'patchutils-slips')
def without_dashes(case, out):
    """No ranges where a hunk has a line that begins with three dashes; patchutils doesn't count it."""
    return without_ranges(case, out, lambda told, _: any(line.startswith(b'--- ') for line in told))


@change(RECOUNTED, 'line-feed-cut')
def with_line_feed(case, out):
    """The last line ends with a line feed."""
    return out if out.endswith(b'\n') else out + b'\n'
