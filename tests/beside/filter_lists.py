"""Changes of lists of names: each takes one cause of a difference away, from both outputs alike."""
import re

from filter_outputs import change, text_of
from filter_parts import BEGINS, file_patches, names_of, parts, with_hunks
from filter_patterns import is_one_of, without_patches

LISTED = []
NAMED = []
NULL_NAMES = (b'', b'src/f.c', b'f.c')  # what ours lists where both names are /dev/null: none, or that of the Index line
LINE = re.compile(rb'([pq][:-])?(?:(\d*)\t)?(File #\d+ *\t)?(?:([-+!?]?) )?(.*)')


def rewritten(out, of_line, numbered=True):
    """
    The list with each line changed by a function of its number, sign and name; None leaves it out. The name of a file stays in front, and
    the number of a file patch behind that of its line, but where that depends on what is left out.
    """
    lines = [LINE.fullmatch(line).groups() for line in out.split(b'\n')[:-1]]
    found = ((file, place if numbered else b'', of_line(number, *line)) for file, number, place, *line in lines)
    words = ((file, line[0], place, *line[1:]) for file, place, line in found if line)
    return b''.join(b'%s%s\t%s%s %s\n' % tuple(word or b'' for word in line) for line in words)


def without_named(case, out, odd, besides=()):
    """What is printed, without the file patches whose names a function calls odd."""
    names = [names for names, _ in file_patches(text_of(case)) if odd(names)]
    if case.runs[0].tool == 'filterdiff' or not names:
        return without_patches(out, names)
    odd_name = lambda name: name in besides or any(is_one_of(name, some) for some in names)  # noqa: E731
    return rewritten(out, lambda number, sign, name: None if odd_name(name) else (number, sign, name), False)


@change(NAMED, 'double-slashes')
def without_double_slashes(case, out):
    """No file patch with a name in which slashes stand side by side: which of its names is better may differ."""
    return without_named(case, out, lambda names: any(b'//' in name for name in names))


@change(NAMED, 'null-names')
def without_null_names(case, out):
    """No file patch of which both names are /dev/null."""
    return without_named(case, out, lambda names: set(names) == {b'/dev/null'}, NULL_NAMES)


@change(LISTED, 'strip-match-alone')
def with_last_components(case, out):
    """The last component of each name alone, where -p stands with an empty file of patterns alone."""
    words, none = ' '.join(case.runs[0].words), b'patterns' in case.tree and not case.tree[b'patterns'].data
    if not none or not re.search(r'(^| )(-p|--strip-match)', words):
        return out
    return rewritten(out, lambda number, sign, name: (number, sign, name.split(b'/')[-1]))


@change(LISTED, 'patchutils-slips')
def with_one_sign(case, out):
    """The one sign that patchutils has for what grepdiff finds."""
    if case.runs[0].tool != 'grepdiff' or not re.search(r'(^| )-s', ' '.join(case.runs[0].words)):
        return out
    return rewritten(out, lambda number, sign, name: (number, sign and b'!', name))


@change(LISTED, 'hunks-told-twice')
def without_second_verbose(case, out):
    """No numbers of files, and nothing behind the numbers of hunks, where -v stands twice."""
    if not re.search(r'(^| )-\w*v\w*v', ' '.join(case.runs[0].words)):
        return out
    return re.sub(rb'(?m)^(\t\d+\tHunk #\d+)\t.*$', rb'\1', re.sub(rb'(?m)^(\d+\t)File #\d+ *\t', rb'\1', out))


@change(LISTED, 'counted-from-diff')
def with_header_lines(case, out):
    """Each number of a line of git or diff in front of header lines is that of the first header line."""
    found = parts(text_of(case))
    headers = {b'%d' % (part.at + 1): b'%d' % (part.at + len(part.lines) + 1) for part in found if part.kind == 'block'}
    return rewritten(out, lambda number, sign, name: (headers.get(number, number), sign, name))


@change(LISTED, 'numbers-per-file')
def without_numbers(case, out):
    """No numbers of lines and of file patches, where several files are listed: patchutils counts on from one to the next."""
    if not {'p', 'q'} <= set(case.runs[0].words):
        return out
    out = re.sub(rb'(?m)^([pq]:(?:\d*\t)?)File #\d+ *\t', rb'\1', out)
    return re.sub(rb'(?m)^([pq](?::|-\t ?))\d+\t', rb'\1\t', out)


def lone_names(text):
    """The names of the file patches of git that have no hunks."""
    found = parts(text)
    whole = [part.at for part in with_hunks(found) if part.kind != 'text']
    lines = [line for part in found if part.at not in whole for line in part.lines]
    return [name for line in lines if line.startswith((b'diff --git ', b'rename to ', b'copy to ')) for name in line.split(b' ')[2:]]


@change(LISTED, 'files-without-hunks')
def without_lone_files(case, out):
    """No file that git makes, removes, renames or copies without a hunk, and none of header lines that have none."""
    names = lone_names(text_of(case)) + [name for names, hunks in file_patches(text_of(case)) if not hunks for name in names]
    return rewritten(out, lambda number, sign, name: None if is_one_of(name, names) else (number, sign, name), not names)


def header_lines(text):
    """The header lines of a text, without their marks."""
    return [line[4:] for part in parts(text) if part.kind == 'header' for line in part.lines]


@change(LISTED, 'headerless-hunks')
def without_lone_headers(case, out):
    """No name of a header line that stands alone, and none that is empty, as of hunks without header lines."""
    lines = [line for part in parts(text_of(case)) if part.kind == 'text' for line in part.lines if BEGINS.match(line)]
    names = [b'', *(line[4:].split(b'\t')[0] for line in lines)] if case.facts.get('damaged') else []
    return rewritten(out, lambda number, sign, name: None if is_one_of(name, names) else (number, sign, name), not names)


WHOLE_STAMP = re.compile(rb'\t(\(.*\)|20\d\d-\d\d-\d\d \d\d:\d\d:\d\d\.\d+ [-+]\d{4})?$|^[^\t ]*$')


@change(LISTED, 'stamp-spellings')
def without_signs(case, out):
    """No sign where a stamp is in a short spelling, or the epoch."""
    headers = [part for part in parts(text_of(case)) if part.kind == 'header']
    odd = [names_of(part) for part in headers if not all(WHOLE_STAMP.search(line[4:]) for line in part.lines)]
    odd_name = lambda name: any(is_one_of(name, names) or names[0].startswith(name) for names in odd)  # noqa: E731
    return rewritten(out, lambda number, sign, name: (number, b'?' if odd_name(name) else sign, name))


@change(LISTED, 'name-of-blanks')
def without_blanks(case, out):
    """Names up to their first blank, where a header line has blanks and no tab in it."""
    told = {re.split(rb'[ \t]', line)[0] for line in header_lines(text_of(case)) if b' ' in line.split(b'\t')[0]}
    return rewritten(out, lambda number, sign, name: (number, sign, name.split(b' ')[0] if name.split(b' ')[0] in told else name))
