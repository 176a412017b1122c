"""Why a filter prints or leaves something else than patchutils: each difference is given to a key, by small functions."""
import re

import case as cases
import filter_words
from case import Difference
from filter_cuts import CUT, SEPARATOR, parts_left
from filter_lists import LISTED, NAMED, lone_names
from filter_outputs import FORMATTED, FOUND, RECOUNTED, WRITTEN, text_of, without_starts, without_text
from filter_parts import RANGES, lines_of


def differences(theirs, ours):
    """All that differs: what is left, the status, and what is printed."""
    printed = [Difference('out', number, *pair) for number, pair in enumerate(zip(theirs.out, ours.out)) if pair[0] != pair[1]]
    return cases.differences(theirs, ours) + printed


def told(left):
    """What a call says on standard error."""
    return left.err[0].decode(errors='replace')


def refusal_status(case, theirs, ours, found):
    """Both refuse the call, with statuses of their own; theirs may tell its words on standard output."""
    told_words = all(each.what == 'status' or each.what == 'out' and each.gnu.startswith(b'Options:') for each in found)
    return ['refusal-status'] if theirs.status == [1] and ours.status == [2] and told_words else []


def said_again(case, theirs, ours, found):
    """An option that patchutils refuses where it is given again, and of which ours takes the last value."""
    said = [word.split('=')[0] for word in case.runs[0].words if re.match(r'--(format|hunks|lines|files)=', word)]
    return ['said-again'] if len(said) != len(set(said)) and theirs.status == [1] and ours.status == [0] else []


def refused_words(case, theirs, ours, found):
    """Ours can't take a word."""
    if ours.status != [2] or 'the words are not a command' not in told(ours):
        return []
    key = filter_words.key_of_refusal(case.runs[0], told(ours))
    return [key] if key else []


def refused_text(case, theirs, ours, found):
    """Ours refuses the text, as one that lost a line."""
    said = re.search(r'\*\*\*\* (malformed patch at line \d+: |Only garbage was found)', told(ours))
    if ours.status != [2] or not said:
        return []
    return ['filter-refuses'] if case.facts.get('damaged') else []


def refused_pattern(case, theirs, ours, found):
    """Ours reads a basic expression as an extended one, and can't."""
    return ['basic-patterns'] if ours.status == [2] and "the pattern can't be read" in told(ours) and '-E' not in case.runs[0].words else []


def pattern_files(case, theirs, ours, found):
    """A file of patterns that is empty takes no file patch with ours, and all with patchutils."""
    empty = b'patterns' in case.tree and not case.tree[b'patterns'].data
    return ['pattern-files'] if empty and not ours.out[0] else []


def printed(case, theirs, ours, found):
    """Both print something, and it is the same but for causes that have keys."""
    ended = ['status'] if 'missing' in case.runs[0].words and theirs.status == [1] and ours.status == [2] else []
    if [each.what for each in found] != [*ended, 'out'] or not is_chosen(case, ours.out[0]):
        return []
    keys = fewest(case, theirs.out[0], ours.out[0], causes(case)) + (['refusal-status'] if ended else [])
    return [] if 'moved-starts' in keys and not has_told_starts(case, ours.out[0]) else keys


def has_told_starts(case, out):
    """Whether the range lines of the unified hunks are those of the text, but for what stands behind them."""
    known = {found.group(0) for found in RANGES.finditer(text_of(case))}
    formatted = any(word.startswith('--format=') for word in case.runs[0].words)
    return formatted or all(found.group(0) in known for found in map(RANGES.match, lines_of(out)) if found)


def is_chosen(case, out):
    """Whether a text that is only chosen from has its lines as they stand there and in their order."""
    run = case.runs[0]
    writes = run.tool == 'filterdiff' or any(word.startswith('--output-m') for word in run.words)
    if not writes or any(word.startswith(('--format', '--annotate', '--as-', '--clean', '--strip=', '--add', '--remove')) for word in run.words):
        return True
    rest = iter(lines_of(without_starts(case, text_of(case))))
    return all(line in rest for line in lines_of(without_starts(case, out)))


def causes(case):
    """The changes that may take away what differs in a tool's output."""
    run = case.runs[0]
    if run.tool == 'recountdiff':
        return RECOUNTED
    if case.kind == 'header_names':
        return NAMED + (WRITTEN if run.tool == 'filterdiff' else LISTED)
    matching = any(word.startswith('--output-m') for word in run.words)
    if run.tool == 'grepdiff':
        return FOUND + (WRITTEN if matching else LISTED)
    if run.tool == 'lsdiff':
        return LISTED
    return (FORMATTED if any(word.startswith('--format=') for word in run.words) else []) + WRITTEN


def cut(case, theirs, ours, found):
    """The parts of a text have other names; what is in them is the same but for causes that have keys."""
    if case.runs[0].tool != 'splitdiff' or ours.status != [0] or theirs.status != [0]:
        return []
    one, other = parts_left(theirs), parts_left(ours)
    if b'nothing to do' in theirs.out[0]:
        return uncut(case, other) if not one else []
    if b'Wrote >>' in theirs.out[0] and same_lines(one, other):
        return ['split-names']
    keys = fewest(case, one, other, WRITTEN + CUT) if one != other else ['split-names']
    keys = keys or (['patchutils-slips'] if lost_end(case, one, other) else [])
    return sorted({*keys, 'split-names'}) if keys else []


def same_lines(one, other):
    """Whether parts have the same lines in all: where a name comes again patchutils puts a part behind the first with that name."""
    one, other = (sorted(lines_of(parts.replace(SEPARATOR, b''))) for parts in (one, other))
    return one == other


def lost_end(case, one, other):
    """Whether patchutils, asked for no part a file patch, loses the end of the text, which ours keeps whole."""
    one, other = (without_text(case, parts.replace(SEPARATOR, b'')) for parts in (one, other))
    return '-a' not in case.runs[0].words and other.startswith(one) and other == without_text(case, case.tree[b'p'].data)


def other_numbers(case, theirs, ours, found):
    """File patches of git without hunks have numbers of their own, so --files takes others."""
    numbered = any(word.startswith(('--files', '-F')) for word in case.runs[0].words)
    return ['files-without-hunks'] if numbered and ours.status == [0] and lone_names(case.tree[b'p'].data) else []


def uncut(case, parts):
    """Ours makes one part of a text that there is nothing to do for, or more by file patches without hunks."""
    whole = parts.replace(SEPARATOR, b'').rstrip(b'\n') == case.tree[b'p'].data.rstrip(b'\n')
    if not whole:
        return []
    return ['split-names'] if parts.count(SEPARATOR) <= 1 else ['split-names', 'files-without-hunks'] if lone_names(case.tree[b'p'].data) else []


def missing_recounted(case, theirs, ours, found):
    """patchutils tells by no status that there is no such file to recount."""
    return ['patchutils-slips'] if case.runs[0].tool == 'recountdiff' and "Can't open" in theirs.err[0].decode() and 'not found' in told(ours) else []


def lost_by_garbage(case, theirs, ours, found):
    """patchutils, asked for another form, ends at text between hunks and header lines, and loses what stands behind it, with status 0."""
    formatted = any(word.startswith('--format=') for word in case.runs[0].words)
    return ['patchutils-slips'] if formatted and 'Garbled input' in told(theirs) and ours.status == [0] else []


def same_after(case, theirs, ours, changes):
    """Whether both texts are the same once they are changed so."""
    for _, change in changes:
        theirs, ours = change(case, theirs), change(case, ours)
    return theirs == ours


def fewest(case, theirs, ours, changes):
    """The keys of changes after which both texts are the same, none of which can be left out; slips are left out first."""
    if not same_after(case, theirs, ours, changes):
        return []
    needed = list(changes)
    for each in sorted(changes, key=lambda pair: pair[0] != 'patchutils-slips'):
        fewer = [other for other in needed if other is not each]
        needed = fewer if same_after(case, theirs, ours, fewer) else needed
    return sorted({key for key, _ in needed})


REASONS = (refusal_status, said_again, refused_words, refused_text, refused_pattern, missing_recounted, lost_by_garbage, pattern_files, cut, printed, other_numbers)


def key_of(case, theirs, ours, found):
    """The keys of a case, each with what it explains."""
    for reason in REASONS:
        keys = reason(case, theirs, ours, found)
        if keys:
            return [(key, found) for key in keys]
    return []
