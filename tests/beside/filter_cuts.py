"""Changes of the parts that splitdiff leaves: each takes one cause of a difference away."""
import re

from filter_outputs import change
from filter_parts import is_header, lines_of

CUT = []
SEPARATOR = b'=== part\n'


def parts_left(left):
    """The parts that a call left, in the order in which their names were told, one text with a line in front of each."""
    told = dict.fromkeys(re.sub(rb'^Wrote >+', b'', line) for line in lines_of(left.out[0]))
    return b''.join(SEPARATOR + left.shape[name][2] for name in told if left.shape.get(name, ('',))[0] == 'file')


@change(CUT, 'files-without-hunks')
def without_empty_parts(case, out):
    """No part without header lines."""
    found = [part for part in out.split(SEPARATOR) if any(is_header(lines_of(part), at) for at in range(len(lines_of(part))))]
    return b''.join(SEPARATOR + part for part in found)


@change(CUT, 'patchutils-slips')
def joined_again(case, out):
    """All parts one behind the other, where a name comes a third time; patchutils then cuts at another place."""
    return out if '-a' in case.runs[0].words else out.replace(SEPARATOR, b'')


@change(CUT, 'headerless-hunks')
def joined_where_damaged(case, out):
    """All parts one behind the other, where header lines are damaged: hunks without them begin a part of ours."""
    return out.replace(SEPARATOR, b'') if case.facts.get('damaged') else out
