"""What a pattern of grepdiff finds as a basic and as an extended expression, and with the line feed in the line or without."""
import re

from filter_parts import HALF, file_patches, joined, names_of, parts, with_hunks

TURNED = re.compile(r'\\([(){}|+?])|([(){}|+?])')


def as_extended(basic):
    """The extended expression that means what a basic one means."""
    turned = TURNED.sub(lambda found: found.group(1) or '\\' + found.group(2), basic)
    return '\\' + turned if turned.startswith('*') else turned


def finds(pattern, line):
    """Whether a pattern matches somewhere; one that can't be read matches nothing."""
    try:
        return bool(re.search(pattern.replace('[[:digit:]]', '[0-9]').encode(), line, re.DOTALL))
    except re.error:
        return False


def words_pattern(words):
    """The pattern as the words have it."""
    return next(word for word in reversed(words) if word not in ('p', 'q'))


def pattern_of(words):
    """The pattern as an extended expression that means what patchutils takes it for."""
    return words_pattern(words) if '-E' in words else as_extended(words_pattern(words))


def differs(words, line, cause):
    """Whether a line without its mark is found otherwise for a cause."""
    pattern = pattern_of(words)
    if cause == 'basic':
        return finds(words_pattern(words), line) != finds(pattern, line)
    return finds(pattern, line) != finds(pattern.replace('$', r'\Z'), line + b'\n')


def hunk_differs(words, hunk, cause):
    """Whether a line of a hunk is found otherwise."""
    if cause == 'told':
        return any(finds(pattern_of(words), line) for line in hunk.lines[1:] if HALF.match(line) or line.startswith(b'\\'))
    mark = 2 if hunk.lines[0].startswith(b'***') else 1
    return any(differs(words, line[mark:], cause) for line in hunk.lines[1:])


def is_one_of(name, names):
    """Whether a name is one of these, or one of them with components in front left out."""
    return any(name == other or other.endswith(b'/' + name) for other in names)


def chosen_otherwise(words, text, out, cause):
    """What is printed, without the hunks (in a list: the names) in which a line is found otherwise."""
    if any(word.startswith('--output-matching=hunk') for word in words):
        return joined(with_hunks([part for part in parts(out) if part.kind != 'hunk' or not hunk_differs(words, part, cause)]))
    otherwise = [names for names, hunks in file_patches(text) if any(hunk_differs(words, hunk, cause) for hunk in hunks)]
    if any(word.startswith('--output-matching') for word in words):
        return without_patches(out, otherwise)
    return without_names(out, otherwise)


FRONT = re.compile(rb'(?:\d+\t)?(?:[-+!] )?')


def without_names(out, otherwise):
    """The list without the file patches that have these names, and without the lines of their hunks."""
    found, inside = [], False
    for line in out.split(b'\n')[:-1]:
        if not line.startswith(b'\t'):
            inside = any(is_one_of(FRONT.sub(b'', line, count=1), names) for names in otherwise)
        if not inside:
            found.append(line + b'\n')
    return b''.join(found)


def without_patches(out, otherwise):
    """The text without the file patches that have these names."""
    found, inside = [], False
    for part in parts(out):
        if part.kind == 'header':
            inside = names_of(part) in otherwise
        if part.kind != 'block' and not inside:
            found.append(part)
    return joined(found)
