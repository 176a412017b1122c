"""A patch text cut into its parts as patchutils reads them: text, blocks of git or diff, header lines, hunks."""
import re
from dataclasses import dataclass

GIT_LINES = (b'index ', b'old mode ', b'new mode ', b'deleted file mode ', b'new file mode ', b'copy from ', b'copy to ', b'rename from ',
             b'rename to ', b'similarity index ', b'dissimilarity index ')
RANGES = re.compile(rb'@@ -(\d+)(?:,(\d+))? \+(\d+)(?:,(\d+))? @@')
HALF = re.compile(rb'(\*\*\*|---) (\d+)(?:,(\d+))? (\*\*\*\*|----)')
STARS = b'***************'
BEGINS = re.compile(rb'@@ |--- |\+\+\+ |\*\*\* ')


@dataclass
class Part:
    """Lines that belong together; at is the number of the first one, from 0."""
    kind: str
    lines: list
    at: int


def lines_of(data):
    """The lines of a text, with their line feeds."""
    return data.removesuffix(b'\n').split(b'\n') if data else []


def block_end(lines, at):
    """The end of a block that begins here, or None if no header lines stand behind it."""
    end = at + 1
    while end < len(lines) and lines[end].startswith(GIT_LINES):
        end += 1
    return end if is_header(lines, end) else None


def is_header(lines, at):
    """Whether two header lines stand here."""
    pair = [line[:4] for line in lines[at:at + 2]]
    return pair == [b'--- ', b'+++ '] or pair == [b'*** ', b'--- '] and not HALF.match(lines[at])


def unified_end(lines, at):
    """The end of a unified hunk, by its counts."""
    ranges = RANGES.match(lines[at])
    old, new = (1 if count is None else int(count) for count in ranges.group(2, 4))
    end = at + 1
    while end < len(lines) and (old > 0 or new > 0 or lines[end].startswith(b'\\')):
        mark = lines[end][:1]
        old -= mark in (b' ', b'-', b'', b'\t')
        new -= mark in (b' ', b'+', b'', b'\t')
        end += 1
    return end


def half_end(lines, at):
    """The end of half of a context hunk whose range line stands here; it may have no lines."""
    first, last = HALF.match(lines[at]).group(2, 3)
    left = int(last) - int(first) + 1 if last else (1 if int(first) else 0)
    end = at + 1
    while end < len(lines) and left > 0 and lines[end][:2] in (b'  ', b'+ ', b'- ', b'! ') and not HALF.match(lines[end]):
        left, end = left - 1, end + 1
    return end + (end < len(lines) and end > at + 1 and lines[end].startswith(b'\\ '))


def context_end(lines, at):
    """The end of a context hunk that begins with its line of stars."""
    end = half_end(lines, at + 1)
    return half_end(lines, end) if end < len(lines) and HALF.match(lines[end]) else end


def hunk_end(lines, at):
    """The end of a hunk that begins here, or None."""
    if RANGES.match(lines[at]):
        return unified_end(lines, at)
    if lines[at].startswith(STARS) and at + 1 < len(lines) and HALF.match(lines[at + 1]):
        return context_end(lines, at)
    return None


def part_at(lines, at, inside):
    """The kind and the end of the part that begins here."""
    if lines[at].startswith(b'diff ') and block_end(lines, at):
        return 'block', block_end(lines, at)
    if is_header(lines, at):
        return 'header', at + 2
    end = hunk_end(lines, at) if inside else None
    return ('hunk', end) if end else ('text', at + 1)


def parts(data):
    """The parts of a text, one behind the other; lines of text side by side are one part."""
    lines, at, found = lines_of(data), 0, []
    while at < len(lines):
        inside = bool(found) and found[-1].kind in ('header', 'hunk')
        kind, end = part_at(lines, at, inside)
        if kind == 'text' and found and found[-1].kind == 'text':
            found[-1].lines += lines[at:end]
        else:
            found.append(Part(kind, lines[at:end], at))
        at = end
    return found


def joined(found):
    """The text of parts."""
    return b''.join(line + b'\n' for part in found for line in part.lines)


def names_of(header):
    """The names of two header lines, each whole and up to its first blank."""
    names = [line[4:].split(b'\t')[0] for line in header.lines]
    return names + [name.split(b' ')[0] for name in names]


def file_patches(data):
    """The file patches of a text: each its names and its hunks."""
    found = []
    for part in parts(data):
        if part.kind == 'header':
            found.append((names_of(part), []))
        elif part.kind == 'hunk' and found:
            found[-1][1].append(part)
    return found


def with_hunks(found):
    """The parts without header lines that have no hunk, and without blocks in front of those."""
    kept, behind = [], ''
    for part in reversed(found):
        stays = {'header': 'hunk', 'block': 'header'}.get(part.kind) in (None, behind)
        kept += [part] if stays else []
        behind = part.kind if stays else ''
    return kept[::-1]
