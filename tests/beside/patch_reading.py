"""What a patch text says, as far as the reasons of differences rest on it: its file patches with their names and marks.

It reads what the kinds write, and no more than that: it isn't a second reader of patches.
"""
import re
from dataclasses import dataclass, field

from seen import strip_count, stripped

ESCAPES = {b"a": 7, b"b": 8, b"t": 9, b"n": 10, b"v": 11, b"f": 12, b"r": 13, b'"': 34, b"\\": 92}
SIGNS = re.compile(rb"\\([0-7]{3}|.)", re.DOTALL)
QUOTED = re.compile(rb'"((?:[^"\\]|\\.)*)"', re.DOTALL)
TWO_NAMES = re.compile(rb'("(?:[^"\\]|\\.)*"|[^"]*?) ("(?:[^"\\]|\\.)*"|[^"]*)', re.DOTALL)
RANGE = re.compile(rb"@@ -\d+(?:,(\d+))? \+\d+(?:,(\d+))? @@")
HALF = re.compile(rb"(?:\*\*\*|---) \d+(?:,\d+)? (?:\*\*\*\*|----)")
STARS = b"*" * 15
SUFFIXES = (b".orig", b".rej", b".old")


@dataclass
class Part:
    """One file patch: the names that it can be meant for, as -p leaves them and as they are spelled, and what marks it."""
    hunks: int
    names: set = field(default_factory=set)
    spelled: set = field(default_factory=set)
    marks: set = field(default_factory=set)
    source: "bytes | None" = None
    target: "bytes | None" = None


@dataclass
class Piece:
    """The lines of a file patch in front of its hunks, and how many hunks it has."""
    head: list
    hunks: int = 0


def text_of(case):
    """Returns the patch text of a case of one call."""
    return case.beside.get(b"change.diff", case.runs[0].stdin)


def sign(found):
    """Returns the byte that a sign behind a backslash stands for."""
    return bytes([ESCAPES[found[1]] if found[1] in ESCAPES else int(found[1], 8) & 255])


def unquoted(word):
    """Returns the name that a text begins with: within double quotes, or the whole text."""
    found = QUOTED.match(word)
    return SIGNS.sub(sign, found[1]) if found else word


def behind(lines, at, old, new):
    """Returns the place behind the lines of a unified hunk that begin there."""
    while at < len(lines) and (old > 0 or new > 0):
        mark = lines[at][:1]
        old, new, at = old - (mark not in (b"+", b"\\")), new - (mark not in (b"-", b"\\")), at + 1
    return at


def opens(lines, at, last):
    """Returns whether a file patch begins there: at git's first line, or at two lines of names that belong to none."""
    line, following = lines[at], lines[at + 1] if at + 1 < len(lines) else b""
    named = line.startswith(b"--- ") and following.startswith(b"+++ ") or line.startswith(b"*** ") and following.startswith(b"--- ")
    waits = last is not None and not last.hunks and last.head[0].startswith(b"diff --git ") and not any(it.startswith(b"--- ") for it in last.head)
    return line.startswith(b"diff --git ") or named and not HALF.match(line) and not waits


def pieces(text):
    """Returns the file patches of a text as pieces."""
    lines, found, at = text.replace(b"\r\n", b"\n").split(b"\n"), [], 0
    while at < len(lines):
        ranged = RANGE.match(lines[at])
        if opens(lines, at, found[-1] if found else None):
            found.append(Piece([]))
        if found and not found[-1].hunks:
            found[-1].head.append(lines[at])
        if found and (ranged or lines[at].startswith(STARS)):
            found[-1].hunks += 1
        at = behind(lines, at + 1, *(int(it or 1) for it in ranged.groups())) if ranged else at + 1
    return found


def add_name(part, spelled, strip):
    """Notes a name; strip is 'none' for one that has no prefix."""
    name = unquoted(spelled)
    if name != b"/dev/null":
        part.names.add(name if strip == "none" else stripped(name, strip))
        part.spelled.add(spelled if strip == "none" else stripped(spelled, strip))
    part.marks |= {"quoted"} if spelled.startswith(b'"') else set()
    part.marks |= {"newline"} if b"\n" in name else set()


def take_first(part, rest, strip):
    """Takes git's first line, where its two names can be told apart."""
    part.marks.add("git")
    half = len(rest) // 2
    alike = rest[:half].split(b"/")[1:] == rest[half + 1:].split(b"/")[1:]
    words = TWO_NAMES.fullmatch(rest) if b'"' in rest or rest.count(b" ") == 1 else None
    for name in [rest[:half], rest[half + 1:]] if alike else words.groups() if words else []:
        add_name(part, name, strip)


def take_name(part, rest, strip):
    """Takes a line of one side's name."""
    part.marks.add("named")
    add_name(part, rest.split(b"\t")[0], strip)


def take_move(mark, side):
    """Returns what takes a line of a rename or a copy."""
    def take(part, rest, _strip):
        part.marks.add(mark)
        setattr(part, side, unquoted(rest))
        add_name(part, rest, "none")
    return take


def take_mode(word):
    """Returns what takes a line of a mode."""
    def take(part, rest, _strip):
        part.marks.add(word)
        if rest.startswith(b"12"):
            part.marks.add("link")
        elif word in ("old mode", "new mode") or rest == b"100755":
            part.marks.add("mode")
    return take


def take_binary(part, _rest, _strip):
    """Takes a line that says that a change is binary."""
    part.marks.add("binary")


def take_index(part, rest, _strip):
    """Takes git's line of hashes."""
    part.marks |= {"link"} if rest.endswith(b" 120000") else set()


MOVES = {f"{mark} {word} ".encode(): take_move(mark, side) for mark in ("rename", "copy") for word, side in (("from", "source"), ("to", "target"))}
MODES = {f"{word} ".encode(): take_mode(word) for word in ("old mode", "new mode", "new file mode", "deleted file mode")}
TAKES = {b"diff --git ": take_first, b"--- ": take_name, b"+++ ": take_name, b"*** ": take_name, b"GIT binary": take_binary,
         b"Binary files": take_binary, b"index ": take_index, **MOVES, **MODES}


def part_of(piece, strip):
    """Returns what a piece says."""
    part = Part(piece.hunks)
    for line in piece.head:
        for mark, take in TAKES.items():
            if line.startswith(mark) and not HALF.match(line):
                take(part, line[len(mark):], strip)
    return part


def parts_of(case):
    """Returns the file patches of a case's text."""
    return [part_of(piece, strip_count(case)) for piece in pieces(text_of(case))]


def owner(name):
    """Returns the name of the file that a backup or reject file belongs to, or the name itself."""
    return next((name[:-len(it)] for it in SUFFIXES if name.endswith(it)), name)


def all_names(parts):
    """Returns the names of these file patches."""
    return {name for part in parts for name in part.names}


def names_of(parts, *marks):
    """Returns the names of those file patches that have one of the marks."""
    return all_names(part for part in parts if part.marks & set(marks))
