"""Why odd trees and texts lead to something else: links and directories in the way, long names, damaged and binary patches."""
import re

from case import Reasons
from seen import about, file_patches, hunks_of, names_of, of, original, refused, stop, texts_of, unreached, with_status

REASONS = Reasons()


def obstacles(case):
    """The links and directories of a tree that stand at the name of a file, a backup or a reject."""
    odd = {name for name, entry in case.tree.items() if entry.kind != "file"}
    names = {name for piece in file_patches(texts_of(case)) for name in names_of(case, piece)}
    return odd.intersection(*[{each + end for each in names for end in (b"", b".rej", b".orig")}]), names


@REASONS.of("in-the-way")
def in_the_way(case, gnu, ours, differences):
    """A link or directory where a file, a backup or a reject should be; ours does nothing there but rejects, also where no backup comes."""
    odd, names = obstacles(case)
    barred = {name for name in names if odd & {name, name + b".rej", name + b".orig"}}
    found = about(case, of(differences, "missing", "extra", "kind"), {name + end for name in barred for end in (b"", b".rej", b".orig")} & odd)
    found += [each for each in about(case, of(differences, "missing", "extra"), barred) if each not in found]
    found += [each for each in of(differences, "bytes", names=barred) if each.ours == original(case, each.name)]
    if not odd or stop(gnu, ours) != "gnu":
        return with_status(found, gnu, ours, differences, (0, 1))
    return found + [each for each in unreached(case, gnu, ours, differences, "gnu") if each not in found]


@REASONS.of("links-on-the-way")
def links_on_the_way(case, gnu, ours, differences):
    """A link to a directory in front of the file, which ours never follows."""
    found = []
    for link in sorted(name for name, entry in case.tree.items() if entry.kind == "link"):
        inside = {name for piece in file_patches(texts_of(case)) for name in names_of(case, piece) if name.startswith(link + b"/")}
        behind = {b"real" + name[len(link):] for name in inside}
        found += about(case, of(differences, "missing"), inside | behind)
        found += [each for each in of(differences, "bytes", names=behind) if each.ours == original(case, each.name)]
    return with_status(found, gnu, ours, differences, (0, 1))


@REASONS.of("long-names")
def long_names(case, gnu, ours, differences):
    """A name so long that one of both can't put its temporary, backup or reject beside it."""
    if not any(len(part) > 240 for name in case.tree for part in name.split(b"/")):
        return []
    stopped = [side for side, left in (("gnu", gnu), ("ours", ours)) if left.status == [2]]
    found = unreached(case, gnu, ours, differences, stopped[0]) if stopped else []
    lacks_room = any(b"Can't create temporary file" in text for text in gnu.out + gnu.err)
    return found or (of(differences, "status") if lacks_room else [])


@REASONS.of("binary-changes")
def binary_changes(case, gnu, ours, differences):
    """A text with a line `Binary files .. differ` is refused."""
    return differences if refused(case, ours) and b"\nBinary files " in b"\n" + texts_of(case) else []


@REASONS.of("malformed-refuses-all")
def malformed(case, gnu, ours, differences):
    """A text with a malformed line is refused before anything is done."""
    return differences if case.kind == "damaged" and refused(case, ours) and any(b"malformed patch" in err for err in ours.err) else []


@REASONS.of("headerless-hunks")
def headerless_hunks(case, gnu, ours, differences):
    """Hunks behind a stray line, which GNU patch drops without a word and ours tells as skipped."""
    said = [sum(out.count(b"can't find file to patch") for out in left.out) for left in (gnu, ours)]
    return of(differences, "status") if len(differences) == 1 and (gnu.status, ours.status) == ([0], [1]) and said[0] < said[1] else []


@REASONS.of("damaged-beginnings")
def damaged_starts(case, gnu, ours, differences):
    """A damaged line that should begin a hunk, which is text here and ends GNU patch's run."""
    told = any(re.search(rb"\*\*\*\* (missing line number|Overdue|Missing)", text) for text in gnu.out + gnu.err)
    return unreached(case, gnu, ours, differences, "gnu") if told and gnu.status == [2] and ours.status in ([0], [1]) else []


@REASONS.of("mangled-context")
def mangled_context(case, gnu, ours, differences):
    """A context hunk whose halves use different marks for one change: GNU patch ends there or loses lines, ours takes it."""
    if case.kind != "damaged" or not any(piece.form == "context" for piece in file_patches(texts_of(case))):
        return []
    told = re.search(rb"\*\*\*\* (Out-of-sync patch|replacement text or line numbers mangled)", b"\n".join(gnu.out + gnu.err))
    if gnu.status == [2] and told:
        return unreached(case, gnu, ours, differences, "gnu")
    return [each for each in of(differences, "bytes") if each.ours == case.facts["new"].get(each.name) or is_marked_otherwise(each)]


def is_marked_otherwise(each):
    """Whether two rejects differ in the marks of lines alone, header lines aside."""
    plain = [re.sub(rb"^[-+!] ", b"! ", hunks_of(reject), flags=re.M) for reject in (each.gnu, each.ours)]
    return each.name.endswith(b".rej") and plain[0] == plain[1]


@REASONS.of("ed-order")
def ed_order(case, gnu, ours, differences):
    """Ed scripts whose commands don't stand from the last line to the first are refused."""
    return differences if refused(case, ours) and any(b"ed commands out of order" in err for err in ours.err) else []


@REASONS.of("ed-names")
def ed_names(case, gnu, ours, differences):
    """The header lines in front of an ed script don't name its file."""
    if case.kind != "ed" or not texts_of(case).startswith(b"---"):
        return []
    return of(differences, "status") + [each for each in of(differences, "bytes") if each.ours == original(case, each.name)]


@REASONS.of("backup-bits")
def backup_bits(case, gnu, ours, differences):
    """The backup of a setuid, setgid or sticky file loses that bit."""
    return [each for each in of(differences, "mode") if each.gnu & 0o777 == each.ours & 0o777 and each.ours & 0o7000 == 0]
