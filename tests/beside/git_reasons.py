"""Why ours leaves something else than GNU patch and `git apply` do of patches by git."""
import re

from case import Reasons
from patch_reading import all_names, names_of, owner, parts_of
from seen import refused, strip_count, untouched

REASONS = Reasons()


def statuses(differences):
    """Returns the differences of the exit status."""
    return [each for each in differences if each.what == "status"]


def of_files(differences, names):
    """Returns what differs of these files, their backups and rejects, and the directories that were made for them or weren't."""
    def is_of(each):
        return owner(each.name) in names or each.what == "missing" and each.gnu[0] == "dir" and any(name.startswith(each.name + b"/") for name in names)
    return [each for each in differences if each.what not in ("status", "mode") and is_of(each)]


def of_names(differences, names):
    """Returns what differs of these files, and the status with it, also where that alone differs."""
    return of_files(differences, names) + statuses(differences) if names else []


def says(left, *texts):
    """Returns whether a run tells one of these texts."""
    return any(text in told for told in left.out + left.err for text in texts)


def is_reversed(case):
    """Returns whether the patch is taken back."""
    return "-R" in case.runs[0].words


def spelled_names(parts):
    """Returns the names of these file patches as they are spelled."""
    return {name for part in parts for name in part.spelled}


def moves_of(parts):
    """Returns the file patches that are renames or copies."""
    return [part for part in parts if part.marks & {"rename", "copy"}]


def sides(case, part):
    """Returns where a rename or a copy takes its file from, and where it puts it, as it is applied."""
    return (part.target, part.source) if is_reversed(case) else (part.source, part.target)


@REASONS.of("peer-aborts")
def git_refuses(case, gnu, _ours, differences):
    """A text by git that `git apply` itself refuses, as a rename to a file that is there."""
    return differences if case.peer == "git" and gnu.status == [1] and untouched(case, gnu) else []


@REASONS.of("binary-changes")
def refused_for_binary(case, _gnu, ours, differences):
    """The whole text is refused for one binary change."""
    return differences if refused(case, ours) and says(ours, b"a binary change") else []


@REASONS.of("binary-changes")
def binary_file(case, _gnu, _ours, differences):
    """A binary change that was made, or was passed over otherwise."""
    return of_names(differences, names_of(parts_of(case), "binary"))


@REASONS.of("git-modes")
def modes_of_files(case, _gnu, _ours, differences):
    """The bits that git's modes don't tell of."""
    names = names_of(parts_of(case), "mode")
    found = [each for each in differences if each.what == "mode" and owner(each.name) in names]
    return [each for each in found if not (each.gnu ^ each.ours) & 0o100]


@REASONS.of("git-modes")
def modes_of_moved(case, _gnu, _ours, differences):
    """The permission bits of a moved or copied file, where another file stood or whose mode the text sets elsewhere."""
    parts = parts_of(case)
    known = {*case.tree, *names_of(parts, "mode")}
    names = all_names(part for part in moves_of(parts) if part.names & known)
    return [each for each in differences if each.what == "mode" and owner(each.name) in names]


@REASONS.of("git-links")
def links(case, _gnu, _ours, differences):
    """A link that is renamed or copied, of which no line gives the mode, and the status with it."""
    there = {name for name, entry in case.tree.items() if entry.kind == "link"}
    parts = parts_of(case)
    moved = all_names(part for part in moves_of(parts) if part.names & there)
    return of_names(differences, moved)


@REASONS.of("name-bytes")
def name_bytes(case, _gnu, _ours, differences):
    """A file whose name isn't in UTF-8, or has a control byte, is found there and not here."""
    return of_names(differences, all_names(part for part in parts_of(case) if not all(map(is_plain, part.names))))


def is_plain(name):
    """Returns whether a name is in UTF-8 and has no control byte (a byte 0 is another cause)."""
    return name.decode("utf-8", "replace").encode() == name and min(name.replace(b"\0", b""), default=32) >= 32 and 127 not in name


@REASONS.of("name-ends-in-blank")
def name_ends_in_blank(case, _gnu, _ours, differences):
    """A name that ends in a blank has none there, and is another name."""
    names = all_names(part for part in parts_of(case) if any(name.endswith(b" ") for name in part.names))
    return of_names(differences, names | {name.rstrip(b" ") for name in names})


@REASONS.of("newline-names")
def newline_names(case, _gnu, _ours, differences):
    """A file whose name has a line feed."""
    named = [part for part in parts_of(case) if "newline" in part.marks]
    return of_names(differences, all_names(named) | spelled_names(named))


def entangled(case):
    """Returns the names of renames and copies whose source or target another file patch touches, or whose target is there already."""
    parts = parts_of(case)
    found = set()
    for part in moves_of(parts):
        others = all_names(other for other in parts if other is not part)
        if part.names & others or sides(case, part)[1] in case.tree:
            found |= part.names
    return all_names(part for part in parts if part.names & found)


@REASONS.of("git-batch")
def batch(case, _gnu, _ours, differences):
    """Renames and copies whose source or target the text touches elsewhere, too."""
    return of_names(differences, entangled(case))


@REASONS.of("git-hunks-alone")
def hunks_alone(case, _gnu, _ours, differences):
    """Hunks that stand directly behind git's header lines, of a file that is renamed or deleted."""
    parts = [part for part in parts_of(case) if "git" in part.marks and "named" not in part.marks and part.hunks]
    return of_names(differences, all_names(part for part in parts if part.marks & {"rename", "deleted file mode"}))


@REASONS.of("blanks-in-git-names")
def blanks_in_git_names(case, _gnu, _ours, differences):
    """A rename, a copy or an empty file whose names have blanks: there only git's first line is read, and ends at a blank."""
    parts = [part for part in parts_of(case) if "git" in part.marks and (not part.hunks or part.marks & {"rename", "copy"})]
    return of_names(differences, all_names(part for part in parts if any(b" " in name or b"\t" in name for name in part.names)))


@REASONS.of("failed-renames")
def failed_renames(case, _gnu, ours, differences):
    """A rename or a copy of which each hunk failed: it is made there, and not here."""
    kept = [part for part in moves_of(parts_of(case)) if part.hunks and sides(case, part)[1] not in ours.shape]
    return of_files(differences, all_names(kept)) if says(ours, b"FAILED") else []


@REASONS.of("emptied-directories")
def directories_of_none(case, _gnu, ours, differences):
    """A directory that the run made for a file which then stayed away."""
    names = all_names(parts_of(case)) - set(case.tree)
    holds = {name for name, it in ours.shape.items() if it[0] != "dir"}
    def is_empty(each):
        return any(name.startswith(each.name + b"/") for name in names) and not any(name.startswith(each.name + b"/") for name in holds)
    return [each for each in differences if each.what == "extra" and each.ours[0] == "dir" and is_empty(each)]


@REASONS.of("skipped-rejects")
def skipped_rejects(case, gnu, _ours, differences):
    """The reject of a file patch that both skipped, under a name that is told in quotes."""
    skipped = says(gnu, b"ignored -- saving rejects to file \"", b"ignored -- saving rejects to file '")
    return [each for each in differences if skipped and each.what == "missing" and each.name.endswith(b".rej") and re.search(rb"['\"\\\t\n]", each.name)]
