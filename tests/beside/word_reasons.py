"""Why words, and what they ask for, lead to something else: words that are refused, where output and backups go."""
import re

from case import Reasons
from seen import backed_up, bytes_in, file_patches, has, of, original, refused, texts_of, told, unreached, words_of

REASONS = Reasons()


def is_answered(case, gnu, ours):
    """Whether GNU patch carried out what ours refused for its words."""
    return refused(case, ours) and any(b"not a command" in err for err in ours.err)


def flags(case):
    """The options of a case, each as a letter or a long name, as often as they are there."""
    letters = re.findall(r"(?<= )-([A-Za-z]+)", " " + words_of(case))
    return [letter for word in letters for letter in re.match(r"[^iorzBYVDdFgp]*.?", word).group()] + re.findall(r"--([a-z-]+)", words_of(case))


@REASONS.of("backup-times")
def backup_times(case, gnu, ours, differences):
    """Backups keep the old file's time with GNU patch, and have that of the run with ours."""
    return [each for each in of(differences, "time") if each.ours == "now" and backed_up(case, each.name) is not None]


@REASONS.of("set-times")
def set_times(case, gnu, ours, differences):
    """With -T and -Z stamps without a zone are UTC for ours; GNU patch takes the local zone, and the epoch alone for that of no file."""
    if not (has(case, "-T", "-Z") or re.search(r"--set-[tu]", words_of(case))):
        return []
    return of(differences, "time") + [each for each in of(differences, "missing") if each.gnu[2] == b""]


@REASONS.of("merge")
def merge(case, gnu, ours, differences):
    """--merge is refused."""
    return differences if is_answered(case, gnu, ours) and has(case, "--merge") else []


@REASONS.of("backup-names")
def backup_words(case, gnu, ours, differences):
    """Empty values are refused, but not that of -B."""
    asked = re.search(r"(-[BYz]|=)( |$)", words_of(case))
    empty = gnu.status == [2] and any(b"backup prefix is empty" in text for text in gnu.out + gnu.err)
    return differences if empty or (asked and is_answered(case, gnu, ours)) else []


@REASONS.of("option-words")
def option_words(case, gnu, ours, differences):
    """Words that exclude each other, which ours refuses."""
    if not is_answered(case, gnu, ours):
        return []
    said = set(flags(case))
    exclusive = {"backup-if-mismatch", "no-backup-if-mismatch"} <= said or ("verbose" in said and said & {"s", "silent"})
    return differences if exclusive else []


@REASONS.of("environment")
def environment(case, gnu, ours, differences):
    """Backups whose names follow the environment with GNU patch."""
    return moved_backups(case, differences) if case.env.keys() - {"TZ"} else []


@REASONS.of("backup-names")
def numbered_beside(case, gnu, ours, differences):
    """Backups that GNU patch numbers since numbered ones are there."""
    return [each for each in moved_backups(case, differences) if b".~" in each.name or b".orig" in each.name]


def moved_backups(case, differences):
    """Backups that ours writes under another name than GNU patch."""
    theirs = {backed_up(case, each.name): each for each in of(differences, "missing")}
    mine = {backed_up(case, each.name): each for each in of(differences, "extra", "bytes")}
    written = {file: each.ours if each.what == "bytes" else each.ours[2] for file, each in mine.items()}
    both = [file for file in theirs if file is not None and theirs[file].gnu[2] == written.get(file)]
    return [side[file] for file in both for side in (theirs, mine)]


@REASONS.of("output-several")
def output_several(case, gnu, ours, differences):
    """Several file patches with -o are refused."""
    return differences if has(case, "-o") and refused(case, ours) and len(file_patches(texts_of(case))) > 1 else []


def output_name(case):
    """The name that -o gives, or None."""
    found = re.search(r"-o ?(\S+)", words_of(case))
    return found.group(1).encode() if found else None


@REASONS.of("output-empty")
def output_empty(case, gnu, ours, differences):
    """-o with a text without a patch, for which GNU patch copies the file, if it can."""
    if texts_of(case) or not output_name(case):
        return []
    found = of(differences, "missing", "bytes", "mode", names={output_name(case)})
    return found + (of(differences, "status") if (gnu.status, ours.status) == ([2], [0]) else [])


@REASONS.of("directories-made")
def directories_made(case, gnu, ours, differences):
    """The directory of -o or -r isn't there: GNU patch ends there, ours makes it and goes on."""
    return unreached(case, gnu, ours, differences, "gnu") if re.search(r"-[or] ?(\w+)/\S+", words_of(case)) and gnu.status == [2] else []


@REASONS.of("peer-aborts")
def output_over_input(case, gnu, ours, differences):
    """-o over the file that is read, which GNU patch empties first."""
    name = output_name(case)
    if name not in case.tree or name not in told(gnu) or b"(read from" in told(gnu)[name]:
        return [each for each in of(differences, "bytes", names={name}) if each.gnu == b"" and original(case, name)]
    return [each for each in differences if each.what == "status" or each.name in (name, name + b".rej", name + b".orig", b"rejected")]


@REASONS.of("output-mode")
def output_mode(case, gnu, ours, differences):
    """A new file of -o that only its owner can read, or one that was there and loses its bits with ours."""
    before = case.tree[output_name(case)].mode if output_name(case) in case.tree else 0o600
    return [each for each in of(differences, "mode", names={output_name(case)}) if each.gnu == before]


@REASONS.of("output-backup")
def output_backup(case, gnu, ours, differences):
    """With -b and -o the file that was there gets a backup, and what is put there has the bits of a new file."""
    name = output_name(case)
    if not name or not has(case, "-b"):
        return []
    return of(differences, "extra", names={name + b".orig"}) + of(differences, "mode", names={name})


@REASONS.of("output-unplaced")
def output_unplaced(case, gnu, ours, differences):
    """With -o, where no hunk was placed, GNU patch writes the file as it was."""
    name = output_name(case)
    if not name or bytes_in(ours, name) != original(case, name):
        return []
    return [each for each in of(differences, "missing", "bytes", names={name}) if bytes_in(gnu, name) in [entry.data for entry in case.tree.values()]]


@REASONS.of("posix-rules")
def posix_rules(case, gnu, ours, differences):
    """With --posix GNU patch 2.7.6 asks nothing of a file that is made and is there, and still makes backups where a hunk moved."""
    if not has(case, "--posix"):
        return []
    backups = [each for each in of(differences, "missing") if each.gnu[2] == original(case, backed_up(case, each.name))]
    failed = [each for each in of(differences, "missing") if each.name.endswith(b".rej") and re.search(rb"FAILED", told(gnu).get(each.name[:-4], b""))]
    return backups + failed
