"""Kinds of patches by git: what `git diff` and `git format-patch` write of random trees, applied where it fits, and where it doesn't quite."""
import re

import git_changes as changes
import git_repository as repository
import trees
from case import Case, Run, kind

HOW = [[], [], [], [], ["-b"], ["-s"], ["-N"], ["-f"], ["-t"], ["-E"], ["--no-backup-if-mismatch"], ["-u"], ["--fuzz=0"],
       ["-F", "0", "-N", "-b", "-z", ".old"], ["--dry-run"]]
# words of `git diff` and of `patch`, which fit each other but now and then
ODD = [(["--no-prefix"], ["-p0"]), (["--no-prefix"], ["-p1"]), (["--src-prefix=old/x/", "--dst-prefix=new/x/"], ["-p2"]), (["-U0"], ["-p1"]),
       ([], ["-p0"]), ([], []), (["--full-index"], ["-p1"]), (["-W"], ["-p1"]), (["-U1", "--minimal"], ["-p1"]), (["--stat", "-p"], ["-p1"]),
       (["-U10", "--inter-hunk-context=5"], ["-p1"])]


def case_of(tree, patch, words, want=None, **facts):
    """Returns the case of one run over a tree, the patch beside it; a dry run is for no tree."""
    wanted = None if want is None or "--dry-run" in words else {name: entry.data for name, entry in want.items()}
    return Case("", tree, [Run([*words, "-i", "../change.diff"])], {b"change.diff": patch}, facts, want=wanted)


def applied(random, old, new, *diff_words, words=("-p1",), settings=()):
    """Returns the case in which the change between two trees is applied to the first one, mostly as it stands."""
    patch = repository.diff(old, new, *diff_words, settings=settings)
    words = [*words, *random.choice(HOW)]
    chance = random.random()
    if chance < 0.08:
        return case_of(new, patch, words, met="done before")
    if chance < 0.16:
        return case_of(drifted(random, old), patch, words, met="drifted")
    if chance < 0.2:
        return case_of(changes.without_one(random, old), patch, words, met="one gone")
    return case_of(old, patch, words, want=new, met="as it was")


def drifted(random, tree):
    """Returns the tree with one file changed meanwhile: lines in front, a line in it, or other lines."""
    name = random.choice(changes.files_of(tree) or sorted(tree))
    data = tree[name].data
    told = random.choice([trees.line(random) + b"\n" + data, changes.edited(random, data), changes.text(random)])
    return {**tree, name: changes.file(told, tree[name].mode) if tree[name].kind == "file" else changes.link(b"elsewhere")}


@kind("git_plain", needs=("git",))
def plain(random):
    """Edits alone."""
    old = changes.tree(random)
    return applied(random, old, changes.with_edits(random, old))


@kind("git_renames", needs=("git",))
def renames(random):
    """Files under other names, edited or not, in new directories and out of old ones."""
    old = changes.tree(random)
    new = changes.with_move(random, old)
    if random.random() < 0.4:
        new = changes.with_edits(random, new, 1)
    return applied(random, old, new, "-M")


@kind("git_copies", needs=("git",))
def copies(random):
    """Copies, also of files that the patch changes or moves."""
    old = changes.tree(random)
    new = changes.with_copy(random, old)
    if random.random() < 0.5:
        new = changes.with_copy(random, new)
    if random.random() < 0.5:
        new = random.choice([changes.with_edits, changes.with_move])(random, new)
    return applied(random, old, new, "-M", "-C", *["--find-copies-harder"] * (random.random() < 0.7))


@kind("git_swaps", needs=("git",))
def swaps(random):
    """Two files with each other's name, and chains of renames."""
    old = changes.tree(random)
    new = random.choice([changes.with_swap, changes.with_chain])(random, old)
    if random.random() < 0.4:
        new = changes.with_edits(random, new, 1)
    return applied(random, old, new, "-M", "-B")


@kind("git_modes", needs=("git",))
def modes(random):
    """Files made executable, or no longer so, with an edit and without, and executables made."""
    old = changes.tree(random)
    new = changes.with_mode(random, old) if random.random() < 0.7 else changes.with_new(random, old)
    if random.random() < 0.6:
        new = changes.with_edits(random, new, 2)
    if random.random() < 0.2:
        new = changes.with_move(random, new)
    return applied(random, old, new, "-M")


@kind("git_links", needs=("git",))
def links(random):
    """Links made, changed, taken away and moved, and in the place of files."""
    old = {**changes.tree(random), b"current": changes.link(b"README"), b"src-link": changes.link(b"src/main.c")}
    new = changes.with_link(random, old)
    if random.random() < 0.5:
        new = changes.with_edits(random, new, 1)
    return applied(random, old, new, *["-M"] * (random.random() < 0.5))


@kind("git_binary", needs=("git",))
def binary(random):
    """Files that aren't text, made, changed and taken away, beside edits."""
    old = {**changes.tree(random), b"logo.png": changes.file(changes.binary(random))}
    way = random.choice(["changed", "made", "gone"])
    new = {name: entry for name, entry in old.items() if way != "gone" or name != b"logo.png"}
    if way != "gone":
        new[b"logo.png" if way == "changed" else b"icon.png"] = changes.file(changes.binary(random))
    if random.random() < 0.6:
        new = changes.with_edits(random, new, 2) if len(changes.files_of(new)) > 1 else new
    return applied(random, old, new, *["--binary"] * (random.random() < 0.5))


@kind("git_new_removed", needs=("git",))
def new_removed(random):
    """Files made and taken away, empty ones too, in new directories and the last of old ones."""
    old = {**changes.tree(random), b"empty": changes.file(b""), b"alone/in/here": changes.file(changes.text(random, 1, 4))}
    new = old
    for _ in range(random.randint(1, 3)):
        new = random.choice([changes.with_new, changes.without_one])(random, new)
    return applied(random, old, new, "--no-renames", *["-D"] * (random.random() < 0.1))


@kind("git_names", needs=("git",))
def names(random):
    """Names with blanks, quotes, tabs, backslashes and bytes above 127."""
    old = changes.tree(random, changes.ODD_NAMES)
    new = changes.with_edits(random, old)
    for change in random.sample([changes.with_new, changes.with_move, changes.with_copy], random.choice([0, 1, 1])):
        new = change(random, new, names=changes.ODD_NAMES)
    settings = ["core.quotePath=false"] * (random.random() < 0.3)
    return applied(random, old, new, "-M", "-C", settings=settings)


@kind("git_mails", needs=("git",))
def mails(random):
    """A series of mails in one text, in which files are changed twice, moved and made."""
    trees = [changes.tree(random)]
    for _ in range(random.randint(2, 4)):
        change = random.choice([changes.with_edits, changes.with_edits, changes.with_move, changes.with_new, changes.with_copy])
        trees.append(change(random, trees[-1]))
    messages = [b"Subject %d\n\nA text\n---\nwith a line of hyphens, and\n- a list\n" % it for it in range(len(trees))]
    patch = repository.mails(trees, *random.choice([[], ["-M"], ["-M", "-C"], ["--no-stat"]]), messages=messages)
    words = ["-p1", *random.choice(HOW)]
    return case_of(trees[0], patch, words, want=trees[-1], met="as it was")


@kind("git_odd", needs=("git",))
def odd(random):
    """Other prefixes and none, no context, long hashes, whole functions, and a strip count that doesn't fit."""
    old = changes.tree(random)
    new = changes.with_edits(random, changes.with_new(random, old) if random.random() < 0.3 else old)
    diff_words, words = random.choice(ODD)
    return applied(random, old, new, *diff_words, words=words)


@kind("git_hunks_alone", needs=("git",))
def hunks_alone(random):
    """Git's header and hunks, without the lines of both names between them."""
    old = changes.tree(random)
    new = changes.with_edits(random, changes.with_move(random, old) if random.random() < 0.3 else old)
    made = applied(random, old, new, "-M")
    made.beside[b"change.diff"] = re.sub(rb"(?m)^--- .*\n\+\+\+ .*\n", b"", made.beside[b"change.diff"])
    return made


@kind("git_reversed", needs=("git",))
def reversed_(random):
    """Changes of all kinds that are taken back."""
    old = {**changes.tree(random), b"current": changes.link(b"README")}
    ways = [changes.with_edits, changes.with_move, changes.with_new, changes.without_one, changes.with_mode, changes.with_copy, changes.with_link]
    new = old
    for change in random.sample(ways, random.randint(1, 2)):
        new = change(random, new)
    patch = repository.diff(old, new, *random.choice([[], ["-M"], ["-M", "-C"]]))
    return case_of(new, patch, ["-p1", "-R", *random.choice(HOW)], want=old, met="as it was")


@kind("git_apply", needs=("git",))
def git_apply(random):
    """Changes of all kinds at once, beside `git apply`, forwards, and back where nothing can be a copy, since git takes none back."""
    names = changes.NAMES + [b"read me", b"gr\xc3\xbcn.txt", b"latin\xe9"]
    old = {**changes.tree(random, names, 4, 7), b"current": changes.link(b"README")}
    ways = [changes.with_edits, changes.with_move, changes.with_new, changes.without_one, changes.with_mode, changes.with_copy, changes.with_link,
            changes.with_swap, changes.with_chain]
    new = old
    for change in random.sample(ways, random.randint(1, 4)):
        if len(changes.files_of(new)) > 1:
            new = change(random, new)
    back = random.random() < 0.4
    patch = repository.diff(old, new, "-M", *["-C"] * (not back), *["-B"] * (not back and random.random() < 0.4))
    tree, want = (new, old) if back else (old, new)
    made = case_of(tree, patch, ["-p1", *["-R"] * back], want=want, met="as it was", git_words=[*["-R"] * back, "../change.diff"])
    made.peer = "git"
    return made


@kind("git_batch", needs=("git",))
def batch(random):
    """Copies of files that the same diff changes, chains of renames, and files made anew at a name that was left, beside `git apply`; and back."""
    old = changes.tree(random, changes.NAMES, 4, 7)
    back = random.random() < 0.3
    ways = [changes.with_chain, changes.with_move] if back else [changes.with_copy, changes.with_copy, changes.with_chain, changes.with_move]
    new = old
    for change in [random.choice(ways) for _ in range(random.randint(1, 2))]:
        new = change(random, new)
    new = changes.with_edits(random, new)
    left = sorted(set(old) - set(new))
    if left and random.random() < 0.4:
        new = {**new, random.choice(left): changes.file(changes.text(random, 3, 9))}
    patch = repository.diff(old, new, "-M", "-B", *["-C"] * (not back))
    tree, want = (new, old) if back else (old, new)
    made = case_of(tree, patch, ["-p1", *["-R"] * back], want=want, met="as it was", git_words=[*["-R"] * back, "../change.diff"])
    made.peer = "git"
    return made
