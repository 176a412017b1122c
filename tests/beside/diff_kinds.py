"""Kinds of cases over what `diff` and `svn diff` write: plain patches, drifted files, new and removed files."""
import trees
from case import Case, Run, files, kind

ZONES = ("UTC", "UTC", "Europe/Berlin", "America/New_York", "Asia/Kolkata", "Pacific/Auckland", "XYZ-5:45")
FORMS = ("-ru", "-ru", "-ru", "-rc", "-rU0", "-rU1", "-rup", "-rcp", "-rU5")


def given(random, tree, patch, words, **more):
    """A case of one call that reads a patch by standard input or from a file beside the tree."""
    if random.random() < 0.6:
        return Case("", tree, [Run(words, patch)], **more)
    by_option = random.choice((["-i", "../change.diff"], ["-i../change.diff"], ["--input=../change.diff"]))
    return Case("", tree, [Run(words + by_option)], beside={b"change.diff": patch}, **more)


def one_file(random, least=8, most=40, folders=False):
    """A name, its old bytes and its new ones."""
    name = trees.name(random, folders)
    old = trees.joined(trees.text(random, least, most))
    return name, old, trees.edited_bytes(random, old)


@kind("diff_plain")
def diff_plain(random):
    """Patches of a tree that fit exactly."""
    old = trees.tree(random)
    new = trees.edited_tree(random, old)
    sides = random.choice(((b"old", b"new"), (b"a", b"b"), (b"pkg-1.0.orig", b"pkg-1.0")))
    patch = trees.diff(random, old, new, [random.choice(FORMS)], sides=sides, zone=random.choice(ZONES))
    words = random.choice((["-p1"], ["-p1"], ["-p1", "-s"], ["-p1", "-u"] if patch.find(b"\n***") < 0 else ["-p1", "-c"], ["-p1", "-E"]))
    return given(random, files(old), patch, words, want=new)


@kind("diff_operand")
def diff_operand(random):
    """Patches of one file, named on the command line, among them normal ones."""
    name, old, new = one_file(random, folders=True)
    form = random.choice(([], [], ["-u"], ["-c"], ["-U0"], ["-b"]))
    patch = trees.diff_files(random, name, old, new, form)
    if form == ["-b"]:
        form = []
    words = random.choice(([], ["-n"] if not form else [], ["-p0"])) + [name]
    return given(random, files({name: old}), patch, words, want={name: new})


@kind("ed")
def ed(random):
    """Scripts of `diff -e`, some behind header lines, some of several scripts."""
    name, old, new = one_file(random)
    if random.random() < 0.2:
        new = trees.joined(trees.lines_of(new)[:1] and [b"."] + [b".."]) + new
    script = trees.diff_files(random, name, old, new, ["-e"])
    how = random.choice(("-e", "operand", "header", "two"))
    if how == "header":
        script = b"Index: " + name + b"\n" + script if random.random() < 0.5 else b"--- " + name + b"\n+++ " + name + b"\n" + script
        return given(random, files({name: old}), script, random.choice(([], ["-e"])), want={name: new}, facts={"ed": how})
    if how == "two":
        last = trees.edited_bytes(random, new)
        script += trees.diff_files(random, name, new, last, ["-e"])
        return given(random, files({name: old}), script, ["-e", name], want={name: last}, facts={"ed": how})
    return given(random, files({name: old}), script, (["-e"] if how == "-e" else []) + [name], want={name: new}, facts={"ed": how})


def drifted_tree(random, old, edits=None):
    """A tree whose files have changed since the patch was made, most of them near the patch's lines too."""
    return {name: trees.edited_bytes(random, data, edits) if random.random() < 0.85 else data for name, data in old.items()}


def drift(random, words, most=60):
    """A patch over files that have changed meanwhile."""
    old = trees.tree(random, random.randint(1, 3), 15, most)
    new = {name: trees.edited_bytes(random, data, random.randint(1, 5)) for name, data in old.items()}
    patch = trees.diff(random, old, new, [random.choice(FORMS)])
    return given(random, files(drifted_tree(random, old, random.randint(1, 4))), patch, words)


@kind("drifted")
def drifted(random):
    """Drifted files without further words."""
    return drift(random, ["-p1"])


@kind("drifted_fuzz")
def drifted_fuzz(random):
    """Drifted files with a limit of fuzz."""
    return drift(random, ["-p1", random.choice((f"-F{random.randint(0, 4)}", f"--fuzz={random.randint(0, 4)}"))])


def loosened(random, data):
    """Some bytes with other blanks."""
    def change(line):
        pick = random.random()
        if pick < 0.3:
            return line.replace(b" ", b"  ") + b" " * random.randint(0, 2)
        if pick < 0.5:
            return line.replace(b"\t", b"        ").replace(b"    ", b"\t")
        return line
    return b"\n".join(map(change, data.split(b"\n")))


@kind("drifted_loose")
def drifted_loose(random):
    """Files whose blanks have changed, with -l."""
    old = trees.tree(random, random.randint(1, 2), 10, 40)
    new = {name: trees.edited_bytes(random, data, random.randint(1, 3)) for name, data in old.items()}
    patch = trees.diff(random, old, new, [random.choice(FORMS)])
    tree = {name: loosened(random, data) for name, data in (old if random.random() < 0.6 else drifted_tree(random, old)).items()}
    return given(random, files(tree), patch, ["-p1", random.choice(("-l", "--ignore-whitespace"))])


@kind("drifted_options")
def drifted_options(random):
    """Drifted files with the words that scripts pass."""
    some = random.sample((["-N"], ["-f"], ["-t"], ["-b"], ["-s"], ["-F0"], ["--no-backup-if-mismatch"], ["--dry-run"], ["-l"], ["-E"], ["--verbose"],
                          ["--backup-if-mismatch"], ["-u"], ["--binary"]), random.randint(1, 3))
    return drift(random, ["-p1"] + [word for words in some for word in words])


def changed_names(random):
    """A tree and one with made and removed files, and where they were made."""
    old = trees.tree(random, random.randint(1, 4), 1, 20)
    new = trees.edited_tree(random, old, random.randint(0, 2), random.randint(0, 2))
    return old, new if new != old else trees.edited_tree(random, old, 1)


@kind("new_removed")
def new_removed(random):
    """New and removed files by the stamps of `diff -N`, written in several time zones."""
    old, new = changed_names(random)
    zone = random.choice(ZONES)
    patch = trees.diff(random, old, new, [random.choice(("-ruN", "-ruN", "-rcN", "-rNU0", "-rupN"))], zone=zone)
    words = random.choice((["-p1"], ["-p1", "-E"], ["-p1", "-s", "-f"], ["-p1", "-b"], ["-p1", "-t", "-N"]))
    env = {"TZ": zone} if random.random() < 0.5 else {}
    return given(random, files(old), patch, words, want=new if "-b" not in words else None, env=env, facts={"zone": zone, "new": new})


@kind("new_null")
def new_null(random):
    """New and removed files by the name /dev/null."""
    name, old, new = one_file(random, 1, 9, True)
    other = trees.fresh_name(random, {name: old})
    top, null = trees.joined(trees.text(random, 1, 9)), b"/dev/null"
    gone = trees.diff(random, {name: old}, {}, ["-u"], operands=(b"old/" + name, null))
    made = trees.diff(random, {}, {other: top}, ["-u"], operands=(null, b"new/" + other))
    pick = random.choice((gone, made, gone + made))
    want = {**({} if gone in pick else {name: old}), **({other: top} if made in pick else {})}
    return given(random, files({name: old}), pick, random.choice((["-p1"], ["-p1", "-E"], ["-p1", "-N"])), want=want)


@kind("labels")
def labels(random):
    """Labels without stamps, of changed, new and removed files."""
    old, new = changed_names(random)
    patch = b""
    for name in sorted({**old, **new}):
        if old.get(name) != new.get(name):
            words = [random.choice(("-u", "-c")), "-L", b"a/" + name, "-L", b"b/" + name]
            sides = [b"old/" + name if name in old else b"/dev/null", b"new/" + name if name in new else b"/dev/null"]
            patch += trees.diff(random, old, new, words, operands=sides)
    words = random.choice((["-p1"], ["-p1", "-E"], ["-p1", "-f"], ["-p1", "-N"]))
    want = new if "-E" in words or set(old) <= set(new) else {**{name: b"" for name in old}, **new}
    return given(random, files(old), patch, words, want=want)


PROPERTY = b"\nProperty changes on: %s\n" + b"_" * 67 + b"\nAdded: svn:eol-style\n## -0,0 +1 ##\n+native\n\\ No newline at end of property\n"


def svn_piece(random, name, old, new):
    """What `svn diff` writes of one file."""
    revision = b"(revision %d)" % random.randint(1, 9000)
    first = revision if old is not None else random.choice((b"(nonexistent)", b"(revision 0)"))
    last = random.choice((b"(working copy)", revision)) if new is not None else random.choice((b"(nonexistent)", b"(working copy)"))
    files_of = [{name: data or b""} for data in (old, new)]
    words = ["-u", "-L", name + b"\t" + first, "-L", name + b"\t" + last]
    body = trees.diff(random, *files_of, words, operands=(b"old/" + name, b"new/" + name))
    piece = b"Index: " + name + b"\n" + b"=" * 67 + b"\n" + body
    return piece + (PROPERTY % name if random.random() < 0.2 else b"")


@kind("svn")
def svn(random):
    """Texts as `svn diff` writes them, with new and removed files."""
    old, new = changed_names(random)
    patch = b"".join(svn_piece(random, name, old.get(name), new.get(name)) for name in sorted({**old, **new}) if old.get(name) != new.get(name))
    words = random.choice((["-p0"], ["-p0"], ["-p0", "-E"], ["-p0", "-f"], ["-p0", "-R"]))
    if "-R" in words:
        return given(random, files(new), patch, words)
    want = new if "-E" in words or set(old) <= set(new) else {**{name: b"" for name in old}, **new}
    return given(random, files(old), patch, words, want=want)


@kind("diff_r")
def diff_r(random):
    """`diff -r` of trees with binary files, and files that only one of them has."""
    old, new = changed_names(random)
    data = bytes(random.randint(0, 255) for _ in range(30)) + b"\0"
    old, new = {**old, b"logo.png": data}, {**new, b"logo.png": data[::-1] + b"\0"}
    form = random.choice(("-ru", "-rc", "-ruN", "-ru"))
    patch = trees.diff(random, old, new, [form])
    words = random.choice((["-p1"], ["-p1", "-f"], ["-p1", "-t"], ["-p1", "-s", "-f"]))
    return given(random, files(old), patch, words, facts={"binary": b"Binary files" in patch})


def cut_end(random, data):
    """Some bytes, perhaps without their last line feed."""
    return data[:-1] if random.random() < 0.6 and data.endswith(b"\n") else data


@kind("no_line_feed")
def no_line_feed(random):
    """Files whose last line has no line feed, before or after the patch or in the tree."""
    name, old, new = one_file(random, 2, 12)
    old, new = cut_end(random, old), cut_end(random, new)
    if old == new:
        new += b"last\n"
    form = random.choice(("-u", "-u", "-c", "-U0", "-U1"))
    patch = trees.diff_files(random, name, old, new, [form])
    there = old if random.random() < 0.6 else cut_end(random, trees.joined(trees.lines_of(old)).replace(b"\n\n", b"\n"))
    words = random.choice((["-p1"], ["-p1", "-R"], ["-p1", "-b"])) if random.random() < 0.5 else [name]
    start = new if "-R" in words else there
    return given(random, files({name: start}), patch, words)


@kind("empty_files")
def empty_files(random):
    """Files that are empty before or after."""
    name, old, new = one_file(random, 1, 6)
    old, new = random.choice(((b"", new), (old, b"")))
    form = random.choice(("-u", "-u", "-c", "-U0", ""))
    patch = trees.diff_files(random, name, old, new, [form] if form else [])
    words = random.choice((["-p1"], ["-p1", "-E"], ["-p1", "-b"], ["-p1", "-R"])) + ([name] if not form or random.random() < 0.3 else [])
    back = "-R" in words
    return given(random, files({name: new if back else old}), patch, words)


@kind("same_file")
def same_file(random):
    """Several file patches of one file, in one text or one after another."""
    name, first, second = one_file(random, 12, 40)
    third = trees.edited_bytes(random, second)
    form = random.choice(("-u", "-u", "-c", "-U1"))
    parts = [trees.diff_files(random, name, *pair, [form]) for pair in ((first, second), (second, third))]
    there = first if random.random() < 0.6 else trees.edited_bytes(random, first)
    words = ["-p1"] + random.choice(([], [], ["-b"], ["-N"], ["-f"], ["-s"]))
    if random.random() < 0.7:
        return given(random, files({name: there}), b"".join(parts), words)
    return Case("", files({name: there}), [Run(words, part) for part in parts])
