"""Kinds of cases over what is odd in a tree or a text: modes, links, directories, long lines and names, damaged texts, times."""
import trees
from case import Case, Entry, Run, files, kind
from diff_kinds import FORMS, ZONES, changed_names, drifted_tree, given, one_file

MODES = (0o444, 0o600, 0o640, 0o755, 0o555, 0o4755, 0o2755, 0o400, 0o666, 0o1644, 0o000)


@kind("odd_modes")
def odd_modes(random):
    """Files that are read-only, private, executable or setuid."""
    old = trees.tree(random, random.randint(1, 3), 8, 30)
    new = trees.edited_tree(random, old, random.randint(0, 1), random.randint(0, 1), 3)
    patch = trees.diff(random, old, new, [random.choice(("-ruN", "-rcN"))])
    there = old if random.random() < 0.5 else drifted_tree(random, old)
    tree = {name: Entry("file", data, random.choice(MODES)) for name, data in there.items()}
    words = ["-p1"] + random.choice(([], [], ["-b"], ["-f"], ["--read-only=ignore"], ["--read-only=warn"], ["-N"]))
    return given(random, tree, patch, words)


@kind("link_targets")
def link_targets(random):
    """Links where a file to patch or a directory on the way should be, whole and dangling ones."""
    name, old, new = one_file(random, 6, 20)
    other, first, last = b"zz/other.txt", *one_file(random, 6, 20)[1:]
    patch = trees.diff(random, {name: old, other: first}, {name: new, other: last}, ["-ru"])
    how = random.choice(("link", "dangling", "way", "way_up", "way_out", "made_on_way", "reject", "backup"))
    tree = {other: Entry("file", first), b"real.txt": Entry("file", old)}
    if how in ("link", "dangling"):
        tree[name] = Entry("link", b"real.txt" if how == "link" else b"nowhere")
    elif how in ("way", "way_up", "way_out", "made_on_way"):
        patch = trees.diff(random, {b"dir/" + name: old if how != "made_on_way" else b"", other: first}, {b"dir/" + name: new, other: last}, ["-ru"])
        tree[b"dir"] = Entry("link", {"way": b"real", "way_up": b"../work/real", "way_out": b"../outside", "made_on_way": b"real"}[how])
        tree[b"real/" + (name if how != "made_on_way" else b"else")] = Entry("file", old)
    else:
        tree[name] = Entry("file", trees.edited_bytes(random, old, 5))
        tree[name + (b".rej" if how == "reject" else b".orig")] = Entry("link", b"real.txt")
    words = ["-p1"] + random.choice(([], [], ["-f"], ["--follow-symlinks"], ["-b"]))
    return given(random, tree, patch, words, facts={"how": how})


@kind("directory_targets")
def directory_targets(random):
    """Directories where a file to patch, to make, a backup or a reject should be, and files where a directory should be."""
    name, old, new = one_file(random, 6, 20)
    how = random.choice(("patched", "made", "on_way", "reject", "backup", "kept"))
    other, first, last = b"zz/other.txt", *one_file(random, 6, 20)[1:]
    sides = [{name: old, other: first}, {name: new, other: last}]
    tree = {name: Entry("file", old), other: Entry("file", first)}
    if how in ("patched", "made"):
        tree[name] = Entry("dir")
        if how == "made":
            del sides[0][name]
    elif how == "on_way":
        sides = [{other: first}, {name + b"/inner": new, other: last}]
    elif how in ("reject", "backup"):
        tree[name] = Entry("file", trees.edited_bytes(random, old, 5))
        tree[name + (b".rej" if how == "reject" else b".orig")] = Entry("dir")
    else:
        sides = [{b"gone/" + name: old, other: first}, {other: last}]
        tree = {b"gone/" + name: Entry("file", old), other: Entry("file", first), **({b"gone/stays": Entry("dir")} if random.random() < 0.5 else {})}
    patch = trees.diff(random, *sides, ["-ruN"])
    return given(random, tree, patch, ["-p1"] + random.choice(([], ["-f"], ["-b"], ["-N"])), facts={"how": how})


def long_line(random):
    """A line around the lengths that buffers have."""
    length = random.choice((4095, 8191, 16384, 32767, 65531, 65532, 65533, 65535, 65536, 70000, 131072))
    return (b"%d " % random.randint(0, 9999) * length)[:length]


@kind("long_lines")
def long_lines(random):
    """Lines of up to 131,072 bytes in the file, the patch or both."""
    lines = trees.text(random, 6, 20)
    lines.insert(random.randint(0, len(lines)), long_line(random))
    new = list(trees.edited(random, lines, 2))
    if random.random() < 0.5:
        new.insert(random.randint(0, len(new)), long_line(random))
    name = trees.name(random)
    old, new = trees.joined(lines), trees.joined(new)
    patch = trees.diff_files(random, name, old, new, [random.choice(("-u", "-c", "-U0"))])
    there = old if random.random() < 0.8 else trees.edited_bytes(random, old)
    words = ["-p1"] + random.choice(([], [], ["-R"], ["-b"]))
    start = new if "-R" in words else there
    return given(random, files({name: start}), patch, words)


@kind("long_names")
def long_names(random):
    """Names of up to 255 bytes, deep directories, and names with odd bytes that need no quotes."""
    how = random.choice(("long", "long", "deep", "odd"))
    lengths = (200, 240, 245, 249, 250, 251, 252, 255)
    odd = random.choice((b"a+b", b"x~", b"#x#", b"-x", b"a=b", b"f.orig", b"f.rej", b"%s"))
    name = {"long": b"n" * random.choice(lengths), "deep": b"d/" * random.randint(10, 60) + b"f", "odd": odd}[how]
    _, old, new = one_file(random, 6, 20)
    patch = trees.diff(random, {name: old}, {name: new}, [random.choice(("-ru", "-rc"))])
    there = old if random.random() < 0.6 else trees.edited_bytes(random, old, 4)
    return given(random, files({name: there}), patch, ["-p1"] + random.choice(([], ["-b"], ["-B", "b/"])), facts={"length": len(name.split(b"/")[-1])})


def damage(random, patch):
    """A text of which some line is changed, cut, doubled or taken away."""
    lines = trees.lines_of(patch)
    at = random.randrange(len(lines))
    line = lines[at]
    how = random.choice(("cut", "doubled", "gone", "changed", "first", "swapped", "inserted"))
    if how == "cut":
        lines[at] = line[:random.randint(0, len(line))] + (b"\n" if random.random() < 0.5 else b"")
    elif how == "doubled":
        lines.insert(at, line)
    elif how == "gone":
        del lines[at]
    elif how == "changed":
        where = random.randrange(max(1, len(line) - 1))
        lines[at] = line[:where] + random.choice((b"x", b" ", b"9", b"-", b"+", b"@")) + line[where + 1:]
    elif how == "first":
        lines[at] = random.choice((b"+", b"-", b" ", b"!", b"#", b"")) + line[1:]
    elif how == "swapped" and at + 1 < len(lines):
        lines[at:at + 2] = [lines[at + 1], line]
    else:
        lines.insert(at, trees.line(random) + b"\n")
    return b"".join(lines)


@kind("damaged")
def damaged(random):
    """Texts in which a line was changed, cut, doubled or lost."""
    old = trees.tree(random, random.randint(1, 3), 8, 30)
    new = trees.edited_tree(random, old, random.randint(0, 1), random.randint(0, 1), 3)
    patch = damage(random, trees.diff(random, old, new, [random.choice(("-ruN", "-ruN", "-rcN", "-rNU0"))]))
    return given(random, files(old), patch, ["-p1"] + random.choice(([], [], ["-f"], ["-N"], ["-b"])), facts={"new": new})


@kind("times")
def times(random):
    """-T and -Z: files that get the time of their stamp."""
    old, new = changed_names(random)
    zone = random.choice(ZONES)
    old_times = {name: trees.stamp(random) for name in sorted(old)}
    patch = trees.diff(random, old, new, [random.choice(("-ruN", "-ruN", "-rcN"))], zone=zone, stamps=(old_times, None))
    there = old if random.random() < 0.7 else drifted_tree(random, old, 1)
    at = {name: time if random.random() < 0.8 else time + 3600 for name, time in old_times.items()}
    words = ["-p1", random.choice(("-T", "-Z", "--set-time", "--set-utc"))] + random.choice(([], [], ["-f"], ["-b"], ["-R"]))
    env = {"TZ": zone} if random.random() < 0.5 else {}
    return given(random, files(new if "-R" in words else there), patch, words, env=env, facts={"times": at})
