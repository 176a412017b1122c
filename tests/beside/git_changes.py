"""Random trees for git, and the changes between two of them. Each is a dictionary of names, and a change returns another one."""
import trees
from case import Entry

NAMES = [b"README", b"Makefile", b"src/main.c", b"src/util.c", b"src/util.h", b"docs/manual.txt", b"lib/deep/part.py", b"data", b"tools/run.sh", b"x"]
NEW_NAMES = [b"NEWS", b"src/added.c", b"fresh/one", b"fresh/two/three", b"docs/more.txt", b"y", b"lib/deep/other.py", b"moved/part.py"]
ODD_NAMES = [b"read me", b'a "name"', b"tab\there", b"gr\xc3\xbcn.txt", b"latin\xe9", b"back\\slash", b"it's", b"with blank/file", b"trailing ", b" leading",
             b"caf\xc3\xa9/two words", b"bell\x07", b"line\nfeed"]


def text(random, least=6, most=30):
    """Returns a text of some lines, a few without its last line feed."""
    return trees.joined(trees.text(random, least, most), random.random() > 0.08)


def edited(random, data, most=3):
    """Returns another text: some lines are changed, taken away or put in, and now and then the last line feed."""
    told = trees.edited_bytes(random, data, random.randint(1, most))
    return told[:-1] if random.random() < 0.04 and told[-2:-1] not in (b"", b"\n") else told


def file(data, mode=0o644):
    """Returns a regular file."""
    return Entry("file", data, mode)


def link(target):
    """Returns a symbolic link."""
    return Entry("link", target, None)


def tree(random, names=NAMES, least=3, most=6):
    """Returns a tree of some files with these names."""
    chosen = sorted(random.sample(names, min(len(names), random.randint(least, most))))
    return {name: file(text(random), 0o755 if name.endswith(b".sh") else 0o644) for name in chosen}


def files_of(tree):
    """Returns the names of the regular files with bytes."""
    return [name for name in sorted(tree) if tree[name].kind == "file" and tree[name].data]


def free_name(random, tree, names=NEW_NAMES):
    """Returns a name that the tree has room for."""
    taken = set(tree) | {b"/".join(name.split(b"/")[:it]) for name in tree for it in range(1, name.count(b"/") + 1)}
    free = [name for name in names if name not in taken and not any(taken_one in tree and name.startswith(taken_one + b"/") for taken_one in tree)]
    return random.choice(free) if free else b"room%d" % random.randrange(100)


def with_edits(random, old, most=3):
    """Returns the tree with some files edited, at least one."""
    new = dict(old)
    for name in random.sample(files_of(old), min(len(files_of(old)), random.randint(1, most))):
        new[name] = file(edited(random, old[name].data), old[name].mode)
    return new


def with_move(random, old, edits=0.5, target=None, names=NEW_NAMES):
    """Returns the tree with one file under another name, edited or not."""
    name = random.choice(files_of(old))
    new = {it: entry for it, entry in old.items() if it != name}
    data = edited(random, old[name].data, 1) if random.random() < edits else old[name].data
    new[target or free_name(random, old, names)] = file(data, old[name].mode)
    return new


def with_copy(random, old, edits=0.4, names=NEW_NAMES):
    """Returns the tree with a copy of one file, edited or not."""
    name = random.choice(files_of(old))
    data = edited(random, old[name].data, 1) if random.random() < edits else old[name].data
    return {**old, free_name(random, old, names): file(data, old[name].mode)}


def with_new(random, old, empty=0.25, names=NEW_NAMES):
    """Returns the tree with one more file."""
    data = b"" if random.random() < empty else text(random, 1, 8)
    return {**old, free_name(random, old, names): file(data, random.choice([0o644, 0o644, 0o644, 0o755]))}


def without_one(random, old):
    """Returns the tree without one of its files."""
    gone = random.choice(sorted(old))
    return {name: entry for name, entry in old.items() if name != gone}


def with_mode(random, old):
    """Returns the tree with one file made executable, or no longer so."""
    name = random.choice([it for it in sorted(old) if old[it].kind == "file"])
    return {**old, name: file(old[name].data, 0o644 if old[name].mode & 0o100 else 0o755)}


def with_swap(random, old):
    """Returns the tree with two files that have each other's name."""
    one, other = random.sample(files_of(old), 2)
    return {**old, one: old[other], other: old[one]}


def with_chain(random, old):
    """Returns the tree with a first file at a second one's name, and that one elsewhere."""
    one, other = random.sample(files_of(old), 2)
    new = {name: entry for name, entry in old.items() if name != one}
    return {**new, other: old[one], free_name(random, old): old[other]}


def link_target(random):
    """Returns what a link may hold."""
    return random.choice([b"README", b"../x", b"/etc/hostname", b"src/main.c", b"nowhere", b"two words", b"gr\xc3\xbcn"])


def with_link(random, old):
    """Returns the tree with one link made, changed, taken away, or in the place of a file or the other way round."""
    links = [name for name in sorted(old) if old[name].kind == "link"]
    way = random.choice(["made", "changed", "gone", "moved", "turned", "turned_back"])
    if way == "made" or not links:
        return {**old, free_name(random, old): link(link_target(random))}
    if way == "turned":
        return {**old, random.choice(files_of(old)): link(link_target(random))}
    name = random.choice(links)
    rest = {it: entry for it, entry in old.items() if it != name}
    if way == "gone":
        return rest
    if way == "moved":
        return {**rest, free_name(random, old): old[name]}
    return {**rest, name: link(link_target(random) + b"2") if way == "changed" else file(text(random, 1, 5))}


def binary(random):
    """Returns bytes that git takes for no text."""
    return bytes(random.randrange(256) for _ in range(random.randint(1, 200))) + b"\0"
