"""Kinds of cases over what options do: questions about files that are or aren't there, backups, output, rejects, and words as scripts pass them."""
import trees
from case import Case, Entry, Run, files, kind
from diff_kinds import FORMS, changed_names, drifted_tree, given, one_file

ANSWERS = (["-f"], ["-N"], ["-t"], [], ["-f", "-N"], ["-t", "-N"], ["-f", "-s"], ["-f", "-b"], ["-t", "-b"], ["--batch"])


def made_patch(random, name, data, form):
    """A patch that makes a file: by its stamp or by the name /dev/null."""
    if random.random() < 0.5:
        return trees.diff(random, {}, {name: data}, [form, "-N"])
    return trees.diff(random, {}, {name: data}, [form], operands=(b"/dev/null", b"new/" + name))


@kind("created_over")
def created_over(random):
    """A file that the patch makes is there already: the same, another one, or empty."""
    name, data, other = one_file(random, 1, 9)
    more, old, new = one_file(random, 5, 12, True)
    patch = made_patch(random, name, data, random.choice(("-ru", "-rc", "-rU0")))
    tree = {name: random.choice((data, other, other, b"", data + other))}
    if not trees.stands_in_way(more, tree):
        patch += trees.diff_files(random, more, old, new, ["-u"])
        tree[more] = old
    return given(random, files(tree), patch, ["-p1"] + random.choice(ANSWERS))


@kind("gone")
def gone(random):
    """A file that the patch removes or empties is gone or empty."""
    name, old, _ = one_file(random, 1, 9, True)
    form = random.choice(("-ru", "-rc", "-rU0"))
    if random.random() < 0.5:
        patch = trees.diff(random, {name: old}, {}, [form, "-N"])
    else:
        patch = trees.diff(random, {name: old}, {name: b""}, [form])
    tree = random.choice(({}, {}, {name: b""}, {name: b"other\n"}))
    words = ["-p1"] + random.choice(ANSWERS) + random.choice(([], [], ["-E"]))
    return given(random, files({**tree, b"keep": b"1\n"}), patch, words)


@kind("applied_before")
def applied_before(random):
    """Patches that were applied before, wholly or in part."""
    old = trees.tree(random, random.randint(1, 3), 5, 30)
    new = trees.edited_tree(random, old, random.randint(0, 1), random.randint(0, 1), 3)
    patch = trees.diff(random, old, new, [random.choice(("-ruN", "-ruN", "-rcN", "-rNU1"))])
    there = new if random.random() < 0.7 else {**old, **{name: data for name, data in new.items() if random.random() < 0.6}}
    return given(random, files(there), patch, ["-p1"] + random.choice(ANSWERS + (["-R"], ["-R", "-f"], ["-N", "-s", "-r", "-"])))


@kind("reversed")
def reversed_(random):
    """Patches taken back with -R, over the new files or drifted ones."""
    old, new = changed_names(random)
    patch = trees.diff(random, old, new, [random.choice(("-ruN", "-ruN", "-rcN", "-rNU0"))])
    drifts = random.random() < 0.4
    there = drifted_tree(random, new) if drifts else new
    words = random.choice((["-R", "-p1"], ["-Rp1"], ["-p1", "--reverse"])) + random.choice(([], [], ["-f"], ["-N"], ["-t"], ["-E"], ["-b"]))
    return given(random, files(there), patch, words, want=None if drifts or "-b" in words else old)


def backup_words(random):
    """Words that say where backups go."""
    return random.choice((
        ["-b"], ["-b"], ["-z", ".bak"], ["-b", "-z", "~"], ["-B", "old."], ["-b", "-B", "save/"], ["-Y", ".#"], ["-b", "-Y", "old/"],
        ["-b", "-B", "k/", "-z", ".k"],
        ["-b", "-V", "simple"], ["-b", "-V", "never"], ["-b", "-V", "numbered"], ["-b", "-V", "t"], ["-b", "-V", "existing"], ["-b", "-V", "nil"],
        ["-b", "--suffix=.orig2"], ["-b", "--prefix=p-"], ["-V", "numbered"], ["-b", "-V", "none"], ["-z", ""], ["--version-control=numbered", "-b"]))


@kind("backups")
def backups(random):
    """Backups under all their names, some of which are there."""
    old = trees.tree(random, random.randint(1, 3), 8, 30)
    new = trees.edited_tree(random, old, random.randint(0, 1), random.randint(0, 1), 3)
    patch = trees.diff(random, old, new, [random.choice(("-ruN", "-rcN"))])
    there = old if random.random() < 0.5 else drifted_tree(random, old)
    tree = dict(there)
    for name in sorted(old):
        if random.random() < 0.3:
            tree[name + random.choice((b".orig", b".~1~", b".~7~", b".bak"))] = b"older\n"
    words = ["-p1"] + backup_words(random) + random.choice(([], [], ["-f"], ["-N"], ["-E"]))
    env = random.choice(({}, {}, {}, {"SIMPLE_BACKUP_SUFFIX": ".sav"}, {"PATCH_VERSION_CONTROL": "numbered"}, {"VERSION_CONTROL": "never"}))
    return given(random, files(tree), patch, words, env=env)


@kind("output")
def output(random):
    """Results that go elsewhere with -o: a new file, one that is there, standard output, a device; of one or several file patches."""
    old = trees.tree(random, random.choice((1, 1, 1, 2)), 8, 30)
    new = trees.edited_tree(random, old, changed=2)
    patch = trees.diff(random, old, new, [random.choice(("-ru", "-rc"))])
    if random.random() < 0.1:
        patch = b""
    there = old if random.random() < 0.6 else drifted_tree(random, old)
    where = random.choice(("result", "result", "there", "-", "/dev/null", "down/result", sorted(old)[0].decode()))
    words = ["-p1", "-o", where] + random.choice(([], [], ["-b"], ["-f"], ["-r", "rejected"]))
    if not patch:
        words.append(sorted(old)[0])
    return given(random, {**files(there), b"there": Entry("file", b"before\n", random.choice((0o644, 0o755)))}, patch, words,
                 facts={"several": len(new) > 1 and patch.count(b"\n@@") > 1, "where": where, "empty": not patch})


@kind("rejects_to")
def rejects_to(random):
    """Rejects that go elsewhere or take another form."""
    old = trees.tree(random, random.randint(1, 3), 10, 30)
    new = {name: trees.edited_bytes(random, data, 3) for name, data in old.items()}
    patch = trees.diff(random, old, new, [random.choice(("-ru", "-rc", "-rup"))])
    tree = dict(drifted_tree(random, old, 6))
    where = random.choice(("all.rej", "all.rej", "-", "/dev/null", "no/such/all.rej", "there", None, None))
    words = ["-p1"] + ([] if where is None else ["-r", where]) + random.choice(([], [], ["--reject-format=unified"], ["--reject-format=context"]))
    words += random.choice(([], [], ["-f"], ["-N"], ["-R", "-f"], ["-F0"]))
    first = sorted(tree)[0]
    if random.random() < 0.3:
        tree[first + b".rej"] = b"older\n"
    return given(random, files({**tree, b"there": b"before\n"}), patch, words, facts={"where": where})


@kind("ifdef")
def ifdef(random):
    """Both versions in one file with -D."""
    old = trees.tree(random, random.randint(1, 2), 4, 20)
    new = trees.edited_tree(random, old, random.randint(0, 1), changed=2)
    patch = trees.diff(random, old, new, [random.choice(("-ruN", "-rcN"))])
    there = old if random.random() < 0.7 else drifted_tree(random, old)
    return given(random, files(there), patch, ["-p1", random.choice(("-DNEW", "--ifdef=NEW"))] + random.choice(([], [], ["-R"], ["-b"])))


@kind("posix")
def posix(random):
    """--posix, over all that it changes: names, deletions, questions."""
    old, new = changed_names(random)
    patch = trees.diff(random, old, new, [random.choice(("-ruN", "-rcN", "-ru"))])
    if random.random() < 0.3:
        patch = b"Index: " + sorted(old)[0] + b"\n" + patch
    there = random.choice((old, old, drifted_tree(random, old), new))
    words = random.choice((["--posix", "-p1"], ["-p1", "--posix", "-N"], ["-p1", "--posix", "-b"], ["-p1", "--posix", "-f"], ["--posix", "-p1", "-E"]))
    return given(random, files(there), patch, words)


SCRIPTS = (
    "-p1 -s --fuzz=0 --no-backup-if-mismatch -f", "-p1 -b --suffix .orig2 --fuzz=2", "-p1 -s -b -z .fix", "--no-backup-if-mismatch -p1",
    "-t -F 0 -N -p1 -u -V never -b -z .dpkg-orig", "-s -t -F 0 -N -p1 -u -V never -E -b -B .pc/x/",
    "-s -t -F 0 -N -p1 -u -V never -E -b -B .pc/x/ --dry-run", "-g0 -f -p1 --no-backup-if-mismatch", "-p1 -g0 -E --no-backup-if-mismatch",
    "-s -g0 -E -p1 --dry-run -f", "-g0 -p1 -E --no-backup-if-mismatch -d . -t -N", "-g0 -p1 -E -d . -t -N", "--batch -Np1 --binary",
    "--no-backup-if-mismatch --batch -Np1 --binary", "-Np1 -p1", "-p1 -p1", "-N -p1 -N", "-p0 -p1 -N", "-g0 -f -p1 -g0", "-f -p1 -f",
    "--backup --prefix=.pc/x.patch/ -f -p1", "-p1 --backup --prefix=.pc/x/ --dry-run -f -E", "--forward -p1", "--forw -p1", "--strip 1",
    "--strip=1 --for", "--sil -p1", "--dry -p1", "--back -p1", "--rev -p1 --force", "--quiet -s -p1", "-s --silent -p1", "-p1 -g 1",
    "-p1 -g-1", "--get=2 -p1", "-v", "--version", "-p 1 -V t -b", "-p1 -V sim -b", "-p1 --no-backup", "-p1 -F3 -F0", "-p1 -z .a -z .b -b",
    "-bp1", "-p1 -u -u", "-p1 --quoting-style=literal", "-p1 --read-only=ignore", "-p1 --read-only=fail", "-p1 -i", "-p", "-px", "-p1 -F x",
    "-p1 --nothing", "-p1 -V what -b", "-p1 --reject-format=what", "-p1 --ignore-white", "-p1 --unif", "-p1 --verb", "-p1 --remove",
    "-p1 --set-t", "-p1 --fuz=1", "-p1 one two three", "-p-1", "-p1 --binary --binary", "--posix -p1 --posix", "-d sub -p1",
    "-d . -d . -p1", "-p1 -d nowhere", "-p1 -D", "-p1 --merge", "-p1 -x1", "-p1 -Y", "-p1 -B ''")


@kind("option_words")
def option_words(random):
    """Words as build tools and people pass them: said twice, cut short, without an effect, wrong."""
    old = trees.tree(random, random.randint(1, 2), 8, 20)
    new = trees.edited_tree(random, old, random.randint(0, 1), changed=2)
    patch = trees.diff(random, old, new, ["-ruN"])
    there = old if random.random() < 0.6 else random.choice((new, drifted_tree(random, old)))
    words = random.choice(SCRIPTS).split()
    words = ["" if word == "''" else word for word in words]
    tree = files(there)
    if "sub" in words:
        tree = {b"sub/" + name: entry for name, entry in tree.items()}
    return Case("", tree, [Run(words, patch)], facts={"words": " ".join(words)})
