"""A small case for each difference that docs/COMPAT.md tells of `patch`: it must be seen, or its row is no longer true."""
import difflib
from dataclasses import dataclass

from case import Case, Entry, Run, differences, files

NUMBERS = b"".join(b"%d\n" % number for number in range(1, 41))


@dataclass
class Told:
    """A case that shows a key's difference: what differs at which name, or what one of both alone prints; with neither, anything that is left."""
    key: str
    case: Case
    shows: "tuple | None" = None
    printed: bytes = b""

    def is_seen(self, gnu, ours):
        """Whether the difference is there."""
        if self.printed:
            return (self.printed in gnu.out[0] + gnu.err[0]) != (self.printed in ours.out[0] + ours.err[0])
        found = [(each.what, each.name) for each in differences(gnu, ours)]
        return bool(found) if self.shows is None else self.shows in found


CASES = []


def tell(key, tree, text, *words, shows=None, printed=b"", env=None, times=None):
    """Adds the case of a patch text, handed in on standard input, with words."""
    if all(isinstance(each, bytes) for each in tree.values()):
        tree = files(tree)
    case = Case("told", tree, [Run(list(words) or ["-p0"], text)], env=env or {}, facts={"times": times} if times else {})
    CASES.append(Told(key, case, shows, printed))


def lines_of(text):
    """Lines with their line feeds, as text that `difflib` reads."""
    return text.decode("latin-1").splitlines(keepends=True)


def change(name, old, new, context=3):
    """A unified patch of one file."""
    name = name.decode("latin-1")
    return "".join(difflib.unified_diff(lines_of(old), lines_of(new), name, name, n=context)).encode("latin-1")


def git(name, lines, old=None):
    """A file patch of git: its line `diff --git`, further header lines, and hunks."""
    return b"diff --git a/%s b/%s\n%s" % (old or name, name, lines)


def numbers(*pairs):
    """The lines 1 to 40 with some of them replaced."""
    text = NUMBERS
    for old, new in pairs:
        text = (b"\n" + text).replace(b"\n" + old + b"\n", b"\n" + new + b"\n")[1:]
    return text


BOTH = change(b"f", NUMBERS, numbers((b"10", b"ten"), (b"30", b"thirty")))
ONE = b"--- f\n+++ f\n@@ -1 +1 @@\n-a\n+b\n"
OTHER = b"--- g\n+++ g\n@@ -1 +1 @@\n-a\n+b\n"
MADE = b"--- /dev/null\n+++ f\n@@ -0,0 +1 @@\n+x\n"
HALF = numbers((b"30", b"other"))
GONE = b"--- f\n+++ /dev/null\n@@ -1 +0,0 @@\n-x\n"
LF, CRLF = b"\n", b"\r\n"

# What fails, or is refused.
tell("malformed-refuses-all", {b"f": b"a\n", b"g": b"a\n"}, ONE + b"--- g\n+++ g\n@@ -1,2 +1,2 @@\n-a\nb\n+c\n")
tell("hunk-numbers", {b"f": NUMBERS}, b"".join([BOTH.split(b"@@ -7", 1)[0], b"@@ -27" + BOTH.split(b"@@ -27")[1], b"@@ -7" + BOTH.split(b"@@ -7")[1].split(b"@@ -27")[0]]))
tell("binary-changes", {b"f": b"a\n"}, b"Binary files a/i and b/i differ\n" + ONE)
tell("newline-names", {b"a\nb": b"a\n"}, ONE.replace(b" f\n", b' "a\\nb"\n'))
tell("indented", {b"f": b"a\n"}, b"".join(b"  " + line for line in ONE.splitlines(keepends=True)).replace(b"  -a", b"-a"))
tell("mangled-context", {b"f": b"1\n2\n"}, b"*** f\n--- f\n**************\n*** 1,2 ****\n  1\n! 2\n--- 1,2 ----\n  1\n! two\n")
tell("headerless-hunks", {b"f": b"a\n"}, ONE + b"some text\n@@ -1 +1 @@\n-b\n+c\n")
tell("git-hunks-alone", {b"f": b"a\n"}, git(b"g", b"rename from f\nrename to g\n@@ -1 +1 @@\n-a\n+b\n", b"f"), "-p1")
tell("git-names-apart", {b"f": b"a\n", b"g": b"a\n"}, git(b"f2", b"similarity index 100%\nrename from f\nrename to f2\n--- a/g\n+++ b/g\n@@ -1 +1 @@\n-a\n+b\n", b"f"), "-p1")
tell("git-links", {b"l": Entry("link", b"f")}, git(b"m", b"similarity index 100%\nrename from l\nrename to m\n", b"l"), "-p1")
tell("in-the-way", {b"f/x": b"a\n", b"f.rej/x": b"a\n"}, MADE)
tell("links-on-the-way", {b"d": Entry("dir"), b"d/f": Entry(data=b"a\n"), b"l": Entry("link", b"d")}, ONE.replace(b" f\n", b" l/f\n"))
tell("output-several", {b"f": b"a\n", b"g": b"a\n"}, ONE + OTHER, "-p0", "-o", "o")
tell("directories-made", {b"f": b"a\n"}, ONE, "-p0", "-o", "d/o")
tell("output-empty", {b"f": b"a\n"}, b"", "-o", "o", "f")
tell("option-words", {b"f": b"a\n"}, ONE, "-p0", "--backup-if-mismatch", "--no-backup-if-mismatch")
tell("narrow-values", {b"f": b"a\n"}, ONE, "-p0", "-D", "A B")
tell("set-times", {b"f": b"a\n"}, ONE.replace(b" f\n", b" f\t2009-03-13 00:00:00\n"), "-p0", "-T", "-f", shows=("time", b"f"), env={"TZ": "EST5"}, times={b"f": 1000000000})
tell("backup-times", {b"f": b"a\n"}, ONE, "-p0", "-b", shows=("time", b"f.orig"), times={b"f": 1000000000})
tell("backup-names", {b"f": b"x\na\n", b"f.~1~": b"b\n"}, ONE, "-p0", shows=("extra", b"f.orig"))
tell("reserved-names", {b"f.ptmp": b"a\n"}, ONE.replace(b" f\n", b" f.ptmp\n"))
tell("merge", {b"f": b"a\n"}, ONE, "-p0", "--merge")
tell("root-directory", {b"f": b"a\n"}, ONE, "-d", "/")
tell("ed-order", {b"f": b"1\n2\n3\n"}, b"1d\n2d\n", "-e", "f")
tell("ed-names", {b"f": b"1\n2\n3\n"}, b"--- f\n+++ f\n1d\n", "-e")

# What is left otherwise.
tell("gone-already", {b"f": b""}, GONE, "-p0", "-f", shows=("extra", b"f"))
tell("stamps-of-1970", {b"f": b"x\n"}, b"--- f\t2019-01-02 00:00:00 +0000\n+++ f\t1970-01-01 10:00:00 +0000\n@@ -1 +0,0 @@\n-x\n")
tell("git-modes", {b"f": b"a\n"}, git(b"f", b"old mode 100644\nnew mode 100711\n"), "-p1")
tell("git-batch", {b"f": b"a\n", b"g": b"b\n"}, git(b"g", b"similarity index 100%\nrename from f\nrename to g\n", b"f") + git(b"f", b"similarity index 100%\nrename from g\nrename to f\n", b"g"), "-p1")
tell("failed-renames", {b"f": b"x\n"}, git(b"g", b"similarity index 50%\nrename from f\nrename to g\n--- a/f\n+++ b/g\n@@ -1 +1 @@\n-a\n+b\n", b"f"), "-p1", shows=("missing", b"g"))
tell("rename-over", {b"f": b"a\n", b"g": b"b\n"}, git(b"g", b"similarity index 100%\nrename from f\nrename to g\n", b"f"), "-p1")
tell("copy-reversed", {b"f": b"a\n", b"g": b"b\n"}, git(b"g", b"similarity index 50%\ncopy from f\ncopy to g\n--- a/f\n+++ b/g\n@@ -1 +1 @@\n-a\n+b\n", b"f"), "-p1", "-R")
tell("git-operand", {b"f": b"a\n"}, git(b"g", b"similarity index 50%\nrename from f\nrename to g\n--- a/f\n+++ b/g\n@@ -1 +1 @@\n-a\n+b\n", b"f"), "-p1", "f")
tell("git-prefix", {b"f": b"a\n"}, b"diff --git x/a/f x/b/g\nsimilarity index 100%\nrename from f\nrename to g\n", "-p2")
tell("git-header-gap", {b"f": b"a\n"}, git(b"g", b"similarity index 50%\n\nrename from f\nrename to g\n--- a/f\n+++ b/g\n@@ -1 +1 @@\n-a\n+b\n", b"f"), "-p1")
tell("backup-unplaced", {b"f": b"x\n"}, ONE)
tell("turned-backup", {b"f": b"b\n"}, ONE, "-p0", "-t")
tell("backup-first", {b"f": b"a\n"}, ONE + b"--- f\n+++ /dev/null\n@@ -1 +0,0 @@\n-b\n", "-p0", "-b")
tell("output-backup", {b"f": b"a\n", b"o": b"old\n"}, ONE, "-p0", "-b", "-o", "o")
tell("environment", {b"f": b"a\n"}, ONE, "-p0", "-b", env={"SIMPLE_BACKUP_SUFFIX": ".old"})
tell("emptied-directories", {b"d/f": b"x\n"}, GONE.replace(b" f\n", b" d/f\n"), "d/f")
tell("skipped-rejects", {b"f": b"b\n"}, ONE, "-p0", "-N")
tell("reject-headers", {b"f": HALF}, BOTH.replace(b" f\n", b" f\t2020-01-01 00:00:00.000000000 +0000\n"), shows=("bytes", b"f.rej"))
tell("reject-order", {b"f": numbers((b"10", b"ten"), (b"30", b"other"))}, BOTH, "-p0", "-R", shows=("bytes", b"f.rej"))
tell("reject-line-feed", {b"f": b"x\n"}, b"--- f\n+++ f\n@@ -1 +1 @@\n-a\n\\ No newline at end of file\n+b\n", "-p0", "-f", shows=("bytes", b"f.rej"))
tell("reject-modes", {b"f": Entry(data=HALF, mode=0o600)}, BOTH, shows=("mode", b"f.rej"))
tell("output-mode", {b"f": b"a\n"}, ONE, "-p0", "-o", "o")
tell("output-unplaced", {b"f": b"x\n"}, ONE, "-p0", "-f", "-o", "o")
tell("beyond-end", {b"f": b"a\n"}, b"--- f\n+++ f\n@@ -8,0 +9 @@\n+x\n")
tell("reversal-empty", {b"f": b"x\n"}, b"--- f\n+++ f\n@@ -1 +0,0 @@\n-a\n", "-p0", "-t")
tell("line-feed-cut", {b"f": b"a\n"}, ONE[:-1])
tell("cut-hunks", {b"f": b"a\n\n\n"}, b"--- f\n+++ f\n@@ -1,3 +1,3 @@\n-a\n+b\n \n")
tell("ifdef-blocks", {b"f": b"x\n"}, GONE, "-p0", "-D", "X")
tell("posix-rules", {b"f": b"a\n"}, MADE, "-p0", "--posix")
tell("forced-forward", {b"f": b"a\n"}, MADE, "-p0", "-N", "-f")
tell("prereq", {b"f": b"a\n", b"g": b"a\n"}, b"Prereq: 1.2\n" + ONE + OTHER, "-p0", "-t")
tell("peer-aborts", {b"f": b"a\n"}, git(b"g", b"similarity index 50%\nrename from f\nrename to g\n--- a/f\n+++ b/g\n@@ -1 +0,0 @@\n-a\n", b"f"), "-p1", "-E")

# What is printed otherwise.
tell("no-file-text", {}, ONE, printed=b"File to patch: ")
tell("skip-text", {b"f": b"b\n"}, ONE, printed=b"Apply anyway? [n] ")
tell("silent-text", {b"f": b"b\n"}, ONE, "-p0", "-N", "-s", printed=b"Reversed (or previously applied) patch detected!")
tell("indent-told", {b"f": b"a\n"}, b"".join(b"  " + line for line in ONE.splitlines(keepends=True)), printed=b"(Patch is indented 2 spaces.)")
RETURNED = ONE.replace(b"\n", CRLF)
STRIPPING = b"(Stripping trailing CRs from patch; use --binary to disable.)\n"
tell("returns-told", {b"f": b"a\n", b"g": b"a\n"}, ONE.replace(b"f\n", b"g\n") + RETURNED, printed=STRIPPING + b"patching file g\n")
tell("line-endings-told", {b"f": b"x\r\nx\n"}, b"--- f\n+++ f\n@@ -2 +2 @@\n-a\n+b\n", printed=b"(different line endings)")
tell("ed-silent", {b"f": b"a\n"}, b"1d\n", "-e", "f", printed=b"patching file f")
tell("verbose-text", {b"f": b"a\n"}, ONE, "-p0", "--verbose", printed=b"Hmm...")
tell("wording", {b"f": b"a\n"}, ONE, "-d", "missing", printed=b"Can't change to directory missing")
