"""Kinds of patch texts that came through mails, other systems or hands: line ends, indents, lost blanks, cut ends, odd numbers and names."""
import re

import trees
from case import Case, Run, files, kind

HOW = [[], [], [], [], ["-b"], ["-s"], ["-N"], ["-f"], ["-t"], ["--fuzz=0"], ["-l"]]
FORMS = ("-u", "-u", "-u", "-c", "-U1")
MAIL = b"From: a@example.org\nSubject: [PATCH] a change\n\nHello,\n"
FRONT = [b"", b"this is the change.\n", b"12a12\n> bar\n", b"3c3\n", b"2d\n", b"--- a line of hyphens\n", b"*** stars ***\n", b"Index: of things\n",
         b"diff of things\n", b"@@ -1 +1 @@\n", b"---\n", b"  1 file changed\n", b"*** 1,2 ****\n", b"+++ more\n"]
BEHIND = [b"", b"-- \nA. Author\n", b"\n-- \nlist@example.org\n", b"Thanks\n", b"--\n", b"\n\n", b"-----\n", b"+1\n", b" so far\n"]
NAMES = [b"read me", b'a "b" c', b"tab\there", b"back\\slash", b"gr\xc3\xbcn", b"d d/e", b"plain", b"latin\xe9", b"'single'", b" front", b"end ", b'"quote',
         b"bell\x07", b"line\nfeed"]
# what of the header lines and range lines is taken away
BARE = {"no header": rb"(?m)^(diff|---|\+\+\+) .*\n", "old header alone": rb"(?m)^(diff|\+\+\+) .*\n", "new header alone": rb"(?m)^(diff|---) .*\n",
        "no range signs": rb"(?m)^@@ (?=-)"}
STARTS = {"new start": rb"@@ -\1\2 +9\3\4 @@", "old start": rb"@@ -1\1\2 +\3\4 @@", "zero start": rb"@@ -0\2 +\3\4 @@",
          "leading zeros": rb"@@ -00\1\2 +0\3\4 @@", "large": rb"@@ -9999999999999999999999\2 +\3\4 @@", "no number": rb"@@ - +\3\4 @@"}
BLANKS = [rb"@@ -\1\2  +\3\4 @@", rb"@@ - \1\2 +\3\4 @@", rb"@@  -\1\2 +\3\4 @@", rb"@@ -\1\2 +\3\4  @@", rb"@@ -\1\2 + \3\4 @@", rb"@@ -\1\2 +\3\4@@"]
NUL = {"name": (rb"(?m)^([-+*]{3} (?:old|new)/.)", rb"\1\0"), "stamp": (rb"(?m)^([-+*]{3} .*)$", rb"\1\0"), "front": (rb"\A", b"a text\0of two\n"),
       "behind": (rb"\Z", b"a text\0of two\n")}
RANGE = re.compile(rb"@@ -(\d+)(,\d+)? \+(\d+)(,\d+)? @@")


def two_trees(random, least=8):
    """Returns a random tree, and the same with edits."""
    old = trees.tree(random, random.randint(1, 3), least)
    return old, trees.edited_tree(random, old)


def diff_of(random, old, new, form=None):
    """Returns what `diff -r` writes of two trees, in a form."""
    return trees.diff(random, old, new, ["-r", form or random.choice(FORMS)])


def case_of(random, tree, patch, words=("-p1",), want=None, **facts):
    """Returns the case of a patch over a tree of plain files, from standard input or a file."""
    words = [*words, *random.choice(HOW)]
    if random.random() < 0.5:
        return Case("", files(tree), [Run(words, patch)], facts=facts, want=want)
    return Case("", files(tree), [Run([*words, "-i", "../change.diff"])], {b"change.diff": patch}, facts, want=want)


def with_returns(data):
    """Returns a text whose lines end in carriage return and line feed."""
    return data.replace(b"\n", b"\r\n")


def binary_words(random):
    """Returns the words for a patch whose bytes may count."""
    return ["-p1", *["--binary"] * (random.random() < 0.4)]


@kind("crlf_patch")
def crlf_patch(random):
    """Carriage returns at the line ends of the patch alone."""
    old, new = two_trees(random)
    return case_of(random, old, with_returns(diff_of(random, old, new)), binary_words(random), want=new)


@kind("crlf_file")
def crlf_file(random):
    """Carriage returns at the line ends of the files alone."""
    old, new = two_trees(random)
    there = {name: with_returns(data) for name, data in old.items()}
    return case_of(random, there, diff_of(random, old, new), binary_words(random))


@kind("crlf_both")
def crlf_both(random):
    """Carriage returns in the files, and in all of the patch or only where the lines of the files stand in it."""
    old, new = [{name: with_returns(data) for name, data in tree.items()} for tree in two_trees(random)]
    patch = diff_of(random, old, new)
    if random.random() < 0.5:
        patch = re.sub(rb"\r*\n", b"\r\n", patch)
    return case_of(random, old, patch, binary_words(random), want=new)


@kind("indented")
def indented(random):
    """A patch that is pasted into a text, with blanks or a tab in front of each line, or of nearly each."""
    old, new = two_trees(random)
    front = random.choice([b" ", b"  ", b"    ", b"\t", b"        ", b"> "])
    lines = diff_of(random, old, new).splitlines(True)
    lost = random.randrange(len(lines)) if random.random() < 0.2 else None
    patch = b"".join(it if at == lost or it == b" \n" and random.random() < 0.3 else front + it for at, it in enumerate(lines))
    return case_of(random, old, b"See this:\n\n" + patch, want=new)


@kind("mail_text")
def mail_text(random):
    """A mail round the patch: header, text, a quoted hunk, a signature, commands that look like those of a diff."""
    old, new = two_trees(random)
    patch = diff_of(random, old, new)
    quote = b"".join(b"> " + it for it in patch.splitlines(True)[2:9])
    front, behind = [quote, *FRONT], [quote, *BEHIND]
    chosen = random.sample(front, random.randint(1, 2))
    end = random.choice(behind)
    return case_of(random, old, MAIL + b"".join(chosen) + patch + end, want=new, front=chosen, behind=end)


@kind("lost_blanks")
def lost_blanks(random):
    """Unified hunks whose empty lines of context lost their blank, or whose lines of context begin with a tab."""
    old, new = two_trees(random, 12)
    old, new = [{name: data.replace(b"\nend\n", b"\n\n").replace(b"\n{\n", b"\n\n\tmore;\n") for name, data in tree.items()} for tree in (old, new)]
    patch = diff_of(random, old, new, "-u")
    patch = patch.replace(b"\n \n", b"\n\n").replace(b"\n \n", b"\n\n")
    if random.random() < 0.5:
        patch = patch.replace(b"\n \t", b"\n\t")
    return case_of(random, old, patch, want=new)


@kind("mangled_context")
def mangled_context(random):
    """Context hunks with lost blanks, without a half that tells nothing, or without the row of stars."""
    old, new = two_trees(random, 10)
    patch = diff_of(random, old, new, "-c")
    way = random.choice(["blanks", "one blank", "empty lines", "rows", "half", "end"])
    return case_of(random, old, mangled(random, patch, way), want=new, way=way)


def mangled(random, patch, way):
    """Returns a context patch that is mangled in a way."""
    lines = patch.splitlines(True)
    shown = [at for at, it in enumerate(lines) if it[:2] in (b"  ", b"! ", b"+ ", b"- ")]
    if way == "empty lines":
        return re.sub(rb"(?m)^  $", b"", patch)
    if way == "rows":
        return patch.replace(b"\n***************\n", random.choice([b"\n**************\n", b"\n******************\n", b"\n"]))
    if way == "end":
        return b"".join(lines[:-random.randint(1, 3)])
    if way == "half":
        return without_half(random, lines)
    for at in shown if way == "blanks" else shown and [random.choice(shown)]:
        lines[at] = lines[at][:1] + lines[at][2:]
    return b"".join(lines)


def without_half(random, lines):
    """Returns a context patch in which the lines of some half are left out."""
    heads = [at for at, it in enumerate(lines) if re.match(rb"(\*\*\*|---) \d", it)]
    at = random.choice(heads)
    end = at + 1
    while end < len(lines) and not re.match(rb"--- \d|\*\*\*|diff ", lines[end]):
        end += 1
    return b"".join(lines[:at + 1] + lines[end:])


@kind("quoted")
def quoted(random):
    """Names that `diff` puts in quotes, and those with blanks that it doesn't."""
    old = {name: trees.joined(trees.text(random)) for name in random.sample(NAMES, random.randint(1, 3))}
    new = trees.edited_tree(random, old)
    for name in sorted(set(NAMES) - set(old))[:random.choice([0, 0, 1])]:
        new[name] = trees.joined(trees.text(random))
    patch = trees.diff(random, old, new, ["-rN", random.choice(FORMS)])
    if random.random() < 0.3:
        return case_of(random, old, patch, ["-p0"])
    return case_of(random, old, patch, want=new)


@kind("headerless")
def headerless(random):
    """Hunks without header lines: alone, behind a line of text, with an operand, and headers that lost a line."""
    old, new = two_trees(random)
    patch = diff_of(random, old, new, "-u")
    way = random.choice([*BARE, "text between", "one operand", "blank line between"])
    if way in BARE:
        told = re.sub(BARE[way], b"", patch)
    elif way == "one operand":
        told = re.sub(BARE["no header"], b"", patch)
    else:
        between = b"a line of text\n" if way == "text between" else b"\n"
        told = re.sub(rb"(?m)^@@ -", between + b"@@ -", patch)
    words = ["-p1", sorted(old)[0].decode()] if way == "one operand" else ["-p1"]
    return case_of(random, old, told, words, way=way)


@kind("prereq")
def prereq(random):
    """A line `Prereq:` with a word that the file has, or hasn't."""
    old, new = two_trees(random)
    words = old[sorted(old)[0]].split()
    word = random.choice(words) if words and random.random() < 0.5 else b"5.7"
    line = random.choice([b"Prereq: %s\n", b"Prereq:%s\n", b"Prereq: %s and more\n"]) % word
    return case_of(random, old, line + diff_of(random, old, new), want=new, word=word)


@kind("cut_text")
def cut_text(random):
    """A text that ends early: behind some line or within it."""
    old, new = two_trees(random)
    patch = diff_of(random, old, new)
    lines = patch.splitlines(True)
    kept = b"".join(lines[:random.randint(max(1, len(lines) - 6), len(lines))])
    way = random.choice(["whole lines", "no line feed", "within a line"])
    if way != "whole lines":
        kept = kept[:-1] if way == "no line feed" else kept[:-random.randint(1, 5)]
    return case_of(random, old, kept, way=way)


@kind("numbers")
def numbers(random):
    """Range lines with blanks round their numbers, other starts, and hunks in another order."""
    old, new = two_trees(random, 25)
    way = random.choice(["blanks", "new start", "old start", "zero start", "order", "leading zeros", "large", "no number"])
    patch = diff_of(random, old, new, "-U1")
    return case_of(random, old, renumbered(random, patch, way), way=way)


def renumbered(random, patch, way):
    """Returns a unified patch whose range lines are changed in a way."""
    if way == "order":
        heads, *hunks = re.split(rb"(?m)^(?=@@ )", patch.split(b"\ndiff ")[0] + b"\n" * (b"\ndiff " in patch))
        random.shuffle(hunks)
        return heads + b"".join(hunks)
    if way == "blanks":
        return RANGE.sub(random.choice(BLANKS), patch)
    return RANGE.sub(STARTS[way], patch, count=random.choice([0, 1]))


@kind("nul_bytes")
def nul_bytes(random):
    """Bytes 0 in the lines of a hunk, in a header line, and in the text around."""
    old, new = two_trees(random)
    way = random.choice(["hunk", "name", "stamp", "front", "behind"])
    if way == "hunk":
        old, new = [{name: data.replace(b" ", b"\0", 3) for name, data in tree.items()} for tree in (old, new)]
    patch = trees.diff(random, old, new, ["-ra", random.choice(FORMS)])
    if way in NUL:
        patch = re.sub(*NUL[way], patch, count=random.choice([0, 1]))
    return case_of(random, old, patch, want=new if way == "hunk" else None, way=way)
