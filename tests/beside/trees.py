"""Random texts, edits of them, trees of files, and what `diff` writes of two trees. All is drawn from the random.Random that is handed in."""
import os
import re
import shutil
import subprocess
import tempfile

WORDS = ("alpha beta gamma delta count value index table first second return begin close open other while until never always "
         "yellow purple orange silver copper marble garden window river stone").split()
COMMON = (b"", b"{", b"}", b"    return 0;", b"end", b"\tbreak;")
FOLDERS = (b"src", b"doc", b"lib", b"src/core", b"tests", b"a", b"include/sys")
STEMS = (b"main", b"list", b"util", b"notes", b"README", b"count", b"parse", b"table", b"NEWS", b"x")
ENDINGS = (b".c", b".h", b".txt", b"", b".py")
EPOCH_FREE = 1_000_000_000


def line(random):
    """One line of text without its line feed; now and then one that stands in many places."""
    if random.random() < 0.2:
        return random.choice(COMMON)
    indent = random.choice(("", "", "  ", "    ", "\t"))
    return (indent + " ".join(random.choice(WORDS) for _ in range(random.randint(1, 6)))).encode()


def text(random, least=3, most=40):
    """A list of lines without their line feeds."""
    return [line(random) for _ in range(random.randint(least, most))]


def joined(lines, last_line_feed=True):
    """The bytes of a text of lines."""
    whole = b"".join(each + b"\n" for each in lines)
    return whole if last_line_feed or not whole else whole[:-1]


def lines_of(data):
    """The lines of some bytes, each with its line feed where it has one."""
    return data.splitlines(keepends=True) if b"\r" not in data else [each + b"\n" for each in data.split(b"\n")]


def edit_once(random, lines):
    """One edit of a list of lines: some are removed, some put there."""
    at = random.randint(0, len(lines))
    removed = random.choice((0, 1, 1, 2, 3))
    made = [line(random) for _ in range(random.choice((0, 1, 1, 2, 3)))]
    if not made and not removed:
        made = [line(random)]
    return lines[:at] + made + lines[at + removed:]


def edited(random, lines, edits=None):
    """A list of lines after some edits; it always differs."""
    result = lines
    while result == lines:
        for _ in range(edits or random.randint(1, 4)):
            result = edit_once(random, result)
    return result


def name(random, folders=True):
    """A file's name of the usual kind, often in a folder."""
    stem = random.choice(STEMS) + random.choice(ENDINGS)
    if folders and random.random() < 0.5:
        return random.choice(FOLDERS) + b"/" + stem
    return stem


def stands_in_way(new, names):
    """Whether a name is there already, or one of them would be the other's directory."""
    return any(new == each or each.startswith(new + b"/") or new.startswith(each + b"/") for each in names)


def fresh_name(random, taken, folders=True):
    """A name that can stand beside those that are taken."""
    while True:
        new = name(random, folders)
        if random.random() < 0.2:
            new += b"%d" % random.randint(0, 99)
        if not stands_in_way(new, taken):
            return new


def tree(random, count=None, least=3, most=40):
    """Names and bytes of some text files."""
    texts = {}
    for _ in range(count or random.randint(1, 4)):
        texts[fresh_name(random, texts)] = joined(text(random, least, most))
    return texts


def edited_bytes(random, data, edits=None):
    """A file's bytes after some edits of its lines; whether its last line feed is there stays as it was."""
    lines = data.split(b"\n")
    ended = lines[-1:] == [b""]
    if ended:
        lines.pop()
    return joined(edited(random, lines, edits), ended or not lines)


def edited_tree(random, texts, made=0, removed=0, changed=None):
    """A tree after some files were changed, some made and some removed."""
    result = dict(texts)
    for gone in random.sample(sorted(result), min(removed, len(result))):
        del result[gone]
    for each in random.sample(sorted(result), min(changed or random.randint(1, 3), len(result))):
        result[each] = edited_bytes(random, result[each])
    for _ in range(made):
        result[fresh_name(random, {**texts, **result})] = joined(text(random, 1, 12))
    return result


def stamp(random):
    """A time of a file, in seconds, that is never near 1970."""
    return EPOCH_FREE + random.randint(0, 500_000_000)


def put(folder, texts, random, stamps=None):
    """Writes files with their times, which `diff` prints."""
    for each, data in texts.items():
        path = os.path.join(os.fsencode(folder), each)
        os.makedirs(os.path.dirname(path), exist_ok=True)
        with open(path, "wb") as file:
            file.write(data)
        time = (stamps or {}).get(each, None)
        time = stamp(random) if time is None else time
        os.utime(path, (time, time))


def diff(random, old, new, words, sides=(b"old", b"new"), zone="UTC", stamps=(None, None), operands=None):
    """What `diff WORDS OLD NEW` prints, of two trees that stand in two folders; `operands` names two paths to compare instead of the folders.

    The stamp of /dev/null, which is another one on each machine, is a fixed one."""
    top = tempfile.mkdtemp()
    try:
        for side, texts, times in zip(sides, (old, new), stamps):
            os.makedirs(os.path.join(os.fsencode(top), side))
            put(os.path.join(os.fsencode(top), side), texts, random, times)
        call = ["diff", *words, "--", *(operands or sides)]
        env = {"LC_ALL": "C", "TZ": zone, "PATH": os.environ.get("PATH", "/usr/bin:/bin")}
        done = subprocess.run([os.fsencode(each) for each in call], cwd=top, env=env, capture_output=True, check=False)
        if done.stderr:
            raise ValueError(done.stderr)
        return re.sub(rb"^((?:---|\+\+\+|\*\*\*) /dev/null)\t.*", rb"\1\tWed Jan  1 00:00:00 2020", done.stdout, flags=re.M)
    finally:
        shutil.rmtree(top)


def diff_files(random, each, old, new, words, **more):
    """What `diff WORDS` prints of one file that is in both trees."""
    return diff(random, {each: old}, {each: new}, words, operands=(b"old/" + each, b"new/" + each), **more)
