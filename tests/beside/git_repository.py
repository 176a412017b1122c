"""Two or more trees as commits of a git repository in a folder of its own, and what git writes of them.

Nothing of the machine's or the user's settings counts, and author and dates are fixed: the same trees give the same bytes everywhere.
"""
import os
import subprocess
import tempfile

AUTHOR = b"A. Author <author@example.org>"
SECOND = 1700000000


def environment(folder):
    """Returns the environment of git, which sees the repository in this folder alone."""
    fixed = {"GIT_CONFIG_GLOBAL": "/dev/null", "GIT_CONFIG_SYSTEM": "/dev/null", "GIT_CONFIG_NOSYSTEM": "1", "GIT_ATTR_NOSYSTEM": "1"}
    return {"PATH": os.environ["PATH"], "HOME": folder, "GIT_DIR": folder, "LC_ALL": "C", "TZ": "UTC", **fixed}


def quoted(name):
    """Returns a name as the reader of commits takes every name: in double quotes."""
    plain = b"/.-_" + bytes(range(48, 58)) + bytes(range(65, 91)) + bytes(range(97, 123))
    return b'"' + b"".join(bytes([it]) if it in plain else b"\\%03o" % it for it in name) + b'"'


def git_mode(entry):
    """Returns the mode that git keeps of an entry."""
    if entry.kind == "link":
        return b"120000"
    return b"100755" if entry.mode is not None and entry.mode & 0o100 else b"100644"


def commit(number, tree, message):
    """Returns the commit of a tree, as the reader of commits takes it."""
    who = b"%s %d +0000\n" % (AUTHOR, SECOND + 100 * number)
    parts = [b"commit refs/heads/main\nmark :%d\nauthor %scommitter %s" % (number, who, who), b"data %d\n%s\n" % (len(message), message)]
    parts += [b"from :%d\n" % (number - 1)] * (number > 1) + [b"deleteall\n"]
    for name, entry in sorted(tree.items()):
        parts.append(b"M %s inline %s\ndata %d\n%s\n" % (git_mode(entry), quoted(name), len(entry.data), entry.data))
    return b"".join(parts) + b"\n"


def make(folder):
    """Makes an empty repository of a folder: what git wants to find there, and no more, since hundreds are made."""
    for name in ("objects", "refs"):
        os.mkdir(os.path.join(folder, name))
    with open(os.path.join(folder, "HEAD"), "w", encoding="ascii") as head:
        head.write("ref: refs/heads/main\n")


def written(trees, words, messages=()):
    """Returns what `git WORDS` writes over these trees, one commit each; of N trees main~N-1 is the first and main the last."""
    said = [*messages, *[b"Change %d\n" % it for it in range(len(messages), len(trees))]]
    stream = b"".join(commit(number + 1, tree, said[number]) for number, tree in enumerate(trees))
    with tempfile.TemporaryDirectory() as folder:
        how = {"env": environment(folder), "cwd": folder, "check": True, "stdout": subprocess.PIPE}
        make(folder)
        subprocess.run(["git", "-c", "fastimport.unpackLimit=0", "-c", "core.fsync=none", "fast-import", "--quiet"], input=stream, **how)
        return subprocess.run(["git", *words], **how).stdout


def diff(old, new, *words, settings=()):
    """Returns what `git diff WORDS` writes from one tree to another."""
    given = [part for setting in settings for part in ("-c", setting)]
    return written([old, new], [*given, "diff", *words, "main~1", "main"])


def mails(trees, *words, messages=()):
    """Returns the mails of all commits but the first, one behind another."""
    many = ["format-patch", "--stdout", "--signature=end of mail", *words, f"main~{len(trees) - 1}..main"]
    return written(trees, many, messages)
