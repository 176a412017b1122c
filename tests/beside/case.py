"""What a scenario is, what both programs leave of it, and how the two differ."""
import os
import shutil
import stat
import subprocess
from dataclasses import dataclass, field, replace

LIMIT = 20
TIMED_OUT = 124
STAMP = 1_600_000_000


@dataclass(frozen=True)
class Entry:
    """A file, link or directory of a tree; a link's data is its text."""
    kind: str = "file"
    data: bytes = b""
    mode: "int | None" = None


@dataclass
class Run:
    """One call of a tool in the working directory."""
    words: list
    stdin: bytes = b""
    tool: str = "patch"


@dataclass
class Case:
    """A tree, the calls over it, and what its generator knows of them."""
    kind: str
    tree: dict
    runs: list
    beside: dict = field(default_factory=dict)
    facts: dict = field(default_factory=dict)
    peer: str = "gnu"
    want: "dict | None" = None  # names and bytes of the tree that the patch was made for
    env: dict = field(default_factory=dict)


@dataclass
class Left:
    """What a program left: (kind, permission bits, bytes) by name, and what each call answered; times only where they are asked for."""
    shape: dict
    status: list
    out: list
    err: list
    times: dict = field(default_factory=dict)


@dataclass(frozen=True)
class Difference:
    """One thing that differs: 'status' (the name is the call's number), 'missing' or 'extra' with ours, 'bytes', 'mode', 'kind' or 'time'."""
    what: str
    name: object
    gnu: object
    ours: object


KINDS = {}


@dataclass(frozen=True)
class Kind:
    """A generator of cases and the programs that it needs."""
    make: object
    needs: tuple


def kind(name, needs=()):
    """Registers a generator under a kind's name; it is handed a random.Random."""
    def register(make):
        KINDS[name] = Kind(make, tuple(needs))
        return make
    return register


class Reasons(list):
    """Pairs of a key and a function (case, gnu, ours, differences) that answers those differences which the key explains."""

    def of(self, key):
        """Adds a function under a key."""
        def register(explain):
            self.append((key, explain))
            return explain
        return register


def files(texts):
    """A tree of plain files from names and bytes."""
    return {name: Entry("file", data) for name, data in texts.items()}


def put_entry(path, entry):
    """Makes a file, link or directory with the directories above it."""
    os.makedirs(os.path.dirname(path), exist_ok=True)
    if entry.kind == "dir":
        os.makedirs(path, exist_ok=True)
    elif entry.kind == "link":
        os.symlink(entry.data, path)
        return
    else:
        with open(path, "wb") as file:
            file.write(entry.data)


def put_tree(tree, top):
    """Makes a tree; permission bits last and from the inside out, since a directory may refuse what comes below it."""
    os.makedirs(top, exist_ok=True)
    for name, entry in tree.items():
        put_entry(os.path.join(top, name), entry)
    for name, entry in sorted(tree.items(), reverse=True):
        if entry.mode is not None and entry.kind != "link":
            os.chmod(os.path.join(top, name), entry.mode)


def put_times(case, top):
    """Gives each file the time that the case says, else one that is the same for all."""
    said = case.facts.get("times", {})
    for name, entry in case.tree.items():
        time = said.get(name, STAMP) if isinstance(said, dict) else STAMP
        os.utime(os.path.join(top, name), (time, time), follow_symlinks=False)


def put_case(case, place):
    """Makes a case's tree in PLACE/work and what lies beside it in PLACE."""
    work = os.path.join(os.fsencode(place), b"work")
    put_tree(case.tree, work)
    put_tree({name: Entry("file", data) for name, data in case.beside.items()}, os.path.dirname(work))
    put_times(case, work)
    return work


def environment(case, program_folder, place):
    """The environment of a call: nothing of the caller's but the path."""
    path = os.fsdecode(program_folder) + ":" + os.environ.get("PATH", "/usr/bin:/bin")
    fixed = {"PATH": path, "LC_ALL": "C", "TZ": "UTC", "HOME": os.fsdecode(place), "GIT_CONFIG_GLOBAL": "/dev/null",
             "GIT_CONFIG_NOSYSTEM": "1", "GIT_CEILING_DIRECTORIES": os.fsdecode(place)}
    return {**fixed, **case.env}


def call(run, work, env):
    """Carries out one call; answers its status, output and errors."""
    words = [os.fsencode(word) for word in [run.tool, *run.words]]
    try:
        done = subprocess.run(words, cwd=work, env=env, input=run.stdin, capture_output=True, timeout=LIMIT, umask=0o022, check=False)
    except subprocess.TimeoutExpired as late:
        return TIMED_OUT, late.stdout or b"", late.stderr or b""
    return done.returncode, done.stdout, done.stderr


def look(path):
    """The kind, permission bits and bytes of what is at a path."""
    found = os.lstat(path)
    bits = stat.S_IMODE(found.st_mode)
    if stat.S_ISLNK(found.st_mode):
        return "link", 0o777, os.readlink(path)
    if stat.S_ISDIR(found.st_mode):
        return "dir", bits, b""
    if not stat.S_ISREG(found.st_mode):
        return "other", bits, b""
    with open(path, "rb") as file:
        return "file", bits, file.read()


def name_in(place, path):
    """A path as the working directory names it."""
    name = os.path.relpath(path, place)
    return name[5:] if name.startswith(b"work/") else b"../" + name


def all_below(place):
    """Each path below a place but the working directory itself, in the order of names."""
    for folder, folders, names in os.walk(place):
        folders.sort()
        for name in sorted(folders + names):
            path = os.path.join(folder, name)
            if path != os.path.join(place, b"work"):
                yield path


def time_of(path, begun):
    """The time of a file, or 'now' if it was written by the run."""
    time = os.lstat(path).st_mtime
    return "now" if time >= begun else time


def run(case, program_folder, place):
    """Makes the tree afresh in a place, carries out each call there, and answers what is left; the place is taken away."""
    place = os.fsencode(place)
    take_away(place)
    work = put_case(case, place)
    begun = os.stat(place).st_mtime - 60
    env = environment(case, program_folder, place)
    answers = [call(each, work, env) for each in case.runs]
    shape = {name_in(place, path): look(path) for path in all_below(place)}
    times = {}
    if case.facts.get("times"):
        times = {name_in(place, path): time_of(path, begun) for path in all_below(place) if not os.path.isdir(path)}
    take_away(place)
    return Left(shape, *(list(column) for column in zip(*answers)), times)


def take_away(place):
    """Removes a place with all that is in it, read-only directories too."""
    if not os.path.lexists(place):
        return
    for folder, folders, _ in os.walk(place):
        for name in folders:
            path = os.path.join(folder, name)
            if not os.path.islink(path):
                os.chmod(path, 0o700)
    shutil.rmtree(place)


def peer_case(case):
    """The case as its peer is asked: `git apply` with its own words for git, else the same one."""
    if case.peer != "git":
        return case
    return replace(case, runs=[Run(["apply", *case.facts["git_words"]], each.stdin, "git") for each in case.runs])


def differences_at(name, gnu, ours):
    """How two things at one name differ."""
    if gnu[0] != ours[0]:
        return [Difference("kind", name, gnu, ours)]
    found = []
    if gnu[2] != ours[2]:
        found.append(Difference("bytes", name, gnu[2], ours[2]))
    if gnu[1] != ours[1]:
        found.append(Difference("mode", name, gnu[1], ours[1]))
    return found


def differences(gnu, ours):
    """All that differs between what the two programs left, without what they printed."""
    found = [Difference("status", number, *pair) for number, pair in enumerate(zip(gnu.status, ours.status)) if pair[0] != pair[1]]
    for name in sorted({**gnu.shape, **ours.shape}):
        if name not in ours.shape:
            found.append(Difference("missing", name, gnu.shape[name], None))
        elif name not in gnu.shape:
            found.append(Difference("extra", name, None, ours.shape[name]))
        else:
            found += differences_at(name, gnu.shape[name], ours.shape[name])
    for name in sorted({**gnu.times, **ours.times}):
        pair = gnu.times.get(name), ours.times.get(name)
        if name in gnu.shape and name in ours.shape and pair[0] != pair[1]:
            found.append(Difference("time", name, *pair))
    return found


def reaches(case, left):
    """Whether the files are those that the patch was made for."""
    names = {*case.want, *(name for name, entry in case.tree.items() if entry.kind != "dir")}
    return all((left.shape[name][2] if name in left.shape else None) == case.want.get(name) for name in sorted(names))


def is_wrong(case, gnu, ours):
    """Whether ours says that all is well over a tree that isn't the one the patch was made for, though its peer reaches it."""
    return case.want is not None and not any(ours.status) and not reaches(case, ours) and reaches(case, gnu)
