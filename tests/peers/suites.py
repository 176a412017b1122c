"""The three suites, each run over the programs of a folder."""
import concurrent.futures
import glob
import os
import re
import shutil
import signal
import subprocess
from collections import namedtuple

from sources import PLACE, Missing, sources

# What a script or test came to: how many of its checks passed, the names of those that failed, and why it was left out, if it was.
Result = namedtuple("Result", "name passed failed left_out", defaults=("",))
# patchutils' tests look for them in two folders.
FILTERS = {"src": ("lsdiff", "filterdiff", "grepdiff"), "scripts": ("splitdiff", "recountdiff")}
# How many scripts run at once, how many seconds each may take, and the status of one that isn't done then.
AT_ONCE, MOST, TOO_LONG = 2, 120, 124
# The status of a script of GNU patch that asks for more than the machine has.
LEFT_OUT = 77


def gnu_patch():
    """Returns the first GNU patch on the path."""
    for folder in os.get_exec_path():
        path = os.path.join(folder, "patch")
        if os.access(path, os.X_OK) and version_of(path).startswith("GNU patch"):
            return path
    raise Missing("no GNU patch here")


def version_of(program):
    return subprocess.run([program, "--version"], stdin=subprocess.DEVNULL, capture_output=True, text=True).stdout


def need(*programs):
    lacking = [name for name in programs if not shutil.which(name)]
    if lacking:
        raise Missing(f"no {', '.join(lacking)} here")


def tool(bin, name):
    """Returns the path of this tool in the folder."""
    path = os.path.join(bin, name)
    if not os.access(path, os.X_OK):
        raise Missing(f"no {name} in {bin}")
    return path


def fresh(name):
    """Returns a new, empty folder for what a suite leaves."""
    folder = os.path.abspath(f"{PLACE}/work/{name}")
    if os.path.isdir(folder):
        subprocess.run(["chmod", "-R", "u+rwx", folder], check=True)
        shutil.rmtree(folder)
    os.makedirs(folder)
    return folder


def links(folder, paths):
    """Makes a link in the folder to each of these programs."""
    os.makedirs(folder, exist_ok=True)
    for path in paths:
        os.symlink(path, os.path.join(folder, os.path.basename(path)))


def run(suite, name, words, cwd, **given):
    """Runs one script without a terminal and without what the user has set; returns its status and all that it printed, which is kept too."""
    env = {name: os.environ[name] for name in ("PATH", "HOME") if name in os.environ} | {"LC_ALL": "C", "LANG": "C", "TZ": "UTC"} | given
    log = f"{PLACE}/log/{suite}.{name}"
    os.makedirs(f"{PLACE}/log", exist_ok=True)
    with open(log, "wb") as out:
        streams = {"stdin": subprocess.DEVNULL, "stdout": out, "stderr": out}
        child = subprocess.Popen(words, cwd=cwd, env=env, umask=0o022, start_new_session=True, **streams)
        try:
            status = child.wait(MOST)
        except subprocess.TimeoutExpired:
            os.killpg(child.pid, signal.SIGKILL)
            child.wait()
            status = TOO_LONG
    with open(log, encoding="utf-8", errors="replace") as file:
        return status, file.read()


def at_once(one, names):
    """Returns the results of these scripts in the order of their names."""
    with concurrent.futures.ThreadPoolExecutor(AT_ONCE) as pool:
        yield from pool.map(one, sorted(names))


def whole(name, status):
    """Returns the result of a test that is one check."""
    return Result(name, 0, [""]) if status else Result(name, 1, [])


def patch_suite(bin):
    """GNU patch's scripts. A check has its number in the script; 0 is a script that makes none, or isn't done in time."""
    # (without ed some scripts leave out checks, and number the others otherwise)
    need("bash", "diff", "ed")
    program, tests, work = tool(bin, "patch"), sources("patch-2.8") + "/tests", fresh("patch")

    def one(name):
        top = f"{work}/{name}"
        os.makedirs(top + "/tests")
        status, said = run("patch", name, ["bash", f"{tests}/{name}"], top, srcdir=tests, abs_top_builddir=top, PATCH=program)
        if status == LEFT_OUT:
            return Result(name, 0, [], said.strip().replace("\n", " "))
        checks = re.findall(r"^\[\d+\] .*? -- (ok|FAILED)$", said, re.MULTILINE | re.DOTALL)
        failed = [str(at) for at, it in enumerate(checks, 1) if it == "FAILED"]
        return Result(name, checks.count("ok"), failed if checks and status != TOO_LONG else ["0", *failed])

    return at_once(one, (name for name in os.listdir(tests) if not name.startswith(("Makefile", "test-lib"))))


def patchutils_suite(bin):
    """patchutils' tests of the filters that we have too, and of no other tool of its."""
    need("diff", "cmp")
    programs = {folder: [tool(bin, name) for name in names] for folder, names in FILTERS.items()}
    top, theirs, work = sources("patchutils-0.4.2"), gnu_patch(), fresh("patchutils")
    for folder, paths in programs.items():
        links(f"{work}/{folder}", paths)
    ours = {name for names in FILTERS.values() for name in names}

    def one(name):
        given = {"top_srcdir": top, "top_builddir": work, "ARENA": work + "/arena", "PATCH": theirs + " -s"}
        return whole(name, run("patchutils", name, ["sh", f"{top}/tests/{name}/run-test"], work, **given)[0])

    tests = {path.split("/")[-2]: tools_of(path) for path in glob.glob(top + "/tests/*/run-test")}
    return at_once(one, (name for name, tools in tests.items() if tools and tools <= ours))


def tools_of(script):
    """Returns the names of patchutils' tools that the test runs; it has them in variables, beside DIFF and PATCH."""
    with open(script, encoding="utf-8", errors="replace") as file:
        return {name.lower() for name in re.findall(r"\$\{([A-Z]+(?:DIFF|VIEW))\}", file.read())}


def quilt_suite(bin):
    """quilt's tests, of scripts that were made with GNU patch; the folder's `patch` is the first on the path."""
    need("bash", "perl", "make", "getopt", "diff")
    program, top = tool(bin, "patch"), sources("quilt-0.68")
    make_quilt(top)
    work = fresh("quilt")
    links(work, [program])

    def one(name):
        given = {"PATH": f"{top}/bin:{top}/compat:{work}:{os.environ['PATH']}", "QUILT_DIR": top + "/quilt", "QUILT_PC": ".pc"}
        given |= {"QUILTRC": top + "/test/test.quiltrc", "P": "patches/", "_P": "../patches/"}
        return whole(name, run("quilt", name, ["perl", "run", "-q", name + ".test"], top + "/test", **given)[0])

    yield configured(program, top)
    yield from at_once(one, (os.path.basename(path).removesuffix(".test") for path in glob.glob(top + "/test/*.test")))


def configured(program, top):
    """Whether quilt's configure takes this program as its `patch`: it looks at its name and version."""
    work = fresh("quilt-configure")
    shutil.copytree(top, work, dirs_exist_ok=True)
    return whole("configure", run("quilt", "with-patch", ["./configure", f"--with-patch={program}"], work)[0])


def make_quilt(top):
    """Makes quilt's scripts, once, where GNU patch is the first on the path. Its wrapper runs the `patch` that is the first later."""
    if os.path.exists(top + "/bin/quilt"):
        return
    path = f"{os.path.dirname(gnu_patch())}:{os.environ['PATH']}"
    made = ["make", "-s", "scripts", "compat", "bin/patch-wrapper", "PATCH=patch"]
    for step, words in (("configure", ["./configure", "--with-patch-wrapper"]), ("make", made)):
        if run("quilt", step, words, top, PATH=path)[0]:
            shutil.rmtree(top)
            raise Missing(f"quilt can't be made here, {PLACE}/log/quilt.{step} says why")


SUITES = {"patch": patch_suite, "patchutils": patchutils_suite, "quilt": quilt_suite}
