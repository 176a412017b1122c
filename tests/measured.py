"""The processor time of the checks that rt starts, by samples of /proc, since `rt ci` prints none; the ledger that keeps it, build/times.json; and
the words of one check."""
import functools
import importlib.machinery
import importlib.util
import json
import os
import re
import shutil
import sys
import time

LEDGER = "build/times.json"
# What a crate may cost, in seconds of one processor (docs/PROOFS.md).
MOST = {"proof": 180, "tests": 90, "edits": 120}
TICKS = os.sysconf("SC_CLK_TCK")
# Low crates that hardly ever change. How often what they take goes into what all take says more of the sources than minutes do.
YARDSTICK = ("glob_match", "line_list", "num_text")
# How many steps the loop has that tells how fast the machine is, of ten million, and how many looks come before it is run again.
STEPS, LOOKS = 100_000, 20


class Watch:
    """The processes that rt has started: of which crate each check is, what for, and the processor time that it has taken. Beside them how
    fast the machine was meanwhile, since a crate takes twice the time on one whose host has other work."""

    def __init__(self, rt):
        self.rt, self.seconds, self.of, self.ended, self.seeds = rt, {}, {}, set(), set()
        # the crates that are proved, which compilers build
        self.proved = set()
        self.looks, self.loops, self.host = 0, [], host_time()

    def look(self):
        """Looks once, and returns the checks that are seen for the first time, as crate and kind."""
        parents, ticks, begun, compilers, new = {}, {}, {}, set(), []
        for pid in filter(str.isdigit, os.listdir("/proc")):
            try:
                with open(f"/proc/{pid}/stat", encoding="utf-8", errors="replace") as file:
                    name, _, said = file.read().rpartition(")")
            except OSError:
                continue
            said = said.split()
            if "(clang" in name:
                compilers.add(int(pid))
            parents[int(pid)] = int(said[1])
            # (with the children that have ended)
            ticks[int(pid)], begun[int(pid)] = sum(map(int, said[11:15])), said[19]
        taken = {}
        for pid in parents:
            top = pid
            while parents.get(top, self.rt) != self.rt:
                top = parents[top]
            if parents.get(top) == self.rt:
                # (a number alone may come again)
                key = top, begun[top]
                taken[key] = taken.get(key, 0) + ticks[pid] / TICKS
                if pid in compilers and key in self.of:
                    self.proved.add(self.of[key][0])
        for key, seconds in taken.items():
            told = None if key in self.of else self.tell(key[0])
            if told:
                self.of[key] = told
                new.append(told)
            self.seconds[key] = max(seconds, self.seconds.get(key, 0))
        self.ended |= {key for key in self.of if key not in taken}
        return new

    def tell(self, pid):
        """Returns the crate of a check and what it is for, if the process is one."""
        try:
            with open(f"/proc/{pid}/cmdline", "rb") as file:
                words = file.read().decode(errors="replace").split("\0")
            place = os.path.basename(os.readlink(f"/proc/{pid}/cwd"))
        except OSError:
            return None
        if "--crate-name" not in words:
            return None
        name = words[words.index("--crate-name") + 1]
        if "--crate-checked" in words:
            self.proved.add(name)
            return name, "built"
        if not place.startswith("rt-edit-"):
            return name, "tests" if "--test" in words else "proof"
        over = words[words.index("--incremental") + 1] if "--incremental" in words else ""
        room, number = os.path.split(over)
        if number != "seed":
            # (one with no --incremental is tried from nothing)
            self.seeds.add(room)
            return name, "edit"
        return name, "last" if room in self.seeds else "seed"

    def feel(self):
        """Runs the loop where it is due, and notes what ten million steps would have taken."""
        if self.looks % LOOKS == 0:
            before = time.thread_time()
            sum(it & 7 for it in range(STEPS))
            self.loops.append((time.thread_time() - before) * 10_000_000 / STEPS)
        self.looks += 1

    def speed(self):
        """Returns what the loop took at its tenth, fifth and ninth tenth, and the part of the time that the host gave to others."""
        loops, (taken, whole) = sorted(self.loops), (now - then for now, then in zip(host_time(), self.host))
        return [loops[len(loops) * part // 10] for part in (1, 5, 9)], taken / max(whole, 1)

    def sums(self):
        """Returns, by crate and kind, the seconds of the checks that have ended, and how many they were."""
        found = {}
        for key in self.ended:
            name, kind = self.of[key]
            seconds, number = found.setdefault(name, {}).get(kind, (0, 0))
            found[name][kind] = round(seconds + self.seconds[key], 1), number + 1
        return found


def host_time():
    """Returns the ticks that the host gave to others, and all ticks, of all processors."""
    with open("/proc/stat", encoding="utf-8") as file:
        ticks = [int(it) for it in file.readline().split()[1:9]]
    return ticks[7], sum(ticks)


def looked(watch, begins=lambda told: None):
    """Looks once. A look that fails costs nothing but times."""
    try:
        watch.feel()
        for told in watch.look():
            begins(told)
    except (OSError, ValueError, IndexError, KeyError):
        pass


def follow(run, watch):
    """Looks twice a second until the run has ended, and returns what it took."""
    while True:
        looked(watch)
        pid, status, took = os.wait4(run.pid, os.WNOHANG)
        if pid:
            run.returncode = os.WEXITSTATUS(status) if os.WIFEXITED(status) else 128 + os.WTERMSIG(status)
            watch.ended |= {*watch.of}
            return took
        time.sleep(0.5)


def note(watch, run, begun):
    """Writes what this run took into the ledger. What it didn't prove keeps the times of the run that did."""
    ledger = read_ledger()
    for name, kinds in watch.sums().items():
        of = ledger["crates"].setdefault(name, {})
        if {"seed", "edit", "last"} & {*kinds}:
            of = {kind: it for kind, it in of.items() if kind in ("proof", "tests", "built")}
        ledger["crates"][name] = {**of, **kinds}
    ledger["run"] = {"minutes": (time.time() - begun) / 60, "processor": (run.ru_utime + run.ru_stime) / 60, "at": time.strftime("%Y-%m-%d %H:%M")}
    ledger["run"]["noted"] = sum(watch.seconds[it] for it in watch.ended) / 60
    ledger["run"]["loop"], ledger["run"]["host"] = watch.speed()
    os.makedirs("build", exist_ok=True)
    with open(f"{LEDGER}.new", "w", encoding="utf-8") as file:
        json.dump(ledger, file, indent=1)
    os.replace(f"{LEDGER}.new", LEDGER)


def read_ledger():
    try:
        with open(LEDGER, encoding="utf-8") as file:
            return json.load(file)
    except (OSError, ValueError):
        return {"crates": {}}


def clock(seconds):
    return f"{int(seconds) // 60}:{int(seconds) % 60:02}" if seconds else "-"


def all_below():
    """Returns, by name, what each crate's line in crates.txt names."""
    with open("crates.txt", encoding="utf-8") as file:
        return {name: below.split() for name, below in re.findall(r"(?m)^\s*(\w+)[^#\n]*:([^#\n]*)", file.read())}


def longest(below, proofs):
    """Returns the seconds of the longest chain of crates, each of which stands on the one in front of it, and the crates."""
    found = {}

    def up_to(name):
        if name not in found:
            seconds, chain = max((up_to(it) for it in below[name] if it in below), default=(0, []))
            found[name] = seconds + proofs.get(name, 0), [*chain, name]
        return found[name]

    return max(map(up_to, below))


def times():
    """Prints the ledger."""
    ledger = read_ledger()
    if not ledger["crates"]:
        print("no times are noted yet: make test and make note them, of what they prove")
        return 1
    below = all_below()
    table = {}
    for name, kinds in ledger["crates"].items():
        if name in below:
            given = {it: kinds.get(it, (0, 0)) for it in ("proof", "tests", "seed", "edit", "last", "built")}
            table[name] = [seconds for seconds, _ in given.values()] + [given["edit"][1]]
    print("Processor time in minutes and seconds, as each was proved last; * is above what docs/PROOFS.md allows.\n")
    print(f"{'crate':20}{'proof':>8}{'tests':>8}{'edits':>8}{'built':>8}{'sum':>9}    of the edits: before them, themselves, after them")
    total = [0] * 6
    for name, row in sorted(table.items(), key=lambda it: -sum(it[1][:6])):
        total = [one + other for one, other in zip(total, row)]
        costs = zip((row[0], row[1], sum(row[2:5])), MOST.values())
        line = "".join(f"{clock(cost):>7}{'*' if cost > most else ' '}" for cost, most in costs)
        tried = f"    {clock(row[2])}  {clock(row[3])} ({row[6]})  {clock(row[4])}" if sum(row[2:5]) else ""
        print(f"{name:20}{line}{clock(row[5]):>7} {clock(sum(row[:6])):>8}{tried}")
    print(f"{'all':20}{clock(total[0]):>7} {clock(total[1]):>7} {clock(sum(total[2:5])):>7} {clock(total[5]):>7} {clock(sum(total)):>8}")
    seconds, chain = longest(below, {name: row[0] for name, row in table.items()})
    print(f"\nThe longest chain of crates, each proved behind the one in front of it, {clock(seconds)}: {' '.join(chain)}")
    program = ["patchkit"]
    for name in program:
        program += [it for it in below.get(name, []) if it in below and it not in program]
    proofs = {name: table[name][0] if name in table else 0 for name in program}
    yard = sum(proofs.get(it, 0) for it in YARDSTICK)
    if yard and all(proofs.values()):
        print(f"\nThe proofs of patchkit and of what it stands on took {sum(proofs.values()) / yard:.1f} times what those of {', '.join(YARDSTICK)} took.")
    run = ledger["run"]
    print(f"\nThe last run ({run['at']}): {run['minutes']:.0f} minutes, {run['processor']:.0f} processor minutes, of which {run['noted']:.0f} for checks.")
    if "loop" in run:
        low, middle, high = run["loop"]
        print(f"The machine: sum(it & 7 for it in range(10_000_000)) took Python {middle:.2f} seconds of processor time meanwhile (a tenth of the looks below {low:.2f}, a")
        print(f"tenth above {high:.2f}), and the host gave {run['host']:.0%} of the time to others.")
    return 0


def seconds():
    """Writes what each crate's proof took by the ledger into the table by which builds go."""
    below = all_below()
    proofs = {name: kinds["proof"][0] for name, kinds in read_ledger()["crates"].items() if name in below and "proof" in kinds}
    if not proofs:
        print("no times are noted yet: make test and make note them, of what they prove")
        return 1
    with open("tests/seconds", "w", encoding="utf-8") as file:
        file.writelines(f"{name} {taken:.0f}\n" for name, taken in sorted(proofs.items(), key=lambda it: -it[1]))
    return 0


def words_of(top, name):
    """Returns the prover, and the words of a check of a crate from nothing, as rt has them."""
    path = os.path.join(os.path.dirname(os.path.realpath(shutil.which("rt"))), "rtlib.py")
    spec = importlib.util.spec_from_loader("rtlib", importlib.machinery.SourceFileLoader("rtlib", path))
    rtlib = sys.modules["rtlib"] = importlib.util.module_from_spec(spec)
    spec.loader.exec_module(rtlib)
    # (rt makes this list anew for each way to a crate)
    rtlib.Crate.below = functools.cache(rtlib.Crate.below)
    return rtlib.RATTLE, rtlib.Crate(f"{top}/crates/{name}", top, {}).words(["--jobs", "1"], keeps=False)
