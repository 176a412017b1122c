"""What a run takes: seconds and memory of a program over a patch text."""
import subprocess
import sys

# What runs the words and prints their status, seconds and KiB: a small process, since a child begins with its parent's memory.
LAUNCHER = """
import os, sys, time
begin = time.monotonic()
pid = os.fork()
if pid == 0:
    os.dup2(os.open(os.devnull, os.O_WRONLY), 1)
    os.execv(sys.argv[1], sys.argv[1:])
_, status, usage = os.wait4(pid, 0)
print(os.waitstatus_to_exitcode(status), time.monotonic() - begin, usage.ru_maxrss)
"""


def launched(words, place):
    """Runs the words with the patch as standard input, and returns wall seconds and MiB."""
    with open(f"{place}/p.diff", "rb") as patch:
        ran = subprocess.run([sys.executable, "-S", "-c", LAUNCHER, *words], stdin=patch, stdout=subprocess.PIPE, check=True)
    status, took, memory = ran.stdout.split()
    if status not in (b"0", b"1"):
        sys.exit(f"{words} ended with {int(status)}")
    return float(took), int(memory) / 1024
