"""The sources of GNU patch, patchutils and quilt, whose suites are run: got by apt-get, checked by their sums, kept in build/peers."""
import hashlib
import os
import re
import shutil
import subprocess

PLACE = "build/peers"
# The archive of each, its sum, and the release of Debian that has it.
SOURCES = {
    "patch-2.8": ("patch_2.8.orig.tar.xz", "f87cee69eec2b4fcbf60a396b030ad6aa3415f192aa5f7ee84cad5e11f7f5ae3", "trixie"),
    "patchutils-0.4.2": ("patchutils_0.4.2.orig.tar.gz", "2ff95f11946558ce63f4d1167abaccbffd49750152346d5304e03ad884304ad6", "bookworm"),
    "quilt-0.68": ("quilt_0.68.orig.tar.gz", "fe8c09de03c106e85b3737c8f03ade147c956b79ed7af485a1c8a3858db38426", "trixie"),
}


class Missing(Exception):
    """What a suite needs and this machine lacks, in one line."""


def sources(name):
    """Returns the folder with these sources. What is there already isn't fetched again."""
    archive, wanted, release = SOURCES[name]
    path, unpacked = f"{PLACE}/{archive}", f"{PLACE}/{name}"
    if not os.path.exists(path) or sum_of(path) != wanted:
        os.makedirs(PLACE, exist_ok=True)
        shutil.rmtree(unpacked, ignore_errors=True)
        fetch(name.partition("-")[0], archive, wanted, release)
    if not os.path.isdir(unpacked):
        unpack(path, unpacked)
    return os.path.abspath(unpacked)


def sum_of(path):
    with open(path, "rb") as file:
        return hashlib.sha256(file.read()).hexdigest()


def fetch(package, archive, wanted, release):
    """Gets the archive by apt-get, which may end with an error where the mirror lacks another file of the package: the sum decides."""
    if not shutil.which("apt-get"):
        raise Missing(f"no apt-get here: put {archive} into {PLACE}")
    version = version_with(package, wanted)
    if not version:
        line = f"deb-src http://deb.debian.org/debian {release} main"
        raise Missing(f"apt lists no {archive}: add the line `{line}` to /etc/apt/sources.list.d/peers.list, then run apt-get update")
    words = ["apt-get", "-qq", "source", "--download-only", "--tar-only", f"{package}={version}"]
    subprocess.run(words, cwd=PLACE, stdin=subprocess.DEVNULL, capture_output=True)
    path = f"{PLACE}/{archive}"
    if not os.path.exists(path):
        raise Missing(f"apt-get doesn't get {archive}, of {package} {version}")
    if sum_of(path) != wanted:
        os.remove(path)
        raise Missing(f"the sha256 sum of {archive} isn't {wanted}")


def version_with(package, wanted):
    """Returns the version of the source package that apt lists with an archive of this sum, or None."""
    listed = subprocess.run(["apt-cache", "showsrc", package], stdin=subprocess.DEVNULL, capture_output=True, text=True).stdout
    for source in listed.split("\n\n"):
        version = re.search(r"^Version: (\S+)", source, re.MULTILINE)
        if version and wanted in source:
            return version[1]
    return None


def unpack(path, unpacked):
    """Unpacks the archive. The folder has its name only once all of it is there."""
    begun = unpacked + ".new"
    shutil.rmtree(begun, ignore_errors=True)
    os.makedirs(begun)
    subprocess.run(["tar", "-xf", path, "-C", begun, "--strip-components=1", "--no-same-owner"], check=True)
    os.rename(begun, unpacked)
