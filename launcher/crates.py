"""What a build goes by: the crates of crates.txt, how long each of them takes, and the commit."""
import hashlib
import os
import re
import subprocess
from pathlib import Path

ROOT = Path(__file__).resolve().parent.parent
BUILT = ROOT / "built"
STAMP = BUILT / "stamp"
PROGRAM = "hepf"
# The status of launchers that get no answer.
NO_ANSWER = 70
# What it takes to build, and to compile what isn't proved.
BUILDING = "half an hour to an hour and a half on four processors"
COMPILING = "one to three minutes"
# The parts of a crate that are proved.
PARTS = ("src", "specs", "proofs")
# What the proof of a crate takes at most, in most cases, in bytes.
MEMORY = 3_000_000_000


def lines():
    """By crate, what its line of crates.txt names."""
    rows = (row.partition("#")[0].split(":") for row in (ROOT / "crates.txt").read_text().splitlines())
    return {row[0].split()[0]: row[1].split() for row in rows if len(row) == 2}


def uses():
    """By crate, the crates that it stands on, for all that the program is made of; each behind those that it stands on."""
    found, stands_on = {}, lines()

    def add(name):
        if name not in found:
            below = [it for it in stands_on[name] if it in stands_on]
            for it in below:
                add(it)
            found[name] = below

    add(PROGRAM)
    return found


def below(stands_on):
    """By crate, the crates that it stands on, and those that they stand on."""
    found = {}
    for name, used in stands_on.items():
        found[name] = set(used).union(*(found[it] for it in used))
    return found


def seconds():
    """By crate, how long its proof takes by one processor."""
    rows = (row.split() for row in (ROOT / "launcher" / "seconds").read_text().splitlines()[1:])
    return {name: int(number) for name, number in rows}


def chains(stands_on, took):
    """By crate, the seconds of the longest chain of crates that begins with it and ends with the program."""
    found = {}
    for name in reversed(stands_on):
        above = [found[it] for it in found if name in stands_on[it]]
        found[name] = took.get(name, 60) + max(above, default=0)
    return found


def sums(stands_on, folder, parts=PARTS):
    """By crate, a sum of all that is proved of it and of the crates that it stands on, and of the toolchain; in this folder, of these parts."""
    found, rows, kit = {}, lines(), toolchain()
    for name, used in stands_on.items():
        made = hashlib.sha256(repr((kit, rows[name], [found[it] for it in used])).encode())
        for part in parts:
            for path in sorted((folder / "crates" / name / part).rglob("*")):
                if path.is_file():
                    made.update(f"{path.relative_to(folder)}\0".encode() + hashlib.sha256(path.read_bytes()).digest())
        found[name] = made.hexdigest()[:16]
    return found


def said_by(*words):
    """What a command writes, or nothing where it can't be run or fails."""
    try:
        return subprocess.run(words, cwd=ROOT, capture_output=True, text=True, check=True).stdout.strip()
    except (OSError, subprocess.CalledProcessError):
        return ""


def toolchain():
    return said_by("rt", "version")


def commit():
    """The commit of the sources, with a + behind it where they differ from it."""
    name = said_by("git", "rev-parse", "--short=8", "HEAD") or "unknown"
    return name + ("+" if said_by("git", "status", "--porcelain", "crates", "crates.txt") else "")


def old_commit():
    """The commit of the program that was built last, or nothing."""
    return STAMP.read_text().split()[0] if (BUILT / PROGRAM).exists() and STAMP.exists() else ""


def slots():
    """How many proofs run side by side: one a processor, and one for each share of the memory that is free."""
    free = re.search(r"^MemAvailable: +(\d+) kB$", Path("/proc/meminfo").read_text(), re.M)
    return max(1, min(len(os.sched_getaffinity(0)), int(free[1]) * 1024 // MEMORY if free else 1))
