"""Proves and builds a program of the benches.

Such a program has its sources under bench/NAME, in files that end with .text, since `rt ci` stops at code that no
crate of crates.txt has. It is copied to a temporary folder with the crates that it needs and what `rt` has kept of
their proofs, and proved and built there; where they were never proved, that takes long.
"""
import shutil
import subprocess
import sys
from pathlib import Path

ROOT = Path(__file__).resolve().parent.parent


def libraries(lines, name):
    """The crate's line of crates.txt and those of the crates below it."""
    words = lines.get(name, [])
    found = {name: words} if name in lines else {}
    for word in words:
        found |= libraries(lines, word)
    return found


def copied(folder, name, below):
    """Makes a repository of the program and the crates that it needs, and returns the program's crate."""
    rows = (row.partition(":") for row in (ROOT / "crates.txt").read_text().splitlines() if ":" in row and not row.startswith("#"))
    lines = {crate.strip(): rest.split() for crate, _, rest in rows}
    needed = {}
    for crate in below:
        needed |= libraries(lines, crate)
    for crate in needed:
        shutil.copytree(ROOT / "crates" / crate, folder / "crates" / crate)
    made = folder / "crates" / name
    for path in (ROOT / "bench" / name).rglob("*.text"):
        target = made / path.relative_to(ROOT / "bench" / name).with_suffix("")
        target.parent.mkdir(parents=True, exist_ok=True)
        shutil.copy(path, target)
    rows = [f"{crate}: {' '.join(words)}\n" for crate, words in (needed | {name: below}).items()]
    (folder / "crates.txt").write_text("".join(rows))
    shutil.copy(ROOT / "HANDLES", folder)
    return made


def built(folder, name, below):
    """The program of bench/NAME over these crates, built in a folder."""
    crate = copied(folder, name, below)
    run = subprocess.run(["rt", "run"], cwd=crate, stdin=subprocess.DEVNULL, capture_output=True, text=True)
    program = crate / "out" / name
    if run.returncode != 0 or not program.exists():
        sys.exit(run.stdout + run.stderr + f"{name} wasn't built")
    return program
