#!/usr/bin/env python3
"""Runs the gate and writes what it cost, crate by crate, into docs/gate.txt.

Usage: bench/gate.py [NAME..]    `rt ci NAME..` at the top of the repository, with no name the whole gate
       bench/gate.py --log FILE  writes what a log of such a run holds, and runs nothing

The seconds are processor seconds: those that the system counts for each command that rt starts, once it has ended (seconds/sitecustomize.py). What an
earlier run kept costs nothing, so crates that are kept keep the seconds that stand in docs/gate.txt; remove what is kept, or take a machine that is
new, to measure all.
"""
import collections
import os
import subprocess
import sys
import tempfile

TOP = os.path.dirname(os.path.dirname(os.path.abspath(__file__)))
SECONDS = os.path.join(TOP, "docs", "gate.txt")
KINDS = ("proof", "tests", "edits")


def known():
    """The seconds that are written down."""
    rows = {}
    if os.path.exists(SECONDS):
        for line in open(SECONDS, encoding="utf-8"):
            if line.strip() and not line.startswith("#"):
                name, *seconds = line.split()
                rows[name] = tuple(map(int, seconds))
    return rows


def counted(log):
    """The seconds of each crate in a log of commands; the tests of a crate are a command of their own."""
    rows = collections.defaultdict(collections.Counter)
    for line in open(log, encoding="utf-8"):
        crate, done, seconds, _ = line.split(" ", 3)
        if done in KINDS:
            rows[crate][done] += float(seconds)
    return {crate: tuple(round(row[done]) for done in KINDS) for crate, row in rows.items()}


def write(rows):
    """Writes the seconds of the crates down, those of crates that still stand in crates.txt."""
    lines = open(os.path.join(TOP, "crates.txt"), encoding="utf-8").read().split("\n")
    names = {line.split(":")[0].split()[0] for line in lines if ":" in line and not line.startswith("#")}
    old = known()
    for name, row in rows.items():
        old[name] = tuple(new or was for new, was in zip(row, old.get(name, (0, 0, 0))))
    with open(SECONDS, "w", encoding="utf-8") as file:
        file.write("# crate, and the processor seconds of its proof, its tests and its must-fail edits, by bench/gate.py\n")
        for name in sorted(names & old.keys()):
            file.write(" ".join([name, *map(str, old[name])]) + "\n")


def main():
    if sys.argv[1:2] == ["--log"]:
        write(counted(sys.argv[2]))
        return 0
    with tempfile.TemporaryDirectory() as room:
        log = os.path.join(room, "seconds")
        open(log, "w").close()
        hook = os.path.join(TOP, "bench", "seconds")
        ran = subprocess.run(["rt", "ci", *sys.argv[1:]], cwd=TOP, env={**os.environ, "GATE_SECONDS": log, "PYTHONPATH": hook})
        write(counted(log))
    total = sum(map(sum, known().values()))
    print(f"gate: {total} processor seconds, {total / 60:.0f} minutes, as docs/gate.txt has them")
    return ran.returncode


if __name__ == "__main__":
    sys.exit(main())
