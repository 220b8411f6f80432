#!/usr/bin/env python3
"""Measures how threads wait at a node's lock, beside a mutex round the same work.

The program is the crate `thread_cases`, proved and built over this tree's `node_lock`, of whose input the first section is used. Each
task is run a few times at each number of threads, with the lock and with the mutex, and the medians of the wall and CPU seconds are
printed.
"""

import argparse
import pathlib
import resource
import statistics
import subprocess
import sys
import time

ROOT = pathlib.Path(__file__).resolve().parent.parent
# what it is called, whether one holder works and the others wait, turns, rounds of work in each
TASKS = [
    ("empty turns", "all", 400_000, 0),
    ("turns of 6,000 rounds", "all", 2_000, 6_000),
    ("a holder that works, 40,000,000 rounds a turn", "holder", 20, 40_000_000),
]


def built():
    """The program, over the libraries that are built already."""
    crate = ROOT / "crates/thread_cases"
    subprocess.run(["rt", "run"], cwd=crate, stdin=subprocess.DEVNULL, stdout=sys.stderr, check=True)
    return crate / "out/thread_cases"


def measured(program, line):
    """Wall and CPU seconds of a run."""
    before, start = resource.getrusage(resource.RUSAGE_CHILDREN), time.perf_counter()
    subprocess.run([program], input=line, stdout=subprocess.DEVNULL, check=True)
    wall, after = time.perf_counter() - start, resource.getrusage(resource.RUSAGE_CHILDREN)
    return wall, after.ru_utime + after.ru_stime - before.ru_utime - before.ru_stime


def median(program, runs, line):
    walls, busy = zip(*(measured(program, line.encode()) for _ in range(runs)))
    return f"{statistics.median(walls):.3f} / {statistics.median(busy):.3f}"


def main(words):
    parser = argparse.ArgumentParser(description=__doc__, formatter_class=argparse.RawDescriptionHelpFormatter)
    parser.add_argument("--runs", type=int, default=5)
    parser.add_argument("--threads", type=int, nargs="*", default=[1, 2, 4, 8])
    parser.add_argument("--program", type=pathlib.Path, help="the program, where it is built already")
    given = parser.parse_args(words)
    program = given.program or built()
    print("| task | threads | the lock, wall / CPU seconds | a mutex |\n|---|---|---|---|")
    for name, kind, turns, rounds in TASKS:
        for threads in given.threads:
            told = [median(program, given.runs, f"turns {lock} {kind} {threads} {turns} {rounds}\n") for lock in ("lock", "mutex")]
            print(f"| {name} | {threads} | {told[0]} | {told[1]} |", flush=True)


if __name__ == "__main__":
    main(sys.argv[1:])
