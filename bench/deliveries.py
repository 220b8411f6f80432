#!/usr/bin/env python3
"""Measures how fast threads deliver the facts of a log to a node, beside a mutex round the same segment.

The program is the crate `thread_cases`, proved and built over this tree's `node_cell`, of whose input the first section is used. It makes
the facts of a log, deals them to threads and lets those deliver them, each fact once. A round has a run that delivers to a node, one
to the mutex, and one that makes and deals the facts and lets them go, whose wall and CPU seconds are taken off those of both.
The medians of the rounds are printed.
"""

import argparse
import pathlib
import resource
import statistics
import subprocess
import sys
import time

ROOT = pathlib.Path(__file__).resolve().parent.parent
# the whole log of the program
FACTS = 2_097_154


def built():
    """The program, over the libraries that are built already."""
    crate = ROOT / "crates/thread_cases"
    subprocess.run(["rt", "run"], cwd=crate, stdin=subprocess.DEVNULL, stdout=sys.stderr, check=True)
    return crate / "out/thread_cases"


def measured(program, taker, threads, facts):
    """Wall and CPU seconds of a run."""
    before, start = resource.getrusage(resource.RUSAGE_CHILDREN), time.perf_counter()
    line = f"deliver {taker} all {threads} {facts}"
    answer = subprocess.run([program], input=f"{line}\n".encode(), stdout=subprocess.PIPE, check=True).stdout.decode()
    wall, after = time.perf_counter() - start, resource.getrusage(resource.RUSAGE_CHILDREN)
    wanted = 0 if taker == "none" else facts
    if answer != f"{line}: {wanted} accepted\n":
        sys.exit(f"{taker}, {threads} threads: {answer.strip()}, not {wanted}")
    return wall, after.ru_utime + after.ru_stime - before.ru_utime - before.ru_stime


def told(runs, idle, facts):
    """Deliveries a second and CPU seconds, without those of the run that delivers nothing."""
    walls, busy = zip(*((run[0] - none[0], run[1] - none[1]) for run, none in zip(runs, idle)))
    return f"{facts / statistics.median(walls):,.0f} / {statistics.median(busy):.3f}"


def main(words):
    parser = argparse.ArgumentParser(description=__doc__, formatter_class=argparse.RawDescriptionHelpFormatter)
    parser.add_argument("--runs", type=int, default=5)
    parser.add_argument("--threads", type=int, nargs="*", default=[1, 8])
    parser.add_argument("--facts", type=int, default=FACTS, help="so many facts, from the first one of the log")
    parser.add_argument("--program", type=pathlib.Path, help="the program, where it is built already")
    given = parser.parse_args(words)
    program = given.program or built()
    print("| threads | a node, deliveries a second / CPU seconds | a mutex |\n|---|---|---|")
    for threads in given.threads:
        rounds = [[measured(program, taker, threads, given.facts) for taker in ("none", "cell", "mutex")] for _ in range(given.runs)]
        idle, cell, mutex = zip(*rounds)
        print(f"| {threads} | {told(cell, idle, given.facts)} | {told(mutex, idle, given.facts)} |", flush=True)


if __name__ == "__main__":
    main(sys.argv[1:])
