#!/usr/bin/env python3
"""Measures `fleet-node` on request lines of several sizes: CPU seconds, lines a second of them, and the most memory held.

    lines.py [--program PROGRAM] [--only a,b] [--sizes N ..] [--runs N]

`takes` are the facts of a sound log; `reads` the same facts and then as many reads, with a fold and a discard now and then; `fronts`
ask how far an empty node is, so that they cost what a line costs. All lines come at once; each answer is flushed before the next line.
"""

import argparse
import os
import pathlib
import statistics
import subprocess
import sys
import tempfile

import measure

ROOT = pathlib.Path(__file__).resolve().parent.parent
sys.path.insert(0, str(ROOT / "tests"))
from model.facts import fact_of
from model.wire import fact_bytes

PROGRAM = ROOT / "crates/fleet_node/out/fleet_node"
SIZES = [10_000, 100_000]
FOLD_EACH = 100  # reads between a fold and a discard


def takes(size):
    for line in measure.sound_log(size):
        yield f"take {fact_bytes(fact_of(line)).hex()}"


def reads(size):
    yield from takes(size // 2)
    facts = measure.sound_log(size // 2)
    point, pages = measure.last_point(facts), measure.pages_of(size // 2)
    for place in range(size // 2):
        if place % FOLD_EACH == 0:
            yield f"fold {place // FOLD_EACH % pages}"
            yield "discard"
        yield f"read {place % pages} {point} 0 64"


def fronts(size):
    return ["front"] * size


TASKS = {"takes": takes, "reads": reads, "fronts": fronts}


def run_once(program, source, target):
    """CPU seconds, and the most memory held, in MB."""
    with open(source, "rb") as given, open(target, "wb") as answers:
        child = subprocess.Popen([program], stdin=given, stdout=answers)
        _, status, used = os.wait4(child.pid, 0)
        child.returncode = os.waitstatus_to_exitcode(status)
    if child.returncode != 0:
        raise SystemExit(f"{program} ended with status {child.returncode}")
    return used.ru_utime + used.ru_stime, used.ru_maxrss / 1024


def row(program, name, size, runs, folder):
    source, target = os.path.join(folder, "given"), os.path.join(folder, "answers")
    measure.write_apart(lambda: TASKS[name](size), source)
    ran = [run_once(program, source, target) for _ in range(runs)]
    with open(source) as given, open(target) as answers:
        count, told = sum(1 for _ in given), sum(1 for _ in answers)
    if told != count:
        raise SystemExit(f"{told} answers to {count} lines")
    seconds = statistics.median(it[0] for it in ran)
    return f"| {name} | {size} | {seconds:.3f} | {count / max(seconds, 1e-3):,.0f} | {max(it[1] for it in ran):.0f} |"


def main():
    parser = argparse.ArgumentParser(description=__doc__, formatter_class=argparse.RawDescriptionHelpFormatter)
    parser.add_argument("--program", type=pathlib.Path, default=PROGRAM, help="the built program")
    parser.add_argument("--only", default=",".join(TASKS), help="tasks, by name")
    parser.add_argument("--sizes", type=int, nargs="+", default=SIZES, help="how many lines, about")
    parser.add_argument("--runs", type=int, default=3, help="how often each text is read")
    given = parser.parse_args()
    unknown = [name for name in given.only.split(",") if name not in TASKS]
    if unknown:
        parser.error(f"no task is named {unknown[0]}")
    print(f"{os.cpu_count()} cores, CPU time, median of {given.runs}\n")
    print("| task | lines | s | lines a second | MB |\n|---|---|---|---|---|")
    with tempfile.TemporaryDirectory(prefix="fleet-lines-") as folder:
        for name in given.only.split(","):
            for size in given.sizes:
                print(row(given.program.resolve(), name, size, given.runs, folder), flush=True)


if __name__ == "__main__":
    main()
