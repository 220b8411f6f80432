#!/usr/bin/env python3
"""Counts the instructions of takes in frames by callgrind: of plain ones, and of those that an engine asks under its generation.

    guards.py [--program PROGRAM] [--takes N]

Each count is that of one take, without the start of the program. The segment's part is what the step of its replica takes; the rest reads
the frame, asks the guard, and writes the answer. Prints a line for each kind of take; status 1 where callgrind is missing, an answer is not
`changed`, or the compiler left no function for the segment's step.
"""

import argparse
import pathlib
import re
import shutil
import subprocess
import sys
import tempfile

import make_log

ROOT = pathlib.Path(__file__).resolve().parent.parent
sys.path.insert(0, str(ROOT / "tests"))
from model.facts import fact_of
from model.wire import fact_bytes, frame, framed

PAGES = 250
SEGMENT = "replica::machine::Replica::step"
LONGEST = 10**19 - 1, 10**20 // 6  # a generation and a birth of as many digits as may come


def inclusive(annotated, name):
    """The instructions of a function with all that it calls, 0 where it was not called."""
    found = re.search(rf"^ *([0-9,]+) .*{re.escape(name)}(?: \[.*)?$", annotated, re.M)
    return int(found[1].replace(",", "")) if found else 0


def counted(program, birth, text, wanted):
    """All instructions of a run over some frames, and those of the segment's step."""
    with tempfile.TemporaryDirectory() as folder:
        words = ["valgrind", "--tool=callgrind", f"--callgrind-out-file={folder}/out", program, "--frames", "--birth", str(birth)]
        ran = subprocess.run(words, input=text, stdout=subprocess.PIPE, stderr=subprocess.DEVNULL)
        if ran.returncode != 0 or ran.stdout != wanted:
            raise SystemExit("an answer is not `changed`")
        words = ["callgrind_annotate", "--inclusive=yes", "--threshold=100", f"{folder}/out"]
        annotated = subprocess.run(words, stdout=subprocess.PIPE, stderr=subprocess.DEVNULL, text=True, check=True).stdout
    return inclusive(annotated, "PROGRAM TOTALS"), inclusive(annotated, SEGMENT)


def measured(program, takes, head=None):
    """The instructions of a take, and those of the segment's step; with a head it is asked under that generation and birth."""
    under = b"" if head is None else b"as %d %d " % head
    first = b"" if head is None else frame(b"admit %d %d 0 0" % head)
    told = b"" if head is None else frame(b"admitted %d %d" % head)
    birth = head[1] if head else 0
    start, _ = counted(program, birth, first, told)
    text = first + framed(under + b"take " + fact for fact in takes)
    total, segment = counted(program, birth, text, told + frame(under + b"changed") * len(takes))
    if segment == 0:
        raise SystemExit("the segment's step is no function of its own")
    return (total - start) / len(takes), segment / len(takes)


def main():
    parser = argparse.ArgumentParser(description=__doc__, formatter_class=argparse.RawDescriptionHelpFormatter)
    parser.add_argument("--program", type=pathlib.Path, default=ROOT / "crates/fleet_node/out/fleet_node")
    parser.add_argument("--takes", type=int, default=20_000, help="how many takes, 20,000 by default")
    given = parser.parse_args()
    if not shutil.which("valgrind"):
        raise SystemExit("guards.py needs valgrind")
    takes = [fact_bytes(fact_of(line)) for line in make_log.facts(given.takes, PAGES, 0, 0)]
    print(f"Takes of a node with a guard (`bench/guards.py`): {given.takes} in frames, by callgrind.\n")
    kinds = ("plain", None), ("under `as 1 0`", (1, 0)), ("under the longest numbers", LONGEST)
    for kind, head in kinds:
        total, segment = measured(given.program, takes, head)
        print(f"- A take {kind}: {total:.0f} instructions, {segment:.0f} of them ({100 * segment / total:.0f} %) in the segment's step.")


if __name__ == "__main__":
    main()
