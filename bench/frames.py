#!/usr/bin/env python3
"""Measures takes of a sound log by frames through the archive in this process, one at a time, many at once and many in a frame, and by
lines through a process of `fleet-node`: seconds on the clock, CPU seconds of both sides, and takes a second of each.

    frames.py [--archive ARCHIVE] [--program PROGRAM] [--sizes N ..] [--batches B ..] [--runs N]

A batch is sent at once, each take in a frame of its own or all in one, and its answers are read before the next one is sent; a batch of
one is what a call that waits for its answer costs. By lines all come at once from a file. Each answer must be `changed`.

Then the archive's segment alone, in a process that has all frames in a file: takes, and as many that are read to their end and refused
for a byte after it. What these cost is the way to a call and back, so the rest is the call itself.
"""

import argparse
import itertools
import os
import pathlib
import statistics
import sys
import tempfile
import time

import lines

ROOT = pathlib.Path(__file__).resolve().parent.parent
sys.path.insert(0, str(ROOT / "tests"))
from harness import archive
from model.wire import frame

SIZES = [100_000]
BATCHES = [1, 64, 256]
MOST = 256  # takes in a frame of those out of a file
CHANGED = frame(b"changed")


def alone(frames):
    """Frames, one after the other."""
    return b"".join(frames)


def together(frames):
    """One frame that holds them."""
    return frame(b"many " + alone(frames))


def by_frames(serve, requests, batch, put):
    """Seconds, and CPU seconds, until all is answered."""
    segment = archive.Segment(serve)
    parts = [(put(requests[at : at + batch]), min(batch, len(requests) - at)) for at in range(0, len(requests), batch)]
    answers = {count: CHANGED * count if put is alone else frame(CHANGED * count) for _, count in parts}
    begun, used = time.perf_counter(), time.process_time()
    for part, count in parts:
        segment.own.sendall(part)
        if segment.bytes(len(answers[count])) != answers[count]:
            raise SystemExit("an answer is not `changed`")
    told = time.perf_counter() - begun, time.process_time() - used
    segment.close()
    return told


def by_lines(program, size, folder):
    """The same of a process of lines; all is there when it starts."""
    source, target = os.path.join(folder, "given"), os.path.join(folder, "answers")
    lines.measure.write_apart(lambda: lines.takes(size), source)
    begun = time.perf_counter()
    used, _ = lines.run_once(program, source, target)
    return time.perf_counter() - begun, used


def of_segment(served, requests, put, folder):
    """CPU seconds of a process that answers all of them out of a file."""
    source, target = os.path.join(folder, "given"), os.path.join(folder, "answers")
    with open(source, "wb") as given:
        for at in range(0, len(requests), MOST):
            given.write(put(requests[at : at + MOST]))
    return lines.run_once(served, source, target)[0]


def beside_the_call(served, facts, runs, folder):
    """For each way to put takes into frames: seconds of takes and of refused ones, and what a take costs of the call itself."""
    for put, how in ((alone, "each in a frame"), (together, f"{MOST} in one")):
        told = [[frame(b"take " + fact + more) for fact in facts] for more in (b"", b"\0")]
        taken, refused = (statistics.median(of_segment(served, it, put, folder) for _ in range(runs)) for it in told)
        yield f"| {how} | {len(facts)} | {taken:.3f} | {refused:.3f} | {taken / max(taken - refused, 1e-3):.2f} |"


def row(name, size, ran):
    seconds, used = (statistics.median(it) for it in zip(*ran))
    return f"| {name} | {size} | {seconds:.3f} | {used:.3f} | {size / seconds:,.0f} | {size / max(used, 1e-3):,.0f} |"


def main():
    parser = argparse.ArgumentParser(description=__doc__, formatter_class=argparse.RawDescriptionHelpFormatter)
    parser.add_argument("--archive", type=pathlib.Path, default=ROOT / "crates/node_c/out/libnode_c.a", help="the built archive")
    parser.add_argument("--program", type=pathlib.Path, default=lines.PROGRAM, help="the built program of lines")
    parser.add_argument("--sizes", type=int, nargs="+", default=SIZES, help="how many takes")
    parser.add_argument("--batches", type=int, nargs="+", default=BATCHES, help="how many takes are sent at once, up to 256")
    parser.add_argument("--runs", type=int, default=3, help="how often each is measured")
    given = parser.parse_args()
    print(f"{os.cpu_count()} cores, median of {given.runs}\n")
    print("| takes | how many | s | CPU s | a second | a CPU second |\n|---|---|---|---|---|---|")
    with tempfile.TemporaryDirectory(prefix="frames-") as folder:
        serve = archive.library(given.archive.resolve(), pathlib.Path(folder))
        for size in given.sizes:
            facts = [bytes.fromhex(line.split(" ")[1]) for line in lines.takes(size)]
            requests = [frame(b"take " + fact) for fact in facts]
            for batch, (put, how) in itertools.product(given.batches, ((alone, "at once"), (together, "in one"))):
                ran = [by_frames(serve, requests, batch, put) for _ in range(given.runs)]
                print(row(f"by frames, {batch} {how}", size, ran), flush=True)
            ran = [by_lines(given.program.resolve(), size, folder) for _ in range(given.runs)]
            print(row("by lines, all at once", size, ran), flush=True)
        print("\n| takes out of a file | how many | s | s refused | of the call |\n|---|---|---|---|---|")
        served = archive.program(given.archive.resolve(), pathlib.Path(folder))
        for size in given.sizes:
            facts = [bytes.fromhex(line.split(" ")[1]) for line in lines.takes(size)]
            for told in beside_the_call(served, facts, given.runs, folder):
                print(told, flush=True)


if __name__ == "__main__":
    main()
