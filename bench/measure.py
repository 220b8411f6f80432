#!/usr/bin/env python3
"""Measures the program on generated inputs of several sizes, and a peer beside it where one is given.

    measure.py [--peer PROGRAM] [--program PROGRAM] [--only a,b] [--sizes N ..] [--runs N]

Each task is a text of a size, in facts or in steps, which each program reads N times in turn. A row shows the CPU time of both
(user and system, the median), their ratio, the exponent of growth from the least size to the greatest, and the most memory
that each held; where perf or callgrind counts them and the text is no longer than the counter can bear, also the millions of
instructions, which do not waver. Then come three calls that are to cost the same however much is held: a fold of one page, a discard of one
record, and a read of a page with ten records, each the difference of two scripts by the number of calls.

Outputs are compared byte by byte. Status 1 where two differ or a program fails.
"""

import argparse
import datetime
import filecmp
import functools
import math
import os
import pathlib
import platform
import random
import statistics
import subprocess
import tempfile

import instructions
import make_capture
import make_log

PROGRAM = pathlib.Path(__file__).resolve().parent.parent / "crates/fleet/out/fleet"
SIZES = [10_000, 100_000, 1_000_000]
CALLS = 50_000  # calls of which the cost of one is taken
MOST = 1_000_000  # the fact lines, and the step lines, that a script may have
READ_PAGE_RECORDS = 10
COUNTED = {"perf": SIZES[-1], "callgrind": 50_000}  # the longest text whose instructions each counter counts in good time


def room_of(size):
    """How many facts a script of a size has that asks for more than takes: a script has at most a million steps."""
    return size * 4 // 5


def held_of(size):
    """How many other records are stored: each record that the calls name takes four steps, and there is a last step."""
    return min(size, MOST - 4 * CALLS - 1)


def pages_of(size):
    """About 250 records a page."""
    return max(16, min(65536, size // 250))


def sound_log(size, epochs=20):
    """So many facts: an advance in a thousand, the truncations, and records."""
    advances = 1 + size // 1000
    return list(make_log.facts(size - epochs - advances, pages_of(size), epochs, advances, 1, True, True))


def takes(places, node=1):
    return [f"take {node} {place}" for place in places]


def last_point(facts):
    return max(int(line.split(" ")[2]) for line in facts if line.startswith("rec"))


# ---- the tasks: the lines that the program reads


def ingest(size):
    """Every fact in the log's order."""
    facts = sound_log(size - 1)
    return [*facts, "go", "nodes 1", *takes(range(1, len(facts) + 1)), "front 1"]


def shuffled(size):
    """Half as many facts, each twice, in any order."""
    facts = sound_log(size // 2 - 1)
    places = [*range(1, len(facts) + 1)] * 2
    random.Random(1).shuffle(places)
    return [*facts, "go", "nodes 1", *takes(places), "front 1"]


def reads(size):
    """Every fact, and then as many reads of the pages at the last number, with folds of every fourth page in between."""
    half = room_of(size) // 2
    facts = sound_log(half)
    pages, point = pages_of(half), last_point(facts)
    steps = []
    for turn in range(half):
        page = turn % pages
        steps.append(f"read 1 {page} {point} 0 16")
        if turn % 64 == 0:
            steps.append(f"fold 1 {turn // 64 * 4 % pages}")
        if turn % 8192 == 0:
            steps.append("discard 1")
    return [*facts, "go", "nodes 1", *takes(range(1, len(facts) + 1)), *steps]


def dealt(facts, nodes, shares, exchange):
    """The facts dealt to the nodes in turn; after each share of them the nodes exchange what they know."""
    each = max(1, len(facts) // shares)
    steps = []
    for place in range(1, len(facts) + 1):
        steps.append(f"take {place % nodes + 1} {place}")
        if place % each == 0:
            steps += exchange(place // each - 1)
    return [*facts, "go", f"nodes {nodes}", *steps]


def join(size, nodes=3, shares=100):
    """After each share one node folds some pages, discards, is joined into the next one and compared with it."""
    facts, pages = sound_log(room_of(size)), pages_of(room_of(size))

    def exchange(done):
        node = done % nodes + 1
        other = node % nodes + 1
        folds = [f"fold {node} {page}" for page in range(done // nodes % 4, pages, 4)]
        return [*folds, f"discard {node}", f"join {other} {node}", f"same {node} {other}", f"covers {other} {node}"]

    return [*dealt(facts, nodes, shares, exchange), *(f"front {node + 1}" for node in range(nodes))]


def gossip(size, nodes=3, shares=100):
    """After each share one node asks, the one before it answers, and it absorbs the answer."""
    facts, pages = sound_log(room_of(size)), pages_of(room_of(size))

    def exchange(done):
        node = done % nodes + 1
        other = node % nodes + 1
        folds = [f"fold {node} {page}" for page in range(done // nodes % 4, pages, 4)]
        messages = [f"ask {other}", f"answer {node} {2 * done + 1}", f"absorb {other} {2 * done + 2}"]
        return [*folds, f"discard {node}", *messages, f"front {other}"]

    return dealt(facts, nodes, shares, exchange)


def check(size):
    """The laws of a log."""
    return sound_log(size, epochs=1 + size // 1000)


def inspect(size):
    """A capture of about as many facts."""
    return make_capture.lines(size * 40, make_capture.Forms())


TASKS = {task.__name__: task for task in (ingest, shuffled, reads, gossip, join, check, inspect)}
WORDS = {"check": "check", "inspect": "inspect"}  # what the program is told to do, if not to run a script


# ---- calls that are to cost the same however much is held


def held(size):
    """Records of other pages, all stored, and the writer after them."""
    writer = make_log.Writer()
    pages = pages_of(SIZES[0])
    facts = [writer.record(1 + turn % pages) for turn in range(held_of(size))]
    return writer, facts


def rounds(size, calls):
    """Records of page 0 after the held ones, each with an advance to it; what follows each of them is given."""
    writer, facts = held(size)
    steps = takes(range(1, len(facts) + 1))
    for _ in range(CALLS):
        facts += [writer.record(0), f"min 0 {writer.number}"]
        steps += [*takes([len(facts) - 1, len(facts)]), *calls]
    return [*facts, "go", "nodes 1", *steps, "front 1"]


def fold_calls(size, with_calls):
    """A fold of the last page: one record of it is above its image."""
    return rounds(size, ["fold 1 0"] if with_calls else [])


def discard_calls(size, with_calls):
    """A discard that removes one record."""
    return rounds(size, ["fold 1 0", "discard 1"] if with_calls else ["fold 1 0"])


def read_calls(size, with_calls):
    """A read of a page with ten records above its image."""
    writer, facts = held(size)
    facts += [writer.record(0) for _ in range(READ_PAGE_RECORDS)]
    calls = CALLS if with_calls else 0
    return [*facts, "go", "nodes 1", *takes(range(1, len(facts) + 1)), *[f"read 1 0 {writer.number} 0 16"] * calls]


FLAT = {"fold": fold_calls, "discard": discard_calls, "read": read_calls}


# ---- runs


def run_once(program, word, source, target, wanted=0):
    """CPU seconds, and the most memory used, in MB, of a run that must end with the given status."""
    with open(source, "rb") as given, open(target, "wb") as answer:
        child = subprocess.Popen([program, word], stdin=given, stdout=answer)
        _, status, used = os.wait4(child.pid, 0)
        child.returncode = os.waitstatus_to_exitcode(status)
    if child.returncode != wanted:
        raise SystemExit(f"{program} {word} ended with status {child.returncode}")
    return used.ru_utime + used.ru_stime, used.ru_maxrss / 1024


def write_apart(lines_of, source):
    """Writes the lines in a process of their own: what this one holds would count as held by the programs that it starts."""
    child = os.fork()
    if child == 0:
        with open(source, "w") as given:
            given.writelines(line + "\n" for line in lines_of())
        os._exit(0)
    if os.waitpid(child, 0)[1] != 0:
        raise SystemExit("a text could not be written")


def run_all(programs, word, lines_of, runs, folder, wanted=0):
    """For each program the median of its CPU seconds, and its peak; the programs take turns."""
    source = os.path.join(folder, "given")
    write_apart(lines_of, source)
    targets = [os.path.join(folder, f"answer{place}") for place in range(len(programs))]
    times = [[] for _ in programs]
    peaks = [0.0 for _ in programs]
    for turn in range(runs):
        order = range(len(programs)) if turn % 2 == 0 else reversed(range(len(programs)))
        for place in order:
            seconds, peak = run_once(programs[place], word, source, targets[place], wanted)
            times[place].append(seconds)
            peaks[place] = max(peaks[place], peak)
        for target in targets[1:]:
            if not filecmp.cmp(targets[0], target, shallow=False):
                raise SystemExit(f"the answers of {programs[0]} and the peer differ")
    return [statistics.median(of) for of in times], peaks


def exponent(sizes, seconds):
    """How the time grows with the size, from the least to the greatest."""
    if len(sizes) < 2 or min(seconds) <= 0:
        return "-"
    return f"{math.log(seconds[-1] / seconds[0]) / math.log(sizes[-1] / sizes[0]):.2f}"


def ratio(values):
    return f"{values[0] / max(values[1], 1e-9):.2f}" if len(values) > 1 else "-"


def both(values, form):
    return " | ".join(form.format(value) for value in values) + " | -" * (2 - len(values))


def instructions_told(word, programs, size, folder):
    """The millions of instructions of each program over the text that was read last, and their ratio."""
    found = instructions.counter()
    if found is None or size > COUNTED[found[0]]:
        return "- | - | -"
    counts = [instructions.count(program, word, os.path.join(folder, "given")) / 1e6 for program in programs]
    return f"{both(counts, '{:.0f}')} | {ratio(counts)}"


def print_tasks(names, programs, given, folder):
    columns = ["task", "size", "s", "peer, s", "ratio", "M instructions", "peer, M", "ratio", "MB", "peer, MB", "ratio", "growth"]
    print(f"| {' | '.join(columns)} |\n{'|---' * len(columns)}|")
    for name in names:
        own = []
        for size in given.sizes:
            lines_of = functools.partial(TASKS[name], size)
            seconds, peaks = run_all(programs, WORDS.get(name, "run"), lines_of, given.runs, folder)
            own.append(seconds[0])
            growth = exponent(given.sizes, own) if size == given.sizes[-1] else ""
            counted = instructions_told(WORDS.get(name, "run"), programs, size, folder)
            row = f"{both(seconds, '{:.3f}')} | {ratio(seconds)} | {counted} | {both(peaks, '{:.0f}')} | {ratio(peaks)} | {growth}"
            print(f"| {name} | {size} | {row} |", flush=True)


def print_flat(names, programs, given, folder):
    print("\n| call | held | us | peer, us |\n|---|---|---|---|")
    for name in names:
        for size in given.sizes:
            less, _ = run_all(programs, "run", lambda: FLAT[name](size, False), given.runs, folder)
            more, _ = run_all(programs, "run", lambda: FLAT[name](size, True), given.runs, folder)
            each = [(b - a) / CALLS * 1e6 for a, b in zip(less, more)]
            print(f"| {name} | {size} | {both(each, '{:.1f}')} |", flush=True)


HEAD = """# Results

Written by `bench/measure.py` on {date}, in a checkout of commit {commit}, {machine}. CPU seconds (user and system, median of {runs} runs), millions of
instructions, and peak memory, beside the peer: an unproved program with the same interface. Growth is the exponent from the least size to the greatest.
"""


def commit():
    found = subprocess.run(["git", "describe", "--always", "--dirty"], cwd=pathlib.Path(__file__).parent, capture_output=True, text=True, check=False)
    return found.stdout.strip() or "unknown"


def machine():
    """The kind of processor and how many of them."""
    models = [line.split(":")[1].strip() for line in open("/proc/cpuinfo") if line.startswith("model name")]
    return f"{len(models)} processors ({models[0]})" if models else platform.machine()


def main():
    parser = argparse.ArgumentParser(description=__doc__, formatter_class=argparse.RawDescriptionHelpFormatter)
    parser.add_argument("--program", type=pathlib.Path, default=PROGRAM, help="the built program")
    parser.add_argument("--peer", type=pathlib.Path, help="a program of the same forms to compare with")
    parser.add_argument("--only", default=",".join([*TASKS, *FLAT]), help="tasks and calls, by name")
    parser.add_argument("--sizes", type=int, nargs="+", default=SIZES, help="how many facts or steps, rising")
    parser.add_argument("--runs", type=int, default=5, help="how often each text is read")
    given = parser.parse_args()
    names = given.only.split(",")
    for name in names:
        if name not in TASKS and name not in FLAT:
            parser.error(f"no task and no call is named {name}")
    programs = [path.resolve() for path in (given.program, given.peer) if path is not None]
    print(HEAD.format(date=datetime.date.today(), commit=commit(), machine=machine(), runs=given.runs), flush=True)
    with tempfile.TemporaryDirectory(prefix="fleet-measure-") as folder:
        tasks = [name for name in names if name in TASKS]
        if tasks:
            print_tasks(tasks, programs, given, folder)
        calls = [name for name in names if name in FLAT]
        if calls:
            print_flat(calls, programs, given, folder)


if __name__ == "__main__":
    main()
