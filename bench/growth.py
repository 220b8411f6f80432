"""What texts cost, and how that grows with their bytes: the tables of `hostile.py` and `adverse.py`."""

import argparse
import functools
import math
import os
import pathlib
import tempfile

import measure


def length(lines):
    return sum(len(line) + 1 for line in lines)


def growth(lengths, values):
    """The exponent from the least text to the longest; what is too small to be measured counts as a hundredth."""
    least, most = max(values[0], 0.01), max(values[-1], 0.01)
    return math.log(most / least) / math.log(lengths[-1] / lengths[0])


def grown(lengths, rows):
    """The exponents of each program, by its values at the sizes in turn."""
    return [growth(lengths, values) for values in zip(*rows)]


def told(name, task, status, programs, given, folder):
    """Prints a task's rows, and answers the greatest exponent of the program."""
    lengths, times, held = [], [], []
    for size in given.sizes:
        lines_of = functools.partial(task, size)
        seconds, peaks = measure.run_all(programs, "run", lines_of, given.runs, folder, status)
        lengths.append(length(lines_of()))
        times.append(seconds)
        held.append(peaks)
        row = f"{measure.both(seconds, '{:.3f}')} | {measure.both(peaks, '{:.0f}')}"
        print(f"| {name} | {size} | {lengths[-1] // 1000} | {row} |", flush=True)
    by_time, by_held = grown(lengths, times), grown(lengths, held)
    print(f"| {name} | growth | | {measure.both(by_time, '{:.2f}')} | {measure.both(by_held, '{:.2f}')} |", flush=True)
    return max(by_time[0], by_held[0])


def listed(tasks):
    """The tasks with what they read, for a help text."""
    return "tasks:\n" + "\n".join(f"  {name:<24}{((task.__doc__ or '').splitlines() or [''])[0]}" for name, task in tasks.items())


def print_all(description, tasks, sizes, statuses):
    """The command line of a script with tasks; some of their runs end with another status than 0. Answers the script's own status."""
    parser = argparse.ArgumentParser(description=description, epilog=listed(tasks), formatter_class=argparse.RawDescriptionHelpFormatter)
    parser.add_argument("--program", type=pathlib.Path, default=measure.PROGRAM, help="the built program")
    parser.add_argument("--peer", type=pathlib.Path, help="a program of the same forms to compare with")
    parser.add_argument("--only", default=",".join(tasks), help="tasks, by name")
    parser.add_argument("--sizes", type=int, nargs="+", default=sizes, help="sizes, rising")
    parser.add_argument("--runs", type=int, default=1, help="how often each text is read")
    parser.add_argument("--most", type=float, help="the greatest exponent that is allowed")
    given = parser.parse_args()
    names = given.only.split(",")
    unknown = [name for name in names if name not in tasks]
    if unknown or len(given.sizes) < 2:
        parser.error(f"no task is named {unknown[0]}" if unknown else "two sizes at least")
    programs = [path.resolve() for path in (given.program, given.peer) if path is not None]
    print(f"{os.cpu_count()} cores, CPU time, median of {given.runs}\n")
    print("| task | size | kB | s | peer, s | MB | peer, MB |\n|---|---|---|---|---|---|---|")
    with tempfile.TemporaryDirectory(prefix="fleet-growth-") as folder:
        found = [told(name, tasks[name], statuses.get(name, 0), programs, given, folder) for name in names]
    return int(given.most is not None and max(found) > given.most)
