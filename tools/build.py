#!/usr/bin/env python3
"""Proves and builds crates with everything below them, independent crates at the same time.

    build.py fleet              the program fleet, in crates/fleet/out/fleet
    build.py fleet fleet_node node_c

`rt` builds one crate after another. This builds each crate as soon as those below it are built, and then lets `rt` have the
last word on each crate that was named. A program then has the mark `out/built` beside it, with the time at which the build began:
the scripts `fleet` and `fleet-node` build again where a source is newer. Standard error shows the progress: one line on a terminal,
else a line for each crate. Status 1 where a crate is not proved; its messages are printed.
"""

import argparse
import graphlib
import os
import re
import signal
import subprocess
import sys
import tempfile
import time
from pathlib import Path

ROOT = Path(__file__).resolve().parents[1]
JOB_BYTES = 3 << 30  # what one check holds, at most but for a few
NOISE = re.compile(r": proved$|modules loaded=|^checked |^so far: |^rt: chose ")  # lines of rt that name no fault


def read_rows():
    """The crates of crates.txt in their order, each with all that it depends on."""
    rows = re.findall(r"^(\w+)[^#:\n]*:(.*)", (ROOT / "crates.txt").read_text(), re.M)
    return {name: deps.split() for name, deps in rows}


def read_crates():
    """The same with the crates of the repository alone."""
    rows = read_rows()
    return {name: [dep for dep in deps if dep in rows] for name, deps in rows.items()}


def closure(crates, names):
    """The named crates and all below them, lower ones first."""
    needed, new = {}, set(names)
    while new:
        needed |= {name: crates[name] for name in new}
        new = {dep for name in new for dep in crates[name]} - set(needed)
    return list(graphlib.TopologicalSorter(needed).static_order())


def sources(name):
    folder = ROOT / "crates" / name
    return [path for part in ("src", "specs", "proofs") for path in (folder / part).rglob("*") if path.is_file()]


def weigh(name):
    """Lines of the crate, which its time roughly follows."""
    return 200 + sum(path.read_bytes().count(b"\n") for path in sources(name))


def is_program(name):
    return (ROOT / "crates" / name / "src/main.rt").exists()


def mark_programs(names, began):
    """Says of each program among the crates that it has all that was written before some time, in nanoseconds."""
    for name in filter(is_program, names):
        mark = ROOT / "crates" / name / "out/built"
        mark.touch()
        os.utime(mark, ns=(began, began))


def stale(crates, order):
    """The crates whose library is older than a source of theirs or of a crate below; only a hint, since rt compares the contents."""
    found = set()
    for name in order:
        stamp = ROOT / "crates" / name / "out/rlib/stamp"
        built = stamp.stat().st_mtime if stamp.exists() else 0
        if built == 0 or any(path.stat().st_mtime > built for path in sources(name)) or found & set(crates[name]):
            found.add(name)
    return found


def room_for_jobs():
    """How many checks the processors and the free memory carry."""
    free = int(re.search(r"MemAvailable: +(\d+) kB", Path("/proc/meminfo").read_text())[1]) * 1024
    return max(1, min(len(os.sched_getaffinity(0)), free // JOB_BYTES))


class Build:
    """A build: which crates are done, running and left."""

    def __init__(self, crates, names, jobs):
        self.crates, self.names, self.jobs = crates, names, jobs
        self.order = closure(crates, names)
        pending = stale(crates, self.order)
        self.weights = {name: weigh(name) for name in self.order if name in pending and not is_program(name)}
        self.left = sorted(self.weights, key=self.chains().get, reverse=True)
        self.done = set(self.order) - set(self.left)
        self.running, self.begun = {}, time.monotonic()

    def start(self, name, *command):
        said = tempfile.TemporaryFile()
        streams = {"stdin": subprocess.DEVNULL, "stdout": said, "stderr": subprocess.STDOUT}
        self.running[name] = subprocess.Popen(command, cwd=ROOT / "crates" / name, start_new_session=True, **streams), said

    def start_ready(self):
        ready = [name for name in self.left if self.done.issuperset(self.crates[name])]
        for name in ready[: self.jobs - len(self.running)]:
            self.left.remove(name)
            self.start(name, "rt", "lib", "--jobs", "1" if len(ready) > 1 else str(self.jobs))

    def chains(self):
        """For each crate the weight of the longest chain of pending crates that begins with it."""
        chain = {}
        for name in reversed(self.order):
            above = [chain[other] for other in chain if name in self.crates[other]]
            chain[name] = self.weights.get(name, 0) + max(above, default=0)
        return chain

    def collect(self, seconds):
        """Takes the crates that have ended after some time. Exits with the messages of one that is not proved."""
        time.sleep(seconds)
        for name in [name for name, (process, _) in self.running.items() if process.poll() is not None]:
            process, said = self.running.pop(name)
            if process.returncode != 0:
                said.seek(0)
                lines = [line for line in said.read().decode(errors="replace").splitlines() if not NOISE.search(line)]
                sys.exit("\n".join([f"{name} was not built", *lines]))
            self.done.add(name)
            self.report(f"{name} built")
        self.report()

    def progress(self):
        seconds, weight = time.monotonic() - self.begun, sum(self.weights.values())
        left = sum(self.weights.get(name, 0) for name in [*self.left, *self.running])
        text = f"{len(self.done)} of {len(self.order)} crates, at work on {', '.join(self.running) or 'none'}"
        if weight and left < 0.9 * weight:
            text += f", about {seconds * left / (weight - left) / 60:.0f} minutes left"
        return f"{int(seconds // 60)}:{int(seconds % 60):02}  {text}"

    def report(self, event=None):
        if sys.stderr.isatty():
            print(f"\r\033[K{self.progress()[:110]}", end="", file=sys.stderr, flush=True)
        elif event:
            print(f"{event}; {self.progress()}", file=sys.stderr, flush=True)

    def run(self):
        if self.left:
            text = f"building and proving {len(self.left)} crates, up to {self.jobs} at the same time"
            print(f"{text}; from nothing this takes half an hour or more", file=sys.stderr)
        while self.left or self.running:
            self.start_ready()
            self.collect(0.5)
        for name in self.names:
            self.start(name, *(("rt", "run", "--", "--help") if is_program(name) else ("rt", "lib")))
            while self.running:
                self.collect(0.2)
        if sys.stderr.isatty():
            print("\r\033[K", end="", file=sys.stderr, flush=True)

    def stop(self):
        for process, _ in self.running.values():
            os.killpg(process.pid, signal.SIGTERM)
            process.wait()


def main():
    parser = argparse.ArgumentParser(description=__doc__, formatter_class=argparse.RawDescriptionHelpFormatter)
    parser.add_argument("crate", nargs="+")
    parser.add_argument("--jobs", type=int, default=room_for_jobs(), help="crates at the same time; by default what processors and memory carry")
    args = parser.parse_args()
    crates = read_crates()
    if unknown := [name for name in args.crate if name not in crates]:
        parser.error(f"crates.txt has no crate {unknown[0]}")
    for number in (signal.SIGTERM, signal.SIGHUP):
        signal.signal(number, signal.default_int_handler)
    with tempfile.NamedTemporaryFile() as started:
        began = os.stat(started.name).st_mtime_ns
    build = Build(crates, args.crate, args.jobs)
    try:
        build.run()
    except FileNotFoundError:
        sys.exit("rt is not on the path; README.md says what is needed")
    except KeyboardInterrupt:
        sys.exit(130)
    finally:
        build.stop()
    try:
        mark_programs(args.crate, began)
    except OSError as error:
        sys.exit(f"{error.filename} cannot be written, so the scripts would build again: {error.strerror}")


if __name__ == "__main__":
    main()
