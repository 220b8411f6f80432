#!/usr/bin/python3
"""Measures SQLite over six storage servers beside plain SQLite, in one run, and prints tables.

    bench/sqlite.py --extension sqlite/build/volume/yieldcleat.so --store store/target/release/yieldcleat-store

Plain databases are in the same folder, with synchronous = full. Ratios are what counts: all run on one machine, over one disk, one after
another. Each number is the least and the greatest of the runs.
"""

import argparse
import os
import shutil
import sqlite3
import statistics
import sys
import tempfile
import time
from pathlib import Path
from typing import NamedTuple

ROOT = Path(__file__).resolve().parents[1]
sys.path.insert(0, str(ROOT / "tests"))
from harness.sqlite_cluster import NODES, Cluster  # noqa: E402
from harness.sqlite_crashes import Child  # noqa: E402
from harness.sqlite_rounds import connect, load  # noqa: E402
from harness.store_files import HEAD, HEADER  # noqa: E402

TABLE = "create table t(a integer primary key, b)"
MANY = "with recursive c(n) as (select 1 union all select n + 1 from c where n < {}) insert into t(b) select hex(randomblob({})) from c"
ONE_ROW = "insert into t(b) values(hex(randomblob(20)))"
LOADS = {
    "one row a commit": ONE_ROW,
    "one update a commit": "update t set b = hex(randomblob(20)) where a = 1 + abs(random()) % 1000",
    "100 rows a commit": MANY.format(100, 20),
}
NO_SNAPSHOTS = ("--snapshot-after", 1 << 40)  # so that a log has all that a server was sent
GOSSIP = 200  # milliseconds between two rounds, as a server has it
LEAST = 20  # commits of a measurement
STARTING = 60  # seconds until a server counts as not started
PATIENCE = 60_000  # milliseconds of an opening


class Measured(NamedTuple):
    """Commits a second, the median and the 99th percentile of their milliseconds, bytes that a commit writes, and bytes that follow it."""

    rate: float
    half: float
    most: float
    written: float
    later: float


def measure(connection, sql, seconds, written):
    """Commits for so long; `written` says how many bytes were written so far, and how many more in the background."""
    times, end, before = [], time.monotonic() + seconds, written()
    while time.monotonic() < end or len(times) < LEAST:
        begun = time.monotonic()
        connection.execute(sql)
        times.append(time.monotonic() - begun)
    cuts = statistics.quantiles(times, n=100)
    each = [(now - then) / len(times) for now, then in zip(written(), before)]
    return Measured(len(times) / sum(times), 1000 * cuts[49], 1000 * cuts[98], *each)


def span(values, form="{:,.0f}"):
    """The least and the greatest."""
    least, most = form.format(min(values)), form.format(max(values))
    return least if least == most else f"{least} to {most}"


def shown(runs):
    return f"{span([it.rate for it in runs])}; {span([it.half for it in runs], '{:.2f}')}; {span([it.most for it in runs], '{:.1f}')}"


# Databases


def fill(connection):
    connection.execute("drop table if exists t")
    connection.execute(TABLE)
    connection.execute(MANY.format(1000, 20))


def bytes_of_process():
    """What this process has written, by whatever call."""
    return int(next(line for line in Path("/proc/self/io").read_text().splitlines() if line.startswith("wchar")).split()[1]), 0


class Sent:
    """What the logs of the servers have: the bytes of facts from engines, and of gossip, on average."""

    def __init__(self, cluster):
        self.logs, self.sums = {store.file("log"): HEADER for store in cluster.stores}, [0, 0]

    def __call__(self):
        for log, at in self.logs.items():
            with open(log, "rb") as it:
                it.seek(at)
                text, end = it.read(), 0
            while end + HEAD <= len(text) and (stop := end + HEAD + int.from_bytes(text[end + 8 : end + 12], "big")) <= len(text):
                self.add(text[end + HEAD : stop])
                end = stop
            self.logs[log] = at + end
        return [it / len(self.logs) for it in self.sums]

    def add(self, requests):
        at = 0
        while at < len(requests):
            size = 4 + int.from_bytes(requests[at : at + 4], "big")
            self.sums[requests[at + 4 : at + 11] == b"absorb "] += size
            at += size


def plain(folder, mode, sql, seconds):
    """A database in a file: its pages and its journal, or its WAL."""
    place = Path(tempfile.mkdtemp(dir=folder)) / "database"
    connection = sqlite3.connect(place, isolation_level=None)
    connection.execute(f"pragma journal_mode = {mode}")
    connection.execute("pragma synchronous = full")
    fill(connection)
    found = measure(connection, sql, seconds, bytes_of_process)
    connection.close()
    return found


def engine(pipe, cluster, sql, seconds):
    """In a process of its own: fills the database, and measures as often as it is asked."""
    connection, sent = connect(cluster.folder / "volume"), Sent(cluster)
    fill(connection)
    while pipe.recv():
        pipe.send(measure(connection, sql, seconds, sent))
    connection.close()


def over_servers(cluster, sql, seconds):
    child = Child(engine, cluster, sql, seconds)
    found = child.ask()
    child.close()
    return found


# Tables


def commits(cluster, folder, seconds, runs):
    print("Commits a second; the median and the 99th percentile of their milliseconds.\n")
    print("| Load | rollback journal | WAL | six servers | ratio to the journal | to the WAL |\n|---|---|---|---|---|---|")
    sizes = []
    for name, sql in LOADS.items():
        journal, wal, ours = [], [], []
        for _ in range(runs):
            journal.append(plain(folder, "delete", sql, seconds))
            wal.append(plain(folder, "wal", sql, seconds))
            ours.append(over_servers(cluster, sql, seconds))
        ratios = [span([one.rate / other.rate for one, other in zip(ours, others)], "{:.2f}") for others in (journal, wal)]
        print(f"| {name} | {shown(journal)} | {shown(wal)} | {shown(ours)} | {ratios[0]} | {ratios[1]} |", flush=True)
        sizes.append((name, ours, journal, wal))
    print("\nBytes a commit: the redo that each server is sent and what gossip brings it too, beside pages with their journal or WAL.\n")
    print("| Load | redo | gossip | pages and journal | pages and WAL | redo to the journal | to the WAL |\n|---|---|---|---|---|---|---|")
    for name, ours, journal, wal in sizes:
        ratios = [span([one.written / other.written for one, other in zip(ours, others)], "{:.3f}") for others in (journal, wal)]
        cells = [span([it.written for it in ours]), span([it.later for it in ours]), *(span([it.written for it in kind]) for kind in (journal, wal))]
        print(f"| {name} | {' | '.join([*cells, *ratios])} |")


def killed(cluster, seconds, runs):
    """What two servers less cost."""
    all_of_them, without = [], []
    for turn in range(runs):
        child = Child(engine, cluster, ONE_ROW, seconds)
        all_of_them.append(child.ask())
        cluster.kill(turn % NODES, (turn + 3) % NODES)
        without.append(child.ask())
        child.close()
        cluster.start()
        assert cluster.settled(), cluster.fronts()
    print("\nTwo servers killed.\n\n| Servers | commits a second; p50; p99 | ratio |\n|---|---|---|")
    print(f"| six | {shown(all_of_them)} | |")
    ratio = span([one.rate / other.rate for one, other in zip(without, all_of_them)], "{:.2f}")
    print(f"| four, two killed | {shown(without)} | {ratio} |", flush=True)


def write(pipe, place):
    """Commits until it is killed."""
    connection = connect(place, timeout=PATIENCE)
    connection.execute(ONE_ROW)
    pipe.send("writing")
    while True:
        connection.execute(ONE_ROW)


def open_to_write(pipe, place):
    """Sends after how many milliseconds a database may be written."""
    begun = time.monotonic()
    connection = connect(place, timeout=PATIENCE)
    connection.execute("begin immediate")
    pipe.send(1000 * (time.monotonic() - begun))
    connection.execute("commit")


def recovered(cluster):
    """How long an engine takes that opens the database after another one was killed."""
    child = Child(write, cluster.folder / "volume")
    child.pipe.recv()
    time.sleep(0.5)
    child.kill()
    [found] = Child(open_to_write, cluster.folder / "volume").said()
    return found


def whole(cluster):
    """How long a server takes that has lost its files, from its start until it has what the others have."""
    wanted = cluster.status(0)[4]
    cluster.wipe(NODES - 1)
    begun = time.monotonic()
    cluster.start(NODES - 1)
    while (status := cluster.status(NODES - 1)) is None or status[4] < wanted:
        assert time.monotonic() - begun < STARTING, "it does not get what it lacks"
        time.sleep(0.005)
    return 1000 * (time.monotonic() - begun)


def grow(_, cluster, megabytes, keep):
    """Makes a database of this size, of which so many commits stay readable; a commit has 100 kB."""
    connection = connect(cluster.folder / "volume", keep=keep)
    connection.execute("drop table if exists t")
    connection.execute(TABLE)
    while connection.execute("pragma page_count").fetchone()[0] * 4096 < megabytes * 1e6:
        connection.execute(MANY.format(100, 500))
    connection.close()


def recovery(program, folder, megabytes, runs):
    """Databases of two sizes, of which little and all can be read in the past. An opening moves the volume to the engine, whatever is readable."""
    print("\nRecovery.\n\n| MB | readable in the past | ms until open for writing after the engine was killed | ms until a server without files has all |\n|---|---|---|---|")
    for size, keep, much in ((megabytes, 10, "10 commits, 1 MB"), (megabytes / 4, 0, "all")):
        cluster = Cluster(program, folder / f"keep{keep}", None, GOSSIP, NO_SNAPSHOTS)
        try:
            cluster.start()
            assert Child(grow, cluster, size, keep).said() == []
            assert cluster.settled(), cluster.fronts()
            times = [span([it(cluster) for _ in range(runs)]) for it in (recovered, whole)]
            print(f"| {size:.0f} | {much} | {times[0]} | {times[1]} |", flush=True)
        finally:
            cluster.close()


def main():
    parser = argparse.ArgumentParser(description=__doc__, formatter_class=argparse.RawDescriptionHelpFormatter)
    parser.add_argument("--extension", type=Path, required=True)
    parser.add_argument("--store", type=Path, required=True)
    parser.add_argument("--seconds", type=float, default=3, help="of each measurement")
    parser.add_argument("--runs", type=int, default=3)
    parser.add_argument("--megabytes", type=float, default=20, help="of the database that is recovered")
    parser.add_argument("--folder", type=Path, default=None, help="on the disk that is measured")
    args = parser.parse_args()
    folder = Path(tempfile.mkdtemp(prefix="yieldcleat-bench-", dir=args.folder))
    load(args.extension)
    cluster = Cluster(args.store, folder / "nodes", None, GOSSIP, NO_SNAPSHOTS)
    try:
        cluster.start()
        print(f"{os.cpu_count()} processors, load {os.getloadavg()[0]:.1f} at the beginning.\n")
        commits(cluster, folder, args.seconds, args.runs)
        killed(cluster, args.seconds, args.runs)
        cluster.close()
        recovery(args.store, folder, args.megabytes, args.runs)
        print(f"\nLoad {os.getloadavg()[0]:.1f} at the end.")
    finally:
        cluster.close()
        shutil.rmtree(folder)


if __name__ == "__main__":
    main()
