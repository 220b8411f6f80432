"""A database of some megabytes over six servers, which put snapshots in place of their logs all the time and are killed meanwhile.

By hand: python3 -m harness.sqlite_large EXTENSION STORE DISK FOLDER SEED MEGABYTES
"""

import contextlib
import random
import sqlite3
import sys
import time
from pathlib import Path

from harness.sqlite_cluster import NODES, Cluster
from harness.sqlite_crashes import Child
from harness.sqlite_rounds import connect, load, telling, told
from harness.sqlite_worlds import is_whole, last_message, one

KEPT = 20  # commits that stay readable, so that servers fold and discard
ROWS = 100  # of a commit
SNAPSHOTS = 2  # of each server, at least
PATIENCE, MORE = 20_000, 1000  # milliseconds of an opening, which moves the volume to the engine, and how many more for each megabyte
TABLES = """
create table t(a integer primary key, b blob);
create table total(rows integer, bytes integer, last integer);
insert into total values(0, 0, 0);
"""


def body(seed, number):
    return random.Random(f"{seed} {number}").randbytes(200 + number * 7919 % 1800)


# What runs in processes of their own


def patience(size):
    return PATIENCE + MORE * size // 1_000_000


def fill(pipe, place, seed, size):
    """Inserts rows until the database has its size, and deletes some; sends the size after each commit, or why one failed."""
    ours = connect(place, keep=KEPT, timeout=patience(size))
    try:
        ours.executescript(f"begin; {TABLES} commit")
        last = 0
        while (has := one(ours, "pragma page_count") * 4096) < size:
            last = insert(ours, seed, last)
            pipe.send(has)
    except sqlite3.Error as error:
        pipe.send(f"{told(error)} {last_message(ours)}")


def insert(ours, seed, last):
    """Commits the rows after the last one, and deletes some of the old ones. Returns the new last row."""
    ours.execute("begin immediate")
    new = [(number, body(seed, number)) for number in range(last + 1, last + ROWS + 1)]
    ours.executemany("insert into t values(?, ?)", new)
    last += ROWS
    old, which = "from t where a % 37 = ? and a > ?", (last // ROWS % 37, last - 20 * ROWS)
    rows, size_of_old = ours.execute(f"select count(*), sum(length(b)) {old}", which).fetchone()
    ours.execute(f"delete {old}", which)
    more = len(new) - rows, sum(len(it) for _, it in new) - size_of_old
    ours.execute("update total set rows = rows + ?, bytes = bytes + ?, last = ?", (*more, last))
    ours.execute("commit")
    return last


def watch(pipe, place, size):
    """Looks again and again, and sends how often all was of one commit, or what was not. A look may outlast the commits that stay readable."""
    ours, looks = connect(place, mode="ro", timeout=patience(size)), 0
    while not pipe.poll():
        try:
            ours.execute("begin")
            there, noted = ours.execute("select count(*), sum(length(b)) from t").fetchone(), ours.execute("select rows, bytes from total").fetchone()
            ours.execute("commit")
        except sqlite3.Error as error:
            if "minimum read point" not in (said := last_message(ours)):
                return pipe.send(f"{told(error)} {said}")
            if ours.in_transaction:  # an error of the disk ends it
                ours.execute("rollback")
            continue
        if there != noted and noted != (0, 0):
            return pipe.send(f"{there} is there, and {noted} is noted")
        looks += 1
        pipe.poll(1)
    return pipe.send(looks)


def check(pipe, place, seed, size):
    """Sends how many rows there are where all of them are as they were made, or what is wrong."""
    with telling(pipe):
        ours = connect(place, timeout=patience(size))
        ours.execute("begin immediate")
        wrong = [a for a, b in ours.execute("select a, b from t") if b != body(seed, a)]
        there, noted = ours.execute("select count(*), sum(length(b)) from t").fetchone(), ours.execute("select rows, bytes from total").fetchone()
        pipe.send(there[0] if is_whole(ours) and not wrong and there == noted else f"{there} is there, {noted} is noted, {wrong[:5]} differ")
        ours.execute("commit")


def open_to_write(pipe, place, size):
    connect(place, timeout=patience(size)).execute("begin immediate").execute("commit")
    pipe.poll(2)  # as long as an admission may take


# The run


def admitted(cluster, number, size):
    """Whether a server becomes a member: an opening admits one that answers in time."""
    for _ in range(5):
        Child(open_to_write, cluster.folder / "volume", size).said()
        if number in cluster.members():
            return True
    return False


def generations(cluster):
    """How many snapshots each server has made."""
    return [max([int(it.suffix[1:]) for it in store.data.glob("snapshot.*") if it.suffix != ".draft"], default=0) for store in cluster.stores]


def fill_and_kill(cluster, seed, size):
    """Fills the database while servers are killed one after another; the result is how often a reader has looked."""
    choose, place = random.Random(seed), cluster.folder / "volume"
    writer, watcher, is_killed = Child(fill, place, seed, size), None, False
    try:
        while writer.process.is_alive() or writer.pipe.poll():
            if not writer.pipe.poll(0.5):
                continue
            try:
                said = writer.pipe.recv()
            except EOFError:
                break
            assert isinstance(said, int), said
            watcher = watcher or Child(watch, place, size)
            if is_killed and choose.random() < 0.2:
                cluster.start()
                is_killed = False
            elif not is_killed and choose.random() < 0.1:
                cluster.kill(*choose.sample(range(NODES), choose.choice([1, 2])))
                is_killed = True
        writer.process.join()
        assert writer.process.exitcode == 0
        cluster.start()
        with contextlib.suppress(BrokenPipeError):  # one that has ended says why
            watcher.pipe.send("end")
        [looks] = watcher.said()
        assert isinstance(looks, int), looks
        return looks
    finally:
        for it in (writer, watcher):
            if it:
                it.kill()


def found(cluster, seed, size):
    """How many rows there are, all of which are right."""
    [rows] = Child(check, cluster.folder / "volume", seed, size).said()
    assert isinstance(rows, int), rows
    return rows


def main(extension, store, disk, folder, seed, megabytes):
    load(extension)
    size = int(float(megabytes) * 1e6)
    Path(folder).mkdir(parents=True, exist_ok=True)
    made = Cluster(store, Path(folder) / "c", disk, words=("--snapshot-after", max(100_000, size // 30)))
    with contextlib.closing(made) as cluster:
        begun = started = time.monotonic()
        cluster.start()
        looks = fill_and_kill(cluster, seed, size)
        filled, made = time.monotonic() - begun, generations(cluster)
        assert min(made) >= SNAPSHOTS, f"snapshots: {made}"
        rows = found(cluster, seed, size)
        cluster.kill(*range(NODES))
        cluster.start()
        assert found(cluster, seed, size) == rows
        wiped = random.Random(seed).randrange(NODES)
        cluster.wipe(wiped)
        cluster.start(wiped)
        begun = time.monotonic()
        assert cluster.settled(), cluster.fronts()
        whole = time.monotonic() - begun
        assert admitted(cluster, wiped, size), cluster.members()
        cluster.kill(*random.Random(seed).sample([it for it in range(NODES) if it != wiped], 2))
        assert found(cluster, seed, size) == rows
        total = time.monotonic() - started
        print(f"{rows} rows in {filled:.0f} s, {looks} looks, snapshots {made}, a wiped server whole in {whole:.1f} s, all in {total:.0f} s")


if __name__ == "__main__":
    main(*sys.argv[1:])
