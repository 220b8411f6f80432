"""What is left of a database whose process was killed within a commit or an opening."""

import contextlib
import hashlib
import multiprocessing
import signal
import sqlite3
import time

from harness.sqlite_transactions import TABLES, transaction
from harness.sqlite_worlds import KILLED, content, is_whole, one

CALLS = ("open_writer", "open_reader", "newest", "header", "read", "stage", "commit", "wait", "advance")
PENDING = 9  # commits that the double keeps to itself, at most, where nobody waits for them


class Child:
    """A process that is forked from this one, which has no database open, and what it sends."""

    def __init__(self, function, *words, daemon=True):
        fork = multiprocessing.get_context("fork")
        self.pipe, theirs = fork.Pipe()
        self.process = fork.Process(target=function, args=(theirs, *words), daemon=daemon)
        self.process.start()
        theirs.close()

    def said(self):
        """All that it sends until it ends."""
        found = []
        with contextlib.suppress(EOFError, ConnectionResetError):
            while True:
                found.append(self.pipe.recv())
        self.process.join()
        return found

    def ask(self):
        self.pipe.send("look")
        return self.pipe.recv()

    def kill(self):
        self.process.kill()
        self.process.join()

    def close(self):
        self.pipe.send(None)
        self.process.join()


def plan(choose, round_):
    """How the process of a round dies: within a write to the file, when it calls the volume, or at some time."""
    if round_ % 3 == 0:
        return "write", choose.randrange(6), choose.choice([0, 5, choose.randrange(400), choose.randrange(20000), 10**6])
    if round_ % 3 == 1:
        return choose.choice(CALLS), choose.randrange(40), 0
    return "time", 0, choose.randrange(150)  # milliseconds


def work(pipe, world, mode, died, last):
    """Does the transactions after one, of which the first makes the tables, and sends the number of each after its commit."""
    call, skip, count = died
    if call == "write":
        world.double.memory_volume_die(skip, count)
    elif call != "time":
        world.fail(call, KILLED, skip)
    ours = world.open()
    ours.execute(f"pragma synchronous = {mode}")
    ours.execute(f"pragma cache_size = {5 + last % 3 * 40}")
    for number in range(last + 1, last + 40):
        transaction(ours, world.seed, number) if number else ours.executescript(f"begin; {TABLES} commit")
        pipe.send(number)


def returned(world, mode, died, last):
    """The last transaction of which a process that does them, and is killed, says that its commit returned."""
    child = Child(work, world, mode, died, last)
    if died[0] == "time":
        time.sleep(died[2] / 1000)
        child.process.kill()
    said = child.said()
    assert child.process.exitcode in (0, -signal.SIGKILL), f"the process ended with {child.process.exitcode}"
    return max([last, *said])


def digest(connection):
    return hashlib.sha256(repr(content(connection)).encode()).digest()


def look(pipe, world):
    """Sends the state of the volume: whether it is whole, the last transaction in it, which is -1 where it has no tables, and a digest."""
    try:
        ours = world.open()
    except sqlite3.OperationalError:
        return pipe.send((True, -1, b""))
    last = one(ours, "select number from done") if content(ours)[0] else -1
    return pipe.send((is_whole(ours), last, digest(ours)))


def watch(pipe, world):
    """Sends a digest whenever it is asked, by one connection."""
    ours = world.open()
    while pipe.recv():
        pipe.send(digest(ours))


def check_crashes(world):
    """After each kill the database has the transactions whose commits returned, perhaps the next one, and nothing else.

    With synchronous = off the last ones may be lost, whole. A connection that is open all the time sees the same."""
    plain, last, reached, end, round_ = world.plain(), -1, -1, time.monotonic() + world.seconds, 0
    watcher = None
    while time.monotonic() < end or round_ < 12:
        mode, died = world.rng.choice(["full", "normal", "off"]), plan(world.rng, round_)
        well = returned(world, mode, died, last)
        [(is_good, now, found)] = Child(look, world).said()
        where = f"round {round_}, {mode}, {died}: {well} returned, {now} found"
        assert is_good and max(last, well - PENDING if mode == "off" else well) <= now <= well + 1, where
        while reached < now:
            reached += 1
            plain.executescript(TABLES) if reached == 0 else transaction(plain, world.seed, reached)
        if now >= 0:
            watcher = watcher or Child(watch, world)
            assert found == digest(plain) == watcher.ask(), where
        last, round_ = now, round_ + 1
    assert last > 0, "no transaction in all rounds"
    watcher.close()
    print(f"{round_} rounds, {last} transactions")
