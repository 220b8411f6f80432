"""Processes that write to one database with several connections each: they fence each other and lose commits, at any time."""

import itertools
import json
import random
import sqlite3
import time

from harness.sqlite_transactions import MANY
from harness.sqlite_worlds import IO, NO_QUORUM, SECONDS, TIMEOUT, is_whole, one

ACCOUNTS, SUM = 300, 30_000
ERRORS = ("BUSY", "BUSY_SNAPSHOT", "CANTOPEN", "IOERR_LOCK", "IOERR_READ", "IOERR_WRITE", "IOERR_FSYNC")
NUMBERS = itertools.count()  # of the transactions of a process


class Client:
    """A connection that is in the middle of a transaction while others of its process are."""

    def __init__(self, world, choose, process, kept):
        self.world, self.choose, self.process, self.kept = world, choose, process, kept
        self.connection, self.steps = None, iter(())

    def step(self):
        """Goes on to the next step, or begins another transaction; an error ends one."""
        try:
            self.connection = self.connection or self.world.open()
            if not next(self.steps, False):
                self.steps = self.choose.choice([self.write, self.read])()
        except sqlite3.OperationalError as error:
            assert error.sqlite_errorname.removeprefix("SQLITE_") in ERRORS, error.sqlite_errorname
            self.steps = iter(())
            self.recover(error.sqlite_errorname == "SQLITE_IOERR_LOCK" and self.choose.random() < 0.7)

    def recover(self, closes):
        """After an error a connection goes on or is opened again, as it must where it cannot write or is in exclusive mode."""
        if not self.connection:
            return
        try:
            if self.connection.in_transaction:
                self.connection.execute("rollback")
            closes = closes or one(self.connection, "pragma locking_mode") == "exclusive"
        except sqlite3.OperationalError:
            closes = True
        if closes:
            self.connection.close()
            self.connection = None

    def write(self):
        """Moves money between accounts."""
        run, choose, number = self.connection.execute, self.choose, next(NUMBERS)
        mode = choose.choice(["off", "full"])
        run(f"pragma synchronous = {mode}")
        run(f"pragma locking_mode = {choose.choice(['normal'] * 19 + ['exclusive'])}")
        run(choose.choice(["begin", "begin immediate"]))
        for _ in range(choose.randrange(1, 4)):
            yield True
            for place, change in zip(choose.sample(range(ACCOUNTS), 2), (-5, 5)):
                run("update accounts set amount = amount + ? where id = ?", (change, place))
        run("insert into log values(?, ?)", (self.process, number))
        yield True
        run("commit")
        if mode == "full":
            self.kept.append(number)

    def read(self):
        """One SELECT has the sum that never changes, and what was durable before is there."""
        before, amounts = set(self.kept), []
        self.connection.execute("pragma cache_size = 5")
        rows = self.connection.execute("select amount from accounts")
        while some := rows.fetchmany(self.choose.randrange(1, 150)):
            amounts += some
            yield True
        assert (len(amounts), sum(amount for amount, in amounts)) == (ACCOUNTS, SUM)
        assert before <= {number for number, in self.connection.execute("select number from log where process = ?", (self.process,))}


def work_rival(world, process):
    choose, kept, end = random.Random(f"{world.seed} rival {process}"), [], time.monotonic() + world.seconds
    clients = [Client(world, choose, process, kept) for _ in range(3)]
    while time.monotonic() < end or not kept and time.monotonic() < end + SECONDS / 2:
        if choose.random() < 0.05:
            time.sleep(0.05 * choose.random())
        if choose.random() < 0.15:
            world.fail(choose.choice(["newest", "newest", "newest", "header", "read", "wait", "commit"]), choose.choice([NO_QUORUM, NO_QUORUM, IO, TIMEOUT]), choose.randrange(3))
        choose.choice(clients).step()
    print(json.dumps(kept))


def check_rivals(world):
    """Whatever several processes lose with their writers: a commit that is durable stays, and each SELECT sees one state."""
    ours = world.open()
    ours.executescript("create table accounts(id integer primary key, amount, filler); create table log(process, number)")
    ours.execute(f"{MANY.format(ACCOUNTS)} insert into accounts select n - 1, 100, hex(zeroblob(150)) from c")
    ours.close()
    helpers = [world.helper("work_rival", process) for process in range(3)]
    said = [helper.communicate(timeout=SECONDS)[0] for helper in helpers]
    assert [helper.returncode for helper in helpers] == [0, 0, 0]
    ours = world.open()
    assert is_whole(ours) and one(ours, "select sum(amount) from accounts") == SUM
    kept = {(str(process), number) for process, text in enumerate(said) for number in json.loads(text)}
    assert kept and kept <= set(ours.execute("select process, number from log"))
