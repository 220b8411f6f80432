"""What is left of a database over six servers whose engine was killed, while servers are killed, stopped, wiped, slow or full.

By hand: python3 -m harness.sqlite_rounds EXTENSION STORE DISK FOLDER SEED SECONDS [FLEET]. With the program `fleet` the servers make no
snapshots, and in the end the facts that engines have sent must be a sound log. `harness.many_rounds` plays many rounds in several processes.
"""

import contextlib
import ctypes
import random
import shutil
import sqlite3
import sys
import time
from pathlib import Path
from typing import NamedTuple

from harness import sqlite_worlds
from harness.sqlite_cluster import NODES, QUORUM, Cluster, Proxies
from harness.sqlite_crashes import Child, digest
from harness.sqlite_transactions import TABLES, transaction
from harness.sqlite_worlds import connect, is_whole, one

MOST_LOST = 2  # servers at a time that have lost their files and are not admitted
PATIENCE = 20000  # milliseconds of an engine that is to succeed
SPENDING = 4  # seconds until an engine has spent a bound: twice as long as a reader waits for another engine's opening
ROUNDS = 150  # of one cluster
LEAST = 20  # rounds until a commit is to have returned
GOSSIP = 50, 200, 500  # milliseconds between two exchanges of a server: seldom ones leave more to engines, and cost less
OFTEN, NEVER = 200_000, 1 << 40  # bytes of a log after which servers make snapshots


LOG = []  # what SQLite has logged in this process: why a database is not opened, above all


@ctypes.CFUNCTYPE(None, ctypes.c_void_p, ctypes.c_int, ctypes.c_char_p)
def note(_, code, text):
    LOG.append(f"({code}) {text.decode()}")


def told(error):
    """An error with its message, and what SQLite has logged of the VFS."""
    said = [line for line in LOG[-3:] if "yieldcleat" in line]
    return f"{error.sqlite_errorname}: {error} {said}"


def load(extension):
    """Registers the VFS, for this process and those that are forked from it."""
    library = ctypes.CDLL("libsqlite3.so.0")  # the one of Python's module
    library.sqlite3_shutdown()
    library.sqlite3_config(16, note, None)  # SQLITE_CONFIG_LOG
    library.sqlite3_initialize()
    sqlite_worlds.load(extension)


# What runs in processes of their own. Connections have a busy timeout: the first lock for writing after a crash may find a commit that is
# newer than the snapshot.


@contextlib.contextmanager
def telling(pipe, *more):
    """A block whose error of SQLite is sent, and more after it."""
    try:
        yield
    except sqlite3.Error as error:
        pipe.send((told(error), *more) if more else told(error))


def work(pipe, place, seed, mode):
    """Does the transactions after the last one that the database has, and sends the number of each after its commit."""
    with telling(pipe):
        ours = connect(place, timeout=PATIENCE)
        pipe.send("open")
        ours.execute(f"pragma synchronous = {mode}")
        ours.execute("begin immediate").execute("rollback")
        last = one(ours, "select number from done")
        ours.execute(f"pragma cache_size = {5 + last % 3 * 40}")
        pipe.send("writing")
        for number in range(last + 1, last + 400):
            transaction(ours, seed, number)
            pipe.send(number)


def make(pipe, place):
    """Makes the volume. One that dies here leaves servers which no engine opens: they promised nothing, and have to be started afresh."""
    connect(place, timeout=PATIENCE).executescript(f"begin; {TABLES} commit")
    pipe.send("made")


def look(pipe, place, writes):
    """Sends the state of the database: whether it is whole, the last transaction in it, and a digest. With a lock for writing nothing that
    an older engine has sent arrives any more."""
    with telling(pipe, None, None):
        ours = connect(place, timeout=PATIENCE)
        ours.execute("begin immediate" if writes else "begin")
        last = one(ours, "select number from done")
        pipe.send((is_whole(ours), last, digest(ours)))
        ours.execute("commit")


def watch(pipe, place):
    """Sends a digest whenever it is asked, by one connection that only reads."""
    ours = connect(place, mode="ro", timeout=PATIENCE)
    while pipe.recv():
        with telling(pipe):
            pipe.send(digest(ours))


# A round


class Rounds:
    """Rounds over one cluster, each fixed by the seed and its number, as far as time allows."""

    lasting = ("late",)  # what may go on while the next engine looks

    def __init__(self, store, folder, disk, seed, snapshot_after):
        self.seed, self.folder = seed, folder
        self.cluster = self.servers(store, folder, disk, ("--snapshot-after", snapshot_after))
        self.cluster.start()
        self.proxies = Proxies(folder)
        self.plain = sqlite3.connect(":memory:", isolation_level=None)
        self.plain.executescript(TABLES)
        assert self.child(make, folder / "volume").said() == ["made"]
        self.last, self.reached, self.watcher, self.counts = 0, 0, None, {"rounds": 0, "returned": 0, "in doubt": 0, "lost by off": 0, "deaths": 0}

    def servers(self, store, folder, disk, words):
        return Cluster(store, folder, disk, random.Random(f"{self.seed} gossip").choice(GOSSIP), words)

    def child(self, function, *words):
        return Child(function, *words)

    def disturb(self, choose):
        """Something that happens to at most two servers, while all others run."""
        kind = choose.choice(["nothing", "kill", "kill", "stop", "wipe", "slow", "full", "late"])
        victims = choose.sample(range(NODES), choose.choice([1, 2]))
        for number in victims:
            if kind in ("kill", "late"):
                self.cluster.kill(number)
            elif kind == "stop":
                self.cluster.pause(number)
            elif kind == "full":
                self.cluster.stores[number].full.touch()
            elif kind == "slow":
                self.cluster.kill(number)
                self.cluster.start(number, delay=choose.randrange(1000, 80000))
            elif kind == "wipe" and NODES - len(self.cluster.members()) < MOST_LOST:
                self.cluster.wipe(number)
                if choose.random() < 0.7:
                    self.cluster.start(number)
        return kind, victims

    def wait_until_spent(self, child):
        """Waits until a proxy has spent its bound. An engine that has ended spends nothing more."""
        end = time.monotonic() + SPENDING
        while not self.proxies.wait(0.05) and child.process.is_alive() and time.monotonic() < end:
            pass

    def run_and_kill(self, choose, mode):
        """The last transaction of which an engine says, before it is killed, that its commit returned."""
        how = choose.choice(["bytes", "bytes", "time", "opening", "opening"])
        place = self.folder / ("volume" if how == "time" else "proxied")
        if how == "opening":
            self.proxies.bound([choose.randrange(14) for _ in range(NODES)])
        child = self.child(work, place, self.seed, mode)
        said = []
        if how == "bytes":
            with contextlib.suppress(EOFError):
                while child.pipe.poll(30) and said[-1:] != ["writing"]:
                    said.append(child.pipe.recv())
            self.proxies.bound([choose.choice([0, choose.randrange(6), choose.randrange(60), choose.randrange(300)]) for _ in range(NODES)])
        if how == "time":
            time.sleep(choose.randrange(900) / 1000)
        else:
            self.wait_until_spent(child)
            time.sleep(choose.choice([0, 0.005, 0.05]))
        child.kill()
        said += child.said()
        self.proxies.bound(None, choose.random() < 0.5)
        return how, [it for it in said if isinstance(it, int)], [it for it in said if isinstance(it, str)]

    def play(self, round_):
        """Plays a round; the result says what is wrong, or is empty."""
        choose = random.Random(f"{self.seed} round {round_}")
        mode = choose.choice(["full", "normal", "off"])
        kind, victims = self.disturb(choose)
        deaths, well, most = [], self.last, self.last
        for _ in range(choose.choice([1, 1, 2])):
            how, numbers, words = self.run_and_kill(choose, mode)
            deaths.append((how, max(numbers, default=None), words[-1:]))
            well, most = max([well, *numbers]), max(numbers, default=most) + 1  # each engine leaves a commit in doubt
            self.counts["deaths"] += 1
            if numbers and len(deaths) == 1 and choose.random() < 0.5:
                break
        if kind not in self.lasting or choose.random() < 0.5 or len(self.cluster.members()) < QUORUM:  # a fresh one counts in no quorum
            self.cluster.heal()
        where, least = f"round {round_}: {mode}, {kind} {victims}, {deaths}: {well} returned", self.last if mode == "off" else well
        for writes in [True] if choose.random() < 0.6 else [False, True]:
            [(is_good, now, found)] = self.child(look, self.folder / "volume", writes).said()
            wrong = str(is_good) if is_good is not True else self.judge(least, now, most, found)
            if wrong:
                return f"{where}; {'a writer' if writes else 'a reader'}: {wrong}"
            least = now
        self.cluster.heal()
        self.watcher = self.watcher or self.child(watch, self.folder / "volume")
        seen = self.watcher.ask()
        if seen != found:
            return f"{where}; a reader sees {seen if isinstance(seen, str) else 'another content'}"
        self.counts["rounds"] += 1
        self.counts["returned"] += max(0, well - self.last)
        self.counts["in doubt"] += now > well
        self.counts["lost by off"] += now < well
        self.last = now
        return ""

    def judge(self, least, now, most, found):
        """What is wrong with the content that was found, after so many transactions."""
        if not least <= now <= most:
            return f"{now} found, not {least} to {most}"
        while self.reached < now:
            self.reached += 1
            transaction(self.plain, self.seed, self.reached)
        return "" if digest(self.plain) == found else f"{now} found with another content"

    def close(self):
        if self.watcher:
            self.watcher.kill()
        self.proxies.close()
        self.cluster.close()


class Parts(NamedTuple):
    """What rounds are played with. With the program `fleet` the servers make no snapshots, and their log is checked in the end."""

    extension: Path
    store: Path
    disk: Path
    fleet: Path | None = None


def play_cluster(kind, parts, folder, seed, first, goes_on):
    """Rounds from one on over a new cluster, as long as `goes_on` says of their counts, and one at least. Returns the counts, the next round and
    what is wrong. The files stay where something is."""
    here = kind(Path(parts.store), Path(folder) / f"c{first}", parts.disk, f"{seed} {first}", NEVER if parts.fleet else OFTEN)
    place, wrong = first, ""
    try:
        while not wrong and (place == first or (place < first + ROUNDS and goes_on(here.counts))):
            wrong = here.play(place)
            place += 1
    finally:
        here.close()
    wrong = wrong or (here.cluster.unsound(parts.fleet) if parts.fleet else "")
    if not wrong:
        shutil.rmtree(here.folder)
    return here.counts, place, wrong


def add(one, other):
    """The sums of counts by their names."""
    return {name: one.get(name, 0) + other.get(name, 0) for name in {**one, **other}}


def run(extension, store, disk, folder, seed, seconds, fleet=None, kind=Rounds):
    """Rounds until the time is up and a commit has returned, over a new cluster now and then. Returns the counts, and what is wrong."""
    load(extension)
    end, place, total, wrong = time.monotonic() + seconds, 0, {}, ""
    while not wrong and (place == 0 or time.monotonic() < end or (not total["returned"] and place < LEAST)):
        counts, place, wrong = play_cluster(kind, Parts(extension, store, disk, fleet), folder, seed, place, lambda _: time.monotonic() < end)
        total = add(total, counts)
    return total, wrong or ("" if total["returned"] else "no commit has returned in all rounds")


if __name__ == "__main__":
    counts, wrong = run(*sys.argv[1:5], int(sys.argv[5]), float(sys.argv[6]), *sys.argv[7:])
    print(f"seed {sys.argv[5]}: {counts}", wrong)
    sys.exit(bool(wrong))
