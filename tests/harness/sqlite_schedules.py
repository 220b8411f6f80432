"""Schedules over six servers that random rounds hit seldom: each is one accident that a rule of the protocol or of the driver prevents.

A schedule runs in a process of its own: python3 -m harness.sqlite_schedules EXTENSION STORE DISK FOLDER SEED NAME
"""

import contextlib
import os
import random
import signal
import sqlite3
import sys
import time
from pathlib import Path

from harness import sqlite_transactions
from harness.sqlite_cluster import NODES, QUORUM, Cluster, Proxies
from harness.sqlite_crashes import Child
from harness.sqlite_rounds import connect, load, told
from harness.sqlite_worlds import is_whole, one
from harness.stores import until

NO_GOSSIP = 86_400_000  # milliseconds between two rounds
TABLE = "create table t(a integer primary key, b)"
MANY = sqlite_transactions.MANY.format(100)


# Processes


def serve(pipe, place, parameters):
    """Executes the statements that come, and sends the rows of each, or its error."""
    try:
        ours = connect(place, **parameters)
        pipe.send("open")
    except sqlite3.Error as error:
        return pipe.send(told(error))
    while (sql := pipe.recv()) is not None:
        try:
            pipe.send(ours.execute(sql).fetchall())
        except sqlite3.Error as error:
            said = one(ours, "pragma yieldcleat_error")
            pipe.send(f"{error.sqlite_errorname}: {said}")
    return ours.close()


class Engine(Child):
    """A connection in a process of its own."""

    def __init__(self, place, **parameters):
        super().__init__(serve, place, {"timeout": 5000} | parameters)
        self.opened = self.pipe.recv()

    def send(self, sql):
        self.pipe.send(sql)

    def answer(self):
        try:
            return self.pipe.recv()
        except EOFError:
            return "dead"

    def run(self, *statements):
        """What the last of these statements answers; none before it may fail."""
        for sql in statements:
            self.send(sql)
            answer = self.answer()
            assert sql is statements[-1] or not isinstance(answer, str), f"{sql}: {answer}"
        return answer

    def write(self, text):
        """Adds a row, which is to succeed."""
        answer = self.run(f"insert into t(b) values('{text}')")
        assert answer == [], answer

    def fails(self, sql, *words):
        """Runs a statement that is to fail, with an error that begins with one of these words."""
        answer = self.run(sql)
        assert isinstance(answer, str) and answer.startswith(words), f"{sql}: {answer}"

    def rows(self):
        return self.run("select count(*) from t")

    def pause(self):
        os.kill(self.process.pid, signal.SIGSTOP)

    def resume(self):
        os.kill(self.process.pid, signal.SIGCONT)

    def close(self):
        self.send(None)
        self.process.join(20)
        self.kill()


class World:
    def __init__(self, extension, store, disk, folder, seed):
        load(extension)
        self.store, self.disk, self.folder, self.rng, self.made = store, disk, Path(folder), random.Random(seed), []

    def cluster(self, gossip_every=50, rows=3):
        """Servers with a table of so many rows, each of which was a commit, in a database that nobody has open; of None without a table."""
        made = Cluster(self.store, self.folder / f"c{len(self.made)}", self.disk, gossip_every)
        made.start()
        self.made.append(made)
        if rows is not None:
            ours = Engine(made.folder / "volume", timeout=20000)
            assert ours.opened == "open", ours.opened
            ours.run(TABLE, *["insert into t(b) values(randomblob(20))"] * rows)
            ours.close()
        return made

    def proxied(self, *words, **more):
        """Servers, and proxies before them."""
        cluster = self.cluster(*words, **more)
        self.made.append(Proxies(cluster.folder))
        return cluster, self.made[-1]

    def close(self):
        for it in reversed(self.made):
            it.close()


def commit_at_four(cluster):
    """Adds 20 commits without the last two servers, which are away."""
    cluster.kill(4, 5)
    ours = Engine(cluster.folder / "volume")
    ours.run(*["insert into t(b) values('four have it')"] * 20)
    ours.close()


def shows(cluster, least, most=None):
    """Whether a new engine finds so many rows in a whole database, and may add one; the result is what it found."""
    ours = Engine(cluster.folder / "volume", timeout=20000)
    assert ours.opened == "open", ours.opened
    begun = ours.run("begin immediate")  # from here on nothing of an older engine arrives
    assert begun == [], begun
    ours.run("commit")
    [(found,)] = ours.rows()
    assert least <= found <= (least if most is None else most), f"{found} rows, not {least} to {most}"
    assert ours.run("pragma integrity_check") == [("ok",)]
    ours.write("after")
    ours.close()
    return found


# Openings


def die_in_opening(cluster, proxies, seconds, sql):
    """A process that is to execute this is killed once a bound is spent, or after so many seconds."""
    dying = Child(serve, cluster.folder / "proxied", {"timeout": int(1000 * seconds)})
    dying.pipe.send(sql)
    proxies.wait(seconds)
    time.sleep(0.1)
    dying.kill()


def check_openings_that_die(world):
    """An engine dies within an opening after each number of its requests, at some servers earlier; the next one finds all commits, and all
    servers have one log in the end: no epoch has two truncations."""
    cluster, proxies = world.proxied()
    rows = 3
    for step in range(11):
        late = world.rng.sample(range(NODES), world.rng.randrange(NODES))
        proxies.bound([max(0, step - 1 - number % 2) if number in late else step for number in range(NODES)], world.rng.random() < 0.5)
        die_in_opening(cluster, proxies, 1.5, "insert into t(b) values('dying')")
        proxies.bound(None)
        rows = shows(cluster, rows, rows + 1) + 1
        assert cluster.settled(), f"step {step}: {cluster.fronts()}"


def check_openings_with_stopped_servers(world):
    """Servers that take connections and answer nothing keep no engine from opening the volume, nor a reader from reading it."""
    cluster = world.cluster()
    for rows, stopped in enumerate(((0,), (1, 4), (0, 5)), 3):
        for number in stopped:
            cluster.pause(number)
        begun = time.monotonic()
        assert shows(cluster, rows) == rows
        assert time.monotonic() - begun < 4
        cluster.resume()
    assert cluster.settled(), cluster.fronts()


def check_two_engines(world):
    """Two engines write at once, and fence each other. What either acknowledged is there; an engine that is fenced says so, and may open again."""
    cluster = world.cluster(rows=0)
    acknowledged = [0, 0]
    for turn in range(6):
        engines = [Engine(cluster.folder / "volume", timeout=20000) for _ in range(2)]
        for engine in engines:
            engine.send(f"insert into t(b) values('{turn}')")
        for place, engine in enumerate(engines):
            answer = engine.answer()
            assert answer == [] or str(answer).startswith(("SQLITE_IOERR_LOCK", "SQLITE_BUSY", "SQLITE_IOERR_FSYNC")), answer
            acknowledged[place] += answer == []
            engine.close()
    [(found,)] = Engine(cluster.folder / "volume").rows()
    assert found >= sum(acknowledged) > 0, f"{found} rows, {acknowledged} acknowledged"
    assert cluster.settled(), cluster.fronts()


def check_old_engine(world):
    """An engine sleeps within a transaction while another one fences it and commits. It wakes up: its commit fails, and leaves nothing."""
    cluster = world.cluster()
    old = Engine(cluster.folder / "volume")
    old.run("begin immediate", "insert into t(b) values('old')")
    old.pause()
    other = Engine(cluster.folder / "volume")
    assert other.run("insert into t(b) values('other')", "select count(*) from t") == [(4,)]
    old.resume()
    old.fails("commit", "SQLITE_IOERR_LOCK")
    assert old.rows() == other.rows() == [(4,)]
    old.fails("insert into t(b) values('again')", "SQLITE_IOERR_LOCK")
    old.close()
    other.close()
    shows(cluster, 4)


def check_late_requests(world):
    """What an engine sent arrives at the servers only after another one has fenced it, or has begun its epoch: none of it counts."""
    cluster, proxies = world.proxied(NO_GOSSIP)
    old = Engine(cluster.folder / "proxied")
    old.run("insert into t(b) values('before')")
    for arrives in ([0] * NODES, [9, 9, 9, 0, 0, 0], [1] * NODES, [9, 0, 0, 0, 0, 0]):
        proxies.bound(arrives)
        old.send("insert into t(b) select randomblob(3000) from t, t")
        proxies.wait(2)
        time.sleep(0.05)
        old.kill()
        other = Engine(cluster.folder / "volume")
        before = other.rows()
        other.run("begin immediate", "insert into t(b) values('other')")
        proxies.bound(None)  # which lets pass what it has held back
        time.sleep(0.1)
        assert other.run("commit") == []
        [(count,)] = before
        assert other.rows() == [(count + 1,)]
        other.close()
        shows(cluster, count + 1)
        old = Engine(cluster.folder / "proxied")
        old.write("before")


# Servers without their files


def check_counted_too_early(world):
    """Four servers have the commits. Two of them lose their files, and the other two are away: there is no quorum until they are back."""
    cluster = world.cluster(NO_GOSSIP)
    commit_at_four(cluster)
    cluster.kill(0, 1)
    cluster.wipe(2, 3)
    cluster.start(2, 3, 4, 5)
    for parameters in ({"mode": "ro"}, {}):
        refused = Engine(cluster.folder / "volume", timeout=1500, **parameters)
        assert refused.opened.startswith("SQLITE_CANTOPEN"), refused.opened
        refused.kill()
    cluster.start(0, 1)
    assert shows(cluster, 23) == 23
    assert until(lambda: cluster.members() == list(range(NODES))), cluster.members()


def check_two_admitted(world):
    """Two servers that lost their files are admitted at once; with two others, which lack the newest commits otherwise, they have all."""
    cluster = world.cluster(NO_GOSSIP)
    commit_at_four(cluster)
    cluster.wipe(2, 3)
    cluster.start()
    shows(cluster, 23)
    assert until(lambda: cluster.members() == list(range(NODES))), cluster.members()
    cluster.kill(0, 1)
    shows(cluster, 24)


def check_another_volume(world):
    """All servers lose their files, and the place gets another volume. Readers of the former one believe nothing of it."""
    cluster = world.cluster(rows=None)
    for is_made_by_other in (True, False):
        place = cluster.folder / "volume"
        outlives = Child(outlive, place)
        assert outlives.pipe.recv() == 30
        reads, writes = Engine(place, mode="ro"), Engine(place, timeout=20000)
        if not is_made_by_other:
            writes.write("former")
        assert reads.rows() == writes.rows() == [(31 - is_made_by_other,)]
        cluster.wipe(*range(NODES))
        cluster.start()
        if is_made_by_other:
            other = Engine(place)
            other.run(TABLE, "insert into t(b) values('another')")
            other.close()
        outlives.pipe.send("again")
        assert outlives.said() == [(1 + is_made_by_other, True)]
        assert reads.rows() == [(1 + is_made_by_other,)]
        if not is_made_by_other:
            writes.fails("insert into t(b) values('former')", "SQLITE_IOERR_LOCK")
        reads.close()
        writes.close()
        cluster.wipe(*range(NODES))
        cluster.start()


def outlive(pipe, place):
    """Writes a table and closes the database, and later opens it again and adds a row to what is there."""
    ours = connect(place)
    ours.execute(TABLE)
    for _ in range(30):
        ours.execute("insert into t(b) values('former')")
    pipe.send(one(ours, "select count(*) from t"))
    ours.close()
    pipe.recv()
    ours = connect(place)
    ours.execute(TABLE.replace("table t", "table if not exists t"))
    ours.execute("insert into t(b) values('again')")
    pipe.send((one(ours, "select count(*) from t"), is_whole(ours)))
    ours.close()


def check_replaced_one_by_one(world):
    """One connection stays open while four servers lose their files, one after another, also where nobody writes: each counts again before
    the next one goes. Then two others may go."""
    cluster = world.cluster()
    ours, rows = Engine(cluster.folder / "volume"), 3
    for victim in range(QUORUM):
        ours.write("all have it")
        cluster.wipe(victim)
        if victim % 2:
            ours.write("five have it")
        cluster.start(victim)
        assert until(lambda: cluster.members() == list(range(NODES))), f"server {victim} does not count: {cluster.members()}"
        rows += 1 + victim % 2
        log = cluster.stores[victim].log
        assert until(lambda: log().count("admitted by the engine of generation") == 2), log()  # also when the volume was made
    cluster.kill(4, 5)
    ours.write("four have it")
    assert ours.run("pragma integrity_check") == [("ok",)]
    assert ours.rows() == [(rows + 1,)]
    ours.kill()
    assert shows(cluster, rows + 1) == rows + 1


def check_replaced_beside_two_engines(world):
    """An engine that was fenced and does not know it leaves the newer one alone where a server has lost its files."""
    cluster = world.cluster()
    old, new = Engine(cluster.folder / "volume"), Engine(cluster.folder / "volume")
    old.write("old")
    new.write("new")
    cluster.wipe(0)
    cluster.start(0)
    assert until(lambda: cluster.members() == list(range(NODES))), cluster.members()
    for _ in range(20):
        new.write("new")
        time.sleep(0.1)
    assert old.run("insert into t(b) values('old')").startswith("SQLITE_IOERR_LOCK")
    assert old.rows() == new.rows() == [(25,)]


# Recovery


def check_two_epochs(world):
    """Four servers have commits that two lack. An engine's truncation reaches one of the two alone: its epoch is the newest, and its front the
    lowest. The next engine loses nothing."""
    for late in ((4,), (5,), (4, 5)):
        cluster, proxies = world.proxied(NO_GOSSIP)
        commit_at_four(cluster)
        cluster.start(4, 5)
        for step in range(3, 10):
            proxies.bound([30 if number in late else step for number in range(NODES)])
            die_in_opening(cluster, proxies, 1, "begin immediate")
            proxies.bound(None, True)
        for away in ((0, 1), (2, 3)):
            cluster.kill(*away)
            shows(cluster, 23, 24)
            cluster.start(*away)


def check_torn_transactions(world):
    """An engine dies within what it sends of a transaction over many pages: the next one finds all of it or nothing."""
    cluster, proxies = world.proxied(rows=0)
    rows = 0
    for _ in range(8):
        ours = Engine(cluster.folder / "proxied")
        ours.run("begin", f"{MANY} insert into t(b) select hex(randomblob(300)) from c", "update t set b = b || 'x' where a % 2")
        proxies.bound([world.rng.randrange(60) for _ in range(NODES)])
        ours.send("commit")
        proxies.wait(2)
        time.sleep(0.02)
        ours.kill()
        proxies.bound(None, True)
        found = shows(cluster, rows, rows + 100)
        assert (found - rows) % 100 == 0, f"{found - rows} of 100 rows"
        rows = found + 1
    assert cluster.settled(), cluster.fronts()


# Readers


def check_not_yet_durable(world):
    """A commit that too few servers have is shown to no reader. An opening without these servers loses it, and no reader has seen it."""
    for has in range(1, QUORUM):
        cluster, proxies = world.proxied(NO_GOSSIP)
        ours, reader = Engine(cluster.folder / "proxied", timeout=1000), Engine(cluster.folder / "volume", mode="ro")
        ours.write("four")
        assert reader.rows() == [(4,)]
        proxies.bound([1000 if number < has else 0 for number in range(NODES)])
        ours.fails("insert into t(b) values('few')", "SQLITE_IOERR_FSYNC: commit in doubt: no write quorum")
        for _ in range(10):  # as the servers that answer first differ
            seen = reader.rows()
            assert seen == [(4,)], seen
        ours.kill()
        proxies.bound(None, True)
        away = list(range(has))[:2]
        cluster.kill(*away)
        found = shows(cluster, 4, 4 if has == len(away) else 5)
        assert reader.rows() == [(found + 1,)]
        cluster.start(*away)
        shows(cluster, found + 1)


def check_one_snapshot(world):
    """A transaction that reads sees one state while another process commits, also where servers come and go; then it sees all."""
    cluster = world.cluster()
    ours, reader = Engine(cluster.folder / "volume"), Engine(cluster.folder / "volume", mode="ro")
    all_of_it = "select count(*), sum(length(b)), sum(unicode(b)) from t"
    ours.run(f"{MANY} insert into t(b) select hex(randomblob(200)) from c")
    before = ours.run(all_of_it)
    reader.run("pragma cache_size = 2", "begin", "select b from t where a = 1")  # the other pages are read later
    for victim in (0, 3):
        ours.run("update t set b = hex(randomblob(300)) where a % 3 = 0", f"{MANY} insert into t(b) select n from c")
        cluster.kill(victim)
        seen = reader.run(all_of_it)
        assert seen == before, f"{seen}, not {before}"
        cluster.start(victim)
    now = ours.run(all_of_it)
    assert reader.run("commit", all_of_it) == now != before
    assert reader.run("pragma integrity_check") == [("ok",)]


def check_fenced_reader(world):
    """A process that has written reads on after another one has fenced it, and sees what that one commits."""
    cluster = world.cluster()
    old, other = Engine(cluster.folder / "volume"), Engine(cluster.folder / "volume")
    old.run("insert into t(b) values('old')")
    for count in range(5, 8):
        other.write("other")
        assert old.rows() == [(count,)]
    old.fails("insert into t(b) values('old')", "SQLITE_IOERR_LOCK")


# Servers that are slow or away


def check_off_with_slow_servers(world):
    """With synchronous = off nothing waits for servers that are slow or stopped, what is sent is bounded, and all is durable in the end."""
    cluster = world.cluster(rows=0)
    cluster.kill(4)
    cluster.start(4, delay=100_000)
    cluster.pause(5)
    ours = Engine(cluster.folder / "volume")
    ours.run("pragma synchronous = off")
    end, rows = time.monotonic() + 3, 0
    while time.monotonic() < end:
        ours.run(f"{MANY} insert into t(b) select hex(randomblob(20)) from c")
        rows += 100
    cluster.resume()
    ours.close()  # waits for the last commit
    cluster.kill(0, 1)
    assert shows(cluster, rows) == rows
    cluster.start(0, 1)
    assert cluster.settled(), cluster.fronts()


def check_third_server(world):
    """Without a third server nothing is written, and the message says so in time; work goes on when it is back."""
    cluster = world.cluster()
    ours = Engine(cluster.folder / "volume", timeout=4000)
    ours.write("six")
    cluster.kill(0, 1)
    ours.write("four")
    cluster.kill(2)
    begun = time.monotonic()
    answer = ours.run("insert into t(b) values('three')")
    # On a busy machine fewer than the three that run may answer in time.
    assert answer in [f"SQLITE_IOERR_READ: read: no write quorum: {number} of 6 nodes answer" for number in (1, 2, 3)], answer
    assert time.monotonic() - begun < 15
    cluster.start(2)
    ours.write("four")
    ours.run("begin immediate", "insert into t(b) values('within')")
    cluster.kill(2)
    ours.fails("commit", "SQLITE_IOERR_WRITE: commit: no write quorum", "SQLITE_IOERR_FSYNC: commit in doubt: no write quorum")
    cluster.start(2)
    ours.close()
    shows(cluster, 6, 7)


def check_kept_writer(world):
    """A process that connects often spends two epochs at most, and others that only read none."""
    cluster = world.cluster()
    before = max(front[0] for front in cluster.fronts())
    assert Child(connect_often, cluster.folder / "volume").said() == ["done"]
    for _ in range(3):
        reader = Engine(cluster.folder / "volume")
        assert reader.rows() == [(13,)]
        reader.close()
    assert max(front[0] for front in cluster.fronts()) <= before + 2


def connect_often(pipe, place):
    for _ in range(10):
        ours = connect(place)
        ours.execute("insert into t(b) values('again')")
        assert is_whole(ours)
        ours.close()
    pipe.send("done")


SCHEDULES = sorted(name.removeprefix("check_") for name in globals() if name.startswith("check_"))


def main(extension, store, disk, folder, seed, name):
    with contextlib.closing(World(extension, store, disk, folder, f"{seed} {name}")) as world:
        globals()[f"check_{name}"](world)


if __name__ == "__main__":
    main(*sys.argv[1:])
