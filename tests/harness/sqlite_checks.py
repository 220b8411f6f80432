"""What a database over a volume does: the checks of `test_sqlite.py`, which need no faults."""

import os
import sqlite3
import threading
import time
from concurrent.futures import ThreadPoolExecutor

from harness.sqlite_crashes import Child
from harness.sqlite_transactions import MANY, TABLES, transaction
from harness.sqlite_worlds import NO_QUORUM, content, filled, is_whole, one, point, refused


def modes(world, connection):
    """Draws how the next transactions run."""
    choose = world.rng
    for pragma, values in (
        ("journal_mode", ["delete", "truncate", "persist", "memory"]),
        ("synchronous", ["off", "normal", "full", "extra"]),
        ("cache_size", [2, 10, 100, 2000]),
        ("cache_spill", ["on", "off"]),
        ("secure_delete", ["on", "off"]),
        ("locking_mode", ["normal", "normal", "exclusive"]),
    ):
        if choose.random() < 0.3:
            connection.execute(f"pragma {pragma} = {choose.choice(values)}")


def check_random(world):
    """Transactions leave what they leave in a plain database, whatever the settings, and for each connection that looks."""
    plain, ours, other = world.plain(), world.open(), world.open()
    for connection in (plain, ours):
        connection.executescript(TABLES)
    end, number = time.monotonic() + world.seconds, 0
    while time.monotonic() < end or number < 20:
        number += 1
        modes(world, ours)
        assert transaction(ours, world.seed, number) == transaction(plain, world.seed, number)
        if number % 3 == 0:
            assert content(ours) == content(plain), f"transaction {number}"
        if number % 5 == 0:
            assert content(other) == content(plain), f"transaction {number}, from another connection"
        if number % 20 == 0:
            assert is_whole(other), f"transaction {number}"
        if world.rng.random() < 0.1:
            ours.close()
            ours = world.open()
    ours.execute("pragma synchronous = full")  # so that its point is one for all
    assert transaction(ours, world.seed, 0) == transaction(plain, world.seed, 0)
    assert content(world.open(point=point(ours))) == content(plain)
    assert is_whole(ours)
    assert os.listdir(world.folder) == ["volume"]


def check_sizes(world):
    """A commit sends what changed, and not its pages; a run of equal bytes is not sent byte by byte."""
    ours = filled(world.open(), 2000, "hex(randomblob(20))")
    before = world.size()
    ours.execute("update t set b = 'x' where a = 1000")
    assert world.size() - before < 500
    before = world.size()
    ours.execute("insert into t values(5000, zeroblob(100000))")
    assert world.size() - before < 3000
    before = world.size()
    ours.executescript("begin; update t set b = 'y'; rollback; update t set b = b where a = 7 and 0")
    assert world.size() == before


def check_spill(world):
    """A transaction that outgrows the cache may roll back, to a savepoint too."""
    ours, reader = world.open(), world.open()
    ours.executescript("pragma cache_size = 2; create table t(a integer primary key, b); insert into t values(0, 'first')")
    before = world.size()
    grow = f"{MANY.format(3000)} insert into t(b) select hex(randomblob(100)) from c"
    ours.executescript(f"begin; {grow}; savepoint s; {grow}")
    assert (one(reader, "select count(*) from t"), world.size()) == (1, before)
    ours.execute("rollback to s")
    assert one(ours, "select count(*) from t") == 3001
    ours.execute("rollback")
    assert (one(ours, "select count(*) from t"), world.size()) == (1, before)
    ours.execute(grow)
    assert one(reader, "select count(*) from t") == 3001 and is_whole(reader)
    ours.execute("pragma journal_mode = off")  # so that SQLite writes nothing back
    ours.execute("begin")
    ours.execute(grow)
    ours.execute("rollback")
    assert one(ours, "select count(*) from t") == 3001 and is_whole(ours)


def check_vacuum(world):
    """The database grows and shrinks; its pages begin from zeros where it grows again."""
    ours = world.open()
    ours.execute("create table t(a integer primary key, b)")
    for _ in range(3):
        ours.execute(f"{MANY.format(3000)} insert into t(b) select hex(randomblob(50)) from c")
        many = one(ours, "pragma page_count")
        ours.executescript("delete from t where a > 10; vacuum")
        few = one(ours, "pragma page_count")
        assert many > 50 and few < 10
        assert one(world.open(), "pragma page_count") == few and is_whole(ours)
    ours.executescript("pragma auto_vacuum = incremental; vacuum; insert into t(b) select hex(randomblob(2000)) from t, t")
    before, pages = content(ours), one(ours, "pragma page_count")
    for end in ("rollback", "commit"):
        ours.executescript(f"begin; delete from t where a > 10; pragma incremental_vacuum; {end}")
        assert (content(ours) == before) == (one(world.open(), "pragma page_count") == pages) == (end == "rollback") and is_whole(ours)


def check_snapshots(world):
    """A reader sees one state through its transaction, whatever is committed meanwhile, also in another process."""
    ours, reader = filled(world.open(), 500, "hex(zeroblob(500)) || 0"), world.open()
    total = "select count(*), count(distinct b), max(b) = (select b from t where a = 1) from t"
    for change in range(3):
        reader.executescript("pragma cache_size = 2; begin")
        first = one(reader, "select b from t where a = 1")
        if change == 2:
            world.ask("work_change", change)
        else:
            ours.execute("update t set b = hex(zeroblob(500)) || ?", (f"change {change}",))
        assert one(reader, "select b from t where a = 500") == first
        assert reader.execute(total).fetchone() == (500, 1, 1)
        reader.execute("commit")
        assert one(reader, "select b from t where a = 500").endswith(f"change {change}")
        assert reader.execute(total).fetchone() == (500, 1, 1)


def work_change(world, change):
    world.open().execute("update t set b = hex(zeroblob(500)) || ?", (f"change {change}",))


def check_readers(world):
    """Transfers between accounts in one process leave each reader's sum as it is in another one. The writer keeps all points readable: a reader
    that the system stops for a while would lose its own, after a thousand commits in a fraction of a second."""
    ours = world.open()
    ours.execute("create table accounts(id integer primary key, amount, filler)")
    ours.execute(f"{MANY.format(300)} insert into accounts select n - 1, 100, hex(zeroblob(200)) from c")
    ours.close()
    writer = world.helper("work_transfers")
    readers = [world.open() for _ in range(2)]
    seen = 0
    while writer.poll() is None:
        for reader in readers:
            reader.execute("begin")
            halves = [one(reader, f"select sum(amount) from accounts where id % 2 = {half}") for half in (0, 1)]
            assert sum(halves) == 30000, halves
            now = point(reader)
            assert now >= seen
            seen = now
            reader.execute("commit")
    assert writer.returncode == 0 and is_whole(readers[0])
    assert int(writer.stdout.read()) > 3


def work_transfers(world):
    ours, end, count = world.open(keep=0), time.monotonic() + min(world.seconds, 3), 0
    while time.monotonic() < end or count < 10:
        pair = world.rng.sample(range(300), 2)
        ours.execute("begin")
        for place, change in zip(pair, (-5, 5)):
            ours.execute("update accounts set amount = amount + ? where id = ?", (change, place))
        ours.execute("commit")
        count += 1
    print(count)


def check_threads(world):
    """Connections of one process take turns: each sees the others' commits before it writes."""
    world.open().execute("create table t(n)").execute("insert into t values(0)")

    def work(_):
        ours = world.open(busy=60)
        for _ in range(40):
            ours.executescript("begin immediate; update t set n = n + 1; commit")

    with ThreadPoolExecutor(3) as pool:
        list(pool.map(work, range(3)))  # which raises what a thread has raised
    assert one(world.open(), "select n from t") == 120


def check_writers(world):
    """Processes that write by turns fence each other; who is fenced has written nothing, and opens the database again."""
    world.open().execute("create table t(n)").execute("insert into t values(0)")
    helpers = [world.helper("work_increments", 12) for _ in range(3)]
    for helper in helpers:
        assert helper.wait(timeout=60) == 0
    assert one(world.open(), "select n from t") == 3 * 12 and is_whole(world.open())


def work_increments(world, count):
    ours, done = world.open(busy=10), 0
    while done < int(count):
        try:
            ours.execute("update t set n = n + 1")
            done += 1
        except sqlite3.OperationalError as error:
            assert error.sqlite_errorname in ("SQLITE_IOERR_LOCK", "SQLITE_BUSY_SNAPSHOT"), error.sqlite_errorname
            ours.close()
            ours = world.open(busy=10)


def check_forks(world):
    """A child that is forked from a process without open databases has no use for the handles that the process keeps. It opens the volume for
    itself, and so does the process afterwards."""
    ours = world.open()
    ours.execute("create table t(a)")
    ours.close()
    for count in range(1, 4):
        opened = world.calls("open_writer")
        assert Child(add_row, world).said() == [(opened + 1, 2 * count - 1)]
        ours = world.open()
        ours.execute("insert into t values('process')")
        ours.close()
        assert world.calls("open_writer") == opened + 1
    assert one(world.open(), "select count(*) from t") == 6 and is_whole(world.open())


def add_row(pipe, world):
    ours = world.open()
    ours.execute("insert into t values('child')")
    pipe.send((world.calls("open_writer"), one(ours, "select count(*) from t")))


def check_waits(world):
    """Nobody sees a commit before it is durable."""
    ours, reader = world.open(), world.open()
    ours.execute("create table t(n)")
    writing = threading.Thread(target=ours.execute, args=("insert into t values(1)",))
    world.double.memory_volume_delay(1_000_000)
    before = world.calls("wait")
    writing.start()
    while world.calls("commit") < 2:
        time.sleep(0.001)
    seen = one(reader, "select count(*) from t")
    assert (seen, world.calls("wait")) in {(0, before), (0, before + 1)} and writing.is_alive()
    writing.join()
    assert one(reader, "select count(*) from t") == 1


def check_turns(world):
    """One connection writes at a time; one that read an older state does not write over a newer one."""
    one_, two = world.open(), world.open()
    one_.executescript("create table t(a); begin immediate")
    with refused("SQLITE_BUSY"):
        two.execute("begin immediate")
    assert one(two, "select count(*) from t") == 0
    one_.execute("commit")
    two.execute("begin")
    assert one(two, "select count(*) from t") == 0
    one_.execute("insert into t values(1)")
    with refused("SQLITE_BUSY_SNAPSHOT"):
        two.execute("insert into t values(2)")
    assert one(two, "select count(*) from t") == 0
    two.execute("rollback")
    two.execute("insert into t values(2)")
    assert one_.execute("select a from t").fetchall() == [(1,), (2,)]
    one_.executescript("pragma locking_mode = exclusive; insert into t values(3)")
    with refused("SQLITE_BUSY"):
        two.execute("insert into t values(4)")
    assert one(two, "select count(*) from t") == 3
    one_.execute("insert into t values(5)")
    assert one(two, "select count(*) from t") == 4
    one_.close()
    two.execute("insert into t values(4)")
    assert is_whole(two)


def check_past(world):
    """A point of the past is what the database was then, and it only reads; `latest` follows."""
    plain, ours, states = world.plain(), world.open(), {}
    for connection in (plain, ours):
        connection.executescript(TABLES)
    for number in range(1, 30):
        transaction(ours, world.seed, number)
        transaction(plain, world.seed, number)
        states[point(ours)] = content(plain)
    points = sorted(states)
    for before, after in zip(points, points[1:]):
        for at in {before, world.rng.randrange(before, after)}:
            past = world.open(point=at)
            assert content(past) == states[before] and is_whole(past) and point(past) == before
            with refused("SQLITE_READONLY"):
                past.execute("create table no(x)")
            past.close()
    latest = world.open(point="latest")
    assert content(latest) == states[points[-1]]
    transaction(ours, world.seed, 30)
    assert content(latest) == content(ours)
    with refused("SQLITE_READONLY"):
        latest.execute("update done set number = 0")
    for at in (points[-1] + 10**6, 2**64 - 2):
        with refused("SQLITE_CANTOPEN"):
            world.open(point=at)


def check_read_only(world):
    """A process whose connections only read fences nobody, whatever their pragmas ask for."""
    ours = world.open()
    ours.execute("create table t(a)")
    world.ask("work_read_only")
    ours.execute("insert into t values(1)")


def work_read_only(world):
    """Leaving some of these journals, SQLite asks for a lock for writing. Where nothing is proved durable only a writer opens the volume."""
    for words in ({"mode": "ro"}, {"point": "latest"}):
        reader = world.open(**words)
        for mode in ("persist", "delete", "truncate", "memory"):
            assert one(reader, f"pragma journal_mode = {mode}") == mode
            assert one(reader, "select count(*) from t") == 0
    writer = world.open()
    writer.close()  # which has not written
    world.fail("newest", NO_QUORUM)
    with refused("SQLITE_IOERR_READ"):
        one(reader, "select count(*) from t")
    assert world.calls("open_writer") == 0


def check_keep(world):
    """Old points are given up in the end, but none that somebody of the process reads."""
    ours, reader = world.open(keep=16), world.open(keep=16)
    ours.execute("create table t(a)")
    first = point(ours)
    reader.execute("begin")
    assert one(reader, "select count(*) from t") == 0
    ours.executemany("insert into t values(?)", [(number,) for number in range(60)])
    assert one(reader, "select count(*) from t") == 0
    world.open(point=first).close()
    reader.execute("commit")
    kept = [point(ours)]
    for number in range(60):
        ours.execute("insert into t values(?)", (number,))
        kept.append(point(ours))
    with refused("SQLITE_CANTOPEN"):
        world.open(point=first)
    assert one(world.open(point=kept[-15]), "select count(*) from t") == 60 + 60 - 14
    everything = world.open("all", keep=0)
    everything.execute("create table t(a)")
    first = point(everything)
    everything.executemany("insert into t values(?)", [(number,) for number in range(60)])
    assert one(world.open("all", point=first), "select count(*) from t") == 0


def check_kept_past(world):
    """No point is given up that a transaction of the same process reads, also where its connection was opened at that point."""
    ours = world.open(keep=16)
    ours.execute("create table t(a integer primary key, b)")
    ours.execute("with recursive c(n) as (select 1 union all select n + 1 from c where n < 100) insert into t select n, hex(zeroblob(500)) from c")
    past = world.open(point=point(ours))
    past.execute("begin")
    assert one(past, "select length(b) from t where a = 1") == 1000
    for number in range(60):
        ours.execute("update t set b = ?", (number,))
    assert one(past, "select length(b) from t where a = 100") == 1000
    past.execute("commit")
    for number in range(60):
        ours.execute("update t set b = ?", (number,))
    with refused("SQLITE_IOERR_READ", "older", past):
        one(past, "select length(b) from t where a = 50")


def check_openings(world):
    """What cannot be opened is refused, and makes nothing."""
    bad = [{"point": it} for it in ("x", "", 2**64, -1)] + [{"keep": "many"}, {"timeout": "1s"}, {"nolock": 1}, {"immutable": 1}]
    for words in (*bad, {"mode": "ro"}, {"mode": "rw"}, {"point": "latest"}):
        with refused("SQLITE_CANTOPEN"):
            world.open(**words)
    assert os.listdir(world.folder) == []
    world.place("other").write_bytes(b"something else")
    with refused("SQLITE_CANTOPEN"):
        world.open("other")
    empty = world.open()
    assert [one(empty, f"pragma {name}") for name in ("page_count", "page_size", "user_version")] == [0, 4096, 0]
    empty.executescript("pragma page_size = 8192; create table t(a)")
    assert [one(empty, f"pragma {name}") for name in ("page_count", "page_size")] == [2, 4096]
    assert one(world.open(mode="ro"), "select count(*) from t") == 0
    with refused("SQLITE_READONLY"):
        world.open(mode="ro").execute("insert into t values(1)")
    assert one(empty, "pragma journal_mode = wal") == "delete" and "write-ahead" in one(empty, "pragma yieldcleat_error")
    status = one(empty, "pragma yieldcleat_status")
    assert status.startswith("writing") and "6 of 6 nodes answer, 4 are needed" in status


def check_other_page_sizes(world):
    """Pages of another size, other reserved bytes and a database in WAL mode are refused; the database stays what it was."""
    ours, plain = world.open(), world.plain("plain")
    ours.execute("create table t(a)").execute("insert into t values(1)")
    with refused("SQLITE_IOERR_WRITE", "bytes", ours):
        ours.executescript("pragma page_size = 8192; vacuum")
    assert ours.execute("select a from t").fetchall() == [(1,)] and is_whole(ours)
    plain.execute("create table u(a)").execute("insert into u values(2)")
    with refused("SQLITE_IOERR_WRITE", "reserved", ours):
        plain.backup(ours)
    ours.close()
    ours = world.open()
    assert ours.execute("select a from t").fetchall() == [(1,)] and is_whole(ours)
    other = world.open("other")
    ours.backup(other)
    copy = world.plain("copy")
    ours.backup(copy)
    for connection in (other, copy, world.open("other")):
        assert connection.execute("select a from t").fetchall() == [(1,)] and is_whole(connection)


def check_several_databases(world):
    """A transaction over a volume and another database is refused, whichever is the first, and nothing of it stays; one may read both."""
    for main, attached in (("volume", "other"), ("volume", None), (None, "volume")):
        connection = world.open(main) if main else world.plain("plain")
        connection.execute("attach ? as o", (f"file:{world.place(attached)}?vfs=yieldcleat" if attached else str(world.place("plain2")),))
        for schema in ("main", "o"):
            connection.executescript(f"create table if not exists {schema}.t(a); delete from {schema}.t; insert into {schema}.t values(1)")
        for mode in ("normal", "exclusive"):
            connection.executescript(f"pragma locking_mode = {mode}; begin; insert into main.t values(2)")
            connection.execute("insert into o.t select a from main.t")
            with refused("SQLITE_CANTOPEN" if main else "SQLITE_IOERR_WRITE"):
                connection.execute("commit")
            assert "not atomic" in one(connection, f"pragma {'main' if main else 'o'}.yieldcleat_error")
            for schema in ("main", "o"):
                assert connection.execute(f"select a from {schema}.t").fetchall() == [(1,)]
            connection.execute("update main.t set a = (select max(a) from o.t)")
        connection.close()
        assert world.open().execute("select a from t").fetchall() == [(1,)] and is_whole(world.open())


def check_calls(world):
    """A commit is one mini-transaction, which `synchronous` waits for, or not; where nothing has changed nothing is read again."""
    ours = world.open()
    ours.execute("create table t(a)")
    for mode, waits in (("off", 0), ("normal", 1), ("full", 1)):
        ours.execute(f"pragma synchronous = {mode}")
        before = [world.calls(call) for call in ("commit", "wait")]
        ours.execute("insert into t values(randomblob(9000))")
        assert [world.calls(call) for call in ("commit", "wait")] == [before[0] + 1, before[1] + waits]
        calls = ("commit", "wait", "stage", "header", "read")
        before = [world.calls(call) for call in calls]
        ours.execute("select count(*) from t")
        ours.execute("begin immediate").execute("rollback")
        assert [world.calls(call) for call in calls] == before
