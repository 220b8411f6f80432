"""What a connection returns where the volume fails, and that it goes on afterwards."""

import itertools
import os
import threading
import time

from harness.sqlite_worlds import (ABOVE, BELOW, FENCED, FULL, IO, NO_MEMORY, NO_QUORUM, NOT_FOUND, TIMEOUT,
                                   content, filled, is_whole, last_message, one, point, refused)

READS = {NO_QUORUM: "SQLITE_IOERR_READ", BELOW: "SQLITE_IOERR_READ", ABOVE: "SQLITE_IOERR_READ", IO: "SQLITE_IOERR_READ", NO_MEMORY: "SQLITE_NOMEM"}
CODES = {
    "newest": READS,
    "header": READS,
    "read": READS,
    "open_writer": {NO_QUORUM: "SQLITE_IOERR_LOCK", FULL: "SQLITE_FULL", IO: "SQLITE_IOERR_LOCK", NO_MEMORY: "SQLITE_NOMEM"},
    "stage": {IO: "SQLITE_IOERR_WRITE", NO_MEMORY: "SQLITE_NOMEM"},
    "commit": {NO_QUORUM: "SQLITE_IOERR_WRITE", FULL: "SQLITE_FULL", IO: "SQLITE_IOERR_FSYNC", NO_MEMORY: "SQLITE_IOERR_FSYNC"},
    "wait": {TIMEOUT: "SQLITE_IOERR_FSYNC", IO: "SQLITE_IOERR_FSYNC", NO_MEMORY: "SQLITE_IOERR_FSYNC"},
}


def made(world, name="volume"):
    """A database with 400 rows on many pages, in a file that no connection of this process has open."""
    filled(world.open(name), 400, "hex(zeroblob(100))").close()


def numbered(*choices):
    """All choices together, and of each a number with room for changes of their own."""
    return zip(itertools.count(10, 10), itertools.product(*choices))


def change(connection, number):
    """Rows on several pages get a text that none had before."""
    connection.execute("update t set b = 'changed ' || ? where a % 50 = ?", (number, number % 50))


def check_faults(world):
    """Each fault of each call has its error; the database is as before or, where a commit was in doubt, as after; and work goes on."""
    made(world)
    faults = [(call, fault, code) for call, codes in CODES.items() for fault, code in codes.items()]
    for number, ((call, fault, code), mode) in numbered(faults, ("delete", "memory", "off")):
        if call == "open_writer":
            world.ask("work_change_to", "volume", number)  # so that this process needs another writer
        ours, other = world.open(timeout=50), world.open()
        ours.execute(f"pragma journal_mode = {mode}")
        if call != "open_writer":
            change(ours, number)
            change(other, number + 1)
        before = content(other)
        world.fail(call, fault)
        with refused(code):
            change(ours, number + 2)
            one(ours, "select count(*), sum(length(b)) from t")
        world.heal()
        assert not ours.in_transaction
        assert content(ours) == before, f"{call}, {fault}, {mode}"
        change(ours, number + 3)
        assert content(ours) == content(other) and content(ours) != before and is_whole(other)
        ours.close()
        other.close()


def check_exclusive(world):
    """In exclusive mode SQLite keeps its lock where a commit fails, and may write nothing back: nothing of that commit is read, or comes with the
    next one."""
    for mode in ("delete", "truncate", "persist", "memory", "off"):
        made(world, mode)
        ours = world.open(mode)
        ours.executescript(f"pragma journal_mode = {mode}; pragma locking_mode = exclusive")
        change(ours, 1)
        before = content(ours)
        world.fail("commit", NO_QUORUM)
        with refused("SQLITE_IOERR_WRITE"):
            change(ours, 2)
        assert content(ours) == before, mode
        change(ours, 3)
        ours.close()
        ours = world.open(mode)
        assert [one(ours, "select b from t where a = ?", number) for number in (1, 2, 3)] == ["changed 1", "0" * 200, "changed 3"]
        assert is_whole(ours)


def check_in_doubt(world):
    """After a commit in doubt the connection sees what the volume has, and works on; with it others."""
    made(world)
    modes = "delete", "persist", "memory", "off"
    for number, (mode, locking, is_durable) in numbered(modes, ("normal", "exclusive"), (False, True)):
        ours, other = world.open(), world.open()
        ours.execute(f"pragma journal_mode = {mode}")
        change(ours, number)
        ours.execute(f"pragma locking_mode = {locking}")
        change(ours, number + 3)
        before = [one(it, "select group_concat(b) from t") for it in (ours, other)]
        assert before[0] == before[1]
        world.doubt(is_durable)
        with refused("SQLITE_IOERR_FSYNC", "in doubt", ours):
            change(ours, number + 1)
        if locking == "exclusive":
            assert one(ours, "select group_concat(b) from t") == before[0]
            ours.close()
            ours = world.open()
        after = [one(it, "select group_concat(b) from t") for it in (ours, other)]
        assert after[0] == after[1] and (after[0] != before[0]) == is_durable
        change(ours, number + 2)
        assert is_whole(ours) and is_whole(other) and content(ours) == content(other)
        ours.close()
        other.close()


def check_lost_writer(world):
    """What synchronous = off had not made durable is gone when another engine opens the volume, also from SQLite's cache."""
    for text in ("one", "two"):
        made(world, text)
        ours = world.open(text)
        ours.execute("pragma synchronous = off")
        change(ours, 1)
        assert one(ours, "select b from t where a = 1") == "changed 1"
        world.ask("work_change_to", text, 51)
        assert one(ours, "select b from t where a = 1") == "changed 51"
        assert is_whole(ours)
        with refused("SQLITE_IOERR_LOCK", "another engine", ours):
            change(ours, 101)
        ours.close()


def work_change_to(world, name, number):
    change(world.open(name), int(number))


def check_fences(world):
    """Another process that writes fences this one, whose next commit fails; it reads on, and may open the database again to write."""
    made(world)
    ours = world.open()
    change(ours, 1)
    world.ask("work_change_to", "volume", 51)
    assert one(ours, "select b from t where a = 1") == "changed 51"
    with refused("SQLITE_IOERR_LOCK", "another engine", ours):
        change(ours, 101)
    again = world.open()
    again.execute("begin immediate")
    change(again, 151)
    world.ask("work_change_to", "volume", 2)
    with refused("SQLITE_IOERR_LOCK", "another engine", again):
        again.execute("commit")
    assert [one(it, f"select b from t where a = {place}") for it in (ours, again) for place in (1, 2)] == ["changed 51", "changed 2"] * 2
    with refused("SQLITE_IOERR_LOCK", "another engine", again):
        change(again, 201)
    third = world.open()
    change(third, 251)
    for it in (ours, again, third):
        assert one(it, "select b from t where a = 1") == "changed 251" and is_whole(it)


def check_kept_writer(world):
    """A process opens a volume for writing once, however often it connects, until another one does or the times are to be others."""
    made(world)
    opened = world.calls("open_writer")
    for number in range(5):
        ours = world.open()
        change(ours, number)
        ours.close()
    assert world.calls("open_writer") == opened
    for number in range(10, 13):
        world.ask("work_change_to", "volume", number)
        ours = world.open()
        assert one(ours, "select max(b) from t where a % 50 = ?", number) == f"changed {number}"
        change(ours, 20 + number)
        ours.close()
    assert world.calls("open_writer") == opened + 3
    ours = world.open(timeout=2000)
    change(ours, 40)
    ours.close()
    assert world.calls("open_writer") == opened + 4
    world.fail("newest", NO_QUORUM)
    ours = world.open(timeout=2000)
    change(ours, 41)
    assert world.calls("open_writer") == opened + 5 and is_whole(ours)


def check_nodes(world):
    """Without a write quorum nothing is written, and the message says how many nodes answer; work goes on when they are back."""
    made(world)
    ours = world.open()
    change(ours, 1)
    ours.execute("begin immediate")
    change(ours, 51)
    world.nodes(3)
    with refused("SQLITE_IOERR_WRITE", "no write quorum: 3 of 6 nodes answer", ours):
        ours.execute("commit")
    with refused("SQLITE_IOERR_READ", "3 of 6", ours):
        one(ours, "select count(*) from t")
    world.nodes(4)
    assert one(ours, "select b from t where a = 1") == "changed 1"
    change(ours, 101)
    assert one(world.open(), "select b from t where a = 1") == "changed 101" and is_whole(ours)
    world.nodes(3)
    with refused("SQLITE_CANTOPEN"):
        world.open("new")
    assert not os.path.exists(world.place("new"))
    world.heal()
    ours.execute("begin")
    assert one(ours, "select count(*) from t") == 400
    world.fail("read", NO_QUORUM)
    world.fail("header", NOT_FOUND)
    ours.execute("commit")
    with refused("SQLITE_IOERR_READ"):
        one(world.open(), "select sum(length(b)) from t")
    assert "open" not in last_message(ours)
    world.heal()
    assert is_whole(ours)


def check_fenced_calls(world):
    """Wherever a fence is learned of, the database stays readable, and no connection writes that was there before. A commit fails, and is undone for
    its connection; one that waits is in doubt."""
    made(world)
    for call in ("newest", "header", "read", "stage", "commit", "wait"):
        ours, other = world.open(), world.open()
        change(ours, 1)
        assert one(other, "select b from t where a = 1") == "changed 1"
        ours.execute("begin immediate")
        change(ours, 51)
        if is_read := call in ("newest", "header", "read"):
            ours.execute("commit")
        world.fail(call, FENCED)
        if is_read:
            assert one(other, "select sum(length(b)) from t") > 0
        else:
            with refused("SQLITE_IOERR_LOCK", "another engine", ours):
                ours.execute("commit")
        assert not ours.in_transaction
        world.heal()
        found = one(ours, "select b from t where a = 1")
        assert found == ("changed 51" if is_read else "changed 1") or (found, call) == ("changed 51", "wait")
        for it in (ours, other):
            with refused("SQLITE_IOERR_LOCK", "another engine", it):
                change(it, 101)
            assert is_whole(it)
            it.close()


def check_ended_writer(world):
    """A writer that has ended without being fenced keeps nobody from reading, nor from writing with another one."""
    made(world)
    ours, other = world.open(), world.open()
    change(ours, 1)
    world.end()
    assert one(other, "select b from t where a = 1") == "changed 1"
    change(other, 2)
    ours.execute("begin immediate")
    change(ours, 3)
    world.end()
    assert one(other, "select b from t where a = 2") == "changed 2"
    with refused("SQLITE_IOERR_LOCK", "lock for writing was lost", ours):
        ours.execute("commit")
    change(ours, 4)
    assert [one(other, "select b from t where a = ?", number) for number in (2, 3, 4)] == ["changed 2", "0" * 200, "changed 4"]
    assert is_whole(other)


def check_slow_closing(world):
    """A handle whose closing takes long, as links to silent nodes do, keeps only the connection waiting that closes it."""
    made(world)
    ours, other = world.open(), world.open()
    change(ours, 1)
    world.ask("work_change_to", "volume", 51)
    found = []
    closing = threading.Thread(target=lambda: found.append((one(ours, "select b from t where a = 1"), time.monotonic())))
    world.double.memory_volume_delay(2_000_000)
    before = world.calls("close")
    closing.start()
    while world.calls("close") == before:
        time.sleep(0.001)
    found.append((one(other, "select b from t where a = 1"), time.monotonic()))
    closing.join()
    assert [text for text, _ in found] == ["changed 51"] * 2
    assert found[1][1] - found[0][1] > 1


def check_left_writer(world):
    """An opening that fails after it has opened the volume for writing leaves no handle that nobody closes."""
    world.fail("open_reader", IO, 1)  # the first one finds no volume
    with refused("SQLITE_CANTOPEN"):
        world.open()
    world.fail("open_reader", NO_QUORUM)
    ours = world.open()
    assert [world.calls(call) for call in ("open_writer", "close")] == [2, 1]
    ours.execute("create table t(a)")
    assert world.calls("open_writer") == 2 and is_whole(ours)


def check_swapped_writer(world):
    """Another process fences this one while a connection is in a write transaction, and a second connection then opens the volume again: the
    transaction's commit fails, what the other process has committed stays, and a new connection may write."""
    for mode, locking, end in itertools.product(("full", "off"), ("normal", "exclusive"), ("commit", "rollback")):
        name = f"{mode} {locking} {end}"
        made(world, name)
        ours, other = world.open(name), world.open(name)
        ours.executescript(f"pragma synchronous = {mode}; pragma locking_mode = {locking}")
        change(ours, 2)
        ours.execute("begin immediate")
        change(ours, 1)
        world.ask("work_change_to", name, 51)
        world.fail("newest", NO_QUORUM, 1)  # so the reader says, after the writer was found fenced, that nothing is proved
        opened = world.calls("open_writer")
        assert one(other, "select b from t where a = 1") == "changed 51"
        assert world.calls("open_writer") == opened + 1
        if end == "commit":
            with refused("SQLITE_IOERR_LOCK", "lock for writing was lost", ours):
                ours.execute("commit")
        else:
            ours.execute("rollback")
        assert not ours.in_transaction
        if locking == "exclusive":
            ours.close()
            ours = world.open(name)
        third = world.open(name)
        assert [one(it, "select b from t where a = 1") for it in (ours, other, third)] == ["changed 51"] * 3
        change(third, 101)
        for it in (ours, other, third):
            assert one(it, "select b from t where a = 1") == "changed 101" and is_whole(it)


def check_repeated_points(world):
    """A commit that was lost may have the point of another engine's: no connection takes one for the other, also where its first look fails."""
    for call in ("no", "newest", "header"):
        made(world, call)
        ours, other = world.open(call), world.open(call)
        ours.execute("pragma synchronous = off")
        change(ours, 1)
        assert content(other) == content(ours)
        lost = point(other)
        world.ask("work_change_to", call, 51)
        if call != "no":
            world.fail(call, IO)
            with refused("SQLITE_IOERR_READ"):
                content(other)
        assert one(other, "select b from t where a = 1") == "changed 51" and is_whole(other)
        assert point(other) == lost


def check_repeated_base(world):
    """A transaction has read a commit that was lost, and another engine's has its point: it does not write over that one."""
    made(world)
    ours, other = world.open(), world.open()
    ours.execute("pragma synchronous = off")
    change(ours, 1)
    other.execute("begin")
    assert one(other, "select b from t where a = 1") == "changed 1"
    lost = point(other)
    ours.execute("pragma synchronous = full")
    world.doubt(False)
    with refused("SQLITE_IOERR_FSYNC"):
        change(ours, 2)
    world.ask("work_change_to", "volume", 51)
    with refused("SQLITE_BUSY_SNAPSHOT"):
        change(other, 3)
    other.execute("rollback")
    assert one(other, "select b from t where a = 1") == "changed 51" and point(other) == lost
    for number, it in enumerate((ours, other)):
        change(it, 4 + number)
        assert content(ours) == content(other) == content(world.open()) and is_whole(it)


def check_lost_snapshot(world):
    """A transaction that reads a commit which was lost fails where it must fetch a page, and sees no other commit at its point. Where the commit
    is durable it reads on."""
    for mode, locking in itertools.product(("full", "off"), ("normal", "exclusive")):
        name = f"{mode} {locking}"
        made(world, name)
        ours, other = world.open(name), world.open(name)
        ours.executescript(f"pragma synchronous = {mode}; pragma locking_mode = {locking}")
        ours.execute("update t set b = 'first' where a = 1")
        reader = ours if locking == "exclusive" else other
        rows = reader.execute("select b from t")
        found, now = [rows.fetchone()], point(reader)
        assert found == [("first",)] and now == point(ours)
        world.ask("work_changes", name, now)
        if mode == "full":
            assert found + rows.fetchall() == [("first",)] + [("0" * 200,)] * 399
        else:
            with refused("SQLITE_IOERR_READ", "lost", reader):
                rows.fetchall()
        if locking == "exclusive":
            ours.close()
        assert one(other, "select b from t where a = 1") == "changed 101" and is_whole(other)


def work_changes(world, name, point_):
    """Changes all rows, in commits that go beyond a point."""
    ours = world.open(name)
    for number in range(100, 150):
        change(ours, number)
    assert point(ours) > int(point_)
