"""What a storage server must keep, as checks of a program: the tests run them, and run them over mutants of it, which they must find.

Each check has a folder of its own, the library that plays the disk, and a generator of random numbers.
"""

import contextlib
import errno
import itertools
import threading
import time

from harness.store_files import birth, entries, log
from harness.stores import Store, until
from model.facts import PAGE_LEN, Advance, Record, Write
from model.wire import fact_bytes

PAGES = 4

# A log of one chain


def written(number):
    """What a record writes, at an offset."""
    return 2 * (number % 500), number.to_bytes(4, "big")[2:]


def take(number):
    record = Record(0, number, number - 1, number % PAGES, max(0, number - PAGES), False, (Write(*written(number)),))
    return b"take " + fact_bytes(record)


def takes(first, last):
    return [take(number) for number in range(first, last + 1)]


def replayed(last, page):
    image = bytearray(PAGE_LEN)
    for number in range(1, last + 1):
        if number % PAGES == page:
            offset, data = written(number)
            image[offset : offset + len(data)] = data
    return b"page " + image


def reads(last):
    """The reads of all pages."""
    return [f"read {page} {last} 0 {PAGE_LEN}".encode() for page in range(PAGES)]


def shows(client, last):
    """Whether each page is that of a plain replay."""
    return all(client.ask(it) == replayed(last, page) for page, it in enumerate(reads(last)))


def advance(point):
    return b"take " + fact_bytes(Advance(0, 1, point))


def told(client, requests):
    """The answers to requests that come at once."""
    client.send(*requests)
    return [client.answer() for _ in requests]


class Writer(threading.Thread):
    """Sends records after the acknowledged ones until its server dies, and counts those that an answer acknowledges: to a take, or to a front."""

    def __init__(self, client, last, choose):
        super().__init__(daemon=True)
        self.client, self.acknowledged, self.choose = client, last, choose

    def run(self):
        with contextlib.suppress(OSError):
            while True:
                first, last = self.acknowledged + 1, self.acknowledged + self.choose.randrange(1, 30)
                more = self.choose.choice([[], [advance(max(1, last // 2)), b"front"]])
                answers = told(self.client, [*takes(first, last), *more])
                self.acknowledged += len([*itertools.takewhile(lambda it: it == b"changed", answers[: last - first + 1])])
                if answers[-1] is None:
                    return
                assert self.acknowledged == last and (not more or answers[-1].startswith(b"front 0 %d " % last)), answers


def check_kills(program, folder, disk, choose):
    """What was acknowledged is there after each kill, although all that was not flushed is gone."""
    with contextlib.closing(Store(program, folder, "--snapshot-after", 4096, shim=disk, DISK_DELAY=2000)) as it:
        acknowledged, end = 0, time.monotonic() + 4
        for place in range(100):
            if place >= 6 and acknowledged and time.monotonic() > end:
                break
            it.start()
            client = it.client()
            complete = client.complete()
            assert complete >= acknowledged, f"{acknowledged} acknowledged, {complete} there after kill {place}"
            writer = Writer(client, complete, choose)
            writer.start()
            time.sleep(choose.random() * 0.2)
            it.kill()
            writer.join()
            acknowledged = writer.acknowledged
            it.lose_unflushed()
        it.start()
        complete = it.client().complete()
        assert complete >= acknowledged and shows(it.client(), complete)
        return acknowledged


def check_damage(program, folder, disk, choose):
    """A byte that differs in the middle of a log is found, whichever it is, and the file stays as it is."""
    with contextlib.closing(Store(program, folder)) as it:
        it.start()
        client = it.client()
        for number in range(1, 6):
            assert client.ask(take(number)) == b"changed"
        it.kill()
        path = it.file("log")
        whole = path.read_bytes()
        places = entries(whole)
        payload = [places[3] - 1, places[4] - 2]  # bytes that the records write
        for place in payload + choose.sample(range(places[-2]), 4):
            text = bytearray(whole)
            text[place] ^= 1 << choose.randrange(8)
            path.write_bytes(text)
            status, said = it.refused()
            assert status == 4 and "is damaged at byte" in said, (place, status, said)
            assert path.read_bytes() == text
        path.write_bytes(whole)
        it.start()
        assert it.ask(b"front") == b"front 0 5 0"


def check_answers(program, folder, disk, choose):
    """A log whose requests are not answered as they were is refused."""
    with contextlib.closing(Store(program, folder)) as it:
        it.data.mkdir(parents=True)
        (it.data / "birth").write_bytes(birth(7))
        (it.data / "log.0").write_bytes(log(0, [[b"open 1"], takes(1, 3)]))
        it.start()
        assert it.ask(b"front") == b"front 0 3 0"
        it.kill()
        for wrong in (take(2), b"front", b"bogus", b"unite"):
            text = log(0, [[b"open 1"], [*takes(1, 3), wrong], [take(4)]])
            (it.data / "log.0").write_bytes(text)
            status, said = it.refused()
            assert status == 4 and "the node answered `" in said, (wrong, status, said)
            assert (it.data / "log.0").read_bytes() == text


def check_full(program, folder, disk, choose):
    """While the disk is full nothing is acknowledged; then all goes on, and what was acknowledged is there."""
    with contextlib.closing(Store(program, folder, shim=disk)) as it:
        it.start()
        client = it.client()
        assert told(client, takes(1, 10)) == [b"changed"] * 10
        assert until(lambda: it.metrics()["yieldcleat_front_complete"] == 10)
        it.full.touch()
        assert set(told(client, [*takes(11, 20), b"front"])) == {b"disk full"}
        assert client.ask(b"front") == b"disk full"
        assert b"THE DISK IS FULL" in client.ask(b"report")
        seen = it.metrics()
        assert seen["yieldcleat_disk_full"] == 1 and seen["yieldcleat_front_complete"] == 10
        it.full.unlink()
        assert until(lambda: it.metrics()["yieldcleat_disk_full"] == 0)
        assert told(client, takes(11, 30))[-10:] == [b"changed"] * 10
        it.full.touch()
        assert client.ask(take(31)) == b"disk full"
        it.kill()
        it.full.unlink()
        it.start()
        assert it.client().complete() == 30 and shows(it.client(), 30)
        assert "until there is room" in it.log() and "the disk has room again" in it.log()


def check_refused(program, folder, disk, _choose):
    """Where a flush has failed, the system may show bytes that the disk does not have. No start takes them for an entry."""
    with contextlib.closing(Store(program, folder, shim=disk)) as it:
        it.data.mkdir(parents=True)
        (it.data / "birth").write_bytes(birth(7))
        flushed, shown = [[b"open 1"], takes(1, 3)], [[b"open 1"], takes(1, 3), takes(4, 6)]
        (it.data / "log.0").write_bytes(log(0, shown))
        it.settings |= {"DISK_FAIL_FLUSH": 1, "DISK_HAS": len(log(0, flushed))}
        assert it.refused()[0] == 4 and (it.data / "log.0").read_bytes() == log(0, shown)
        it.settings["DISK_FAIL_FLUSH"] = 0
        it.start()
        assert it.ask(b"front") == b"front 0 3 0"
        assert it.ask(take(4)) == b"changed"


def check_full_at_flush(program, folder, disk, _choose):
    """A disk that says only at a flush that it is full."""
    with contextlib.closing(Store(program, folder, shim=disk)) as it:
        it.start()
        assert it.stop() == 0
        it.settings |= {"DISK_FAIL_FLUSH": 3, "DISK_FAIL_ERROR": errno.ENOSPC}
        it.start()
        client = it.client()
        assert client.ask(take(1)) == b"disk full"
        assert until(lambda: it.metrics()["yieldcleat_disk_full"] == 0)
        assert told(client, takes(1, 2)) == [b"unchanged", b"changed"]
        it.kill()
        it.lose_unflushed()
        it.start()
        assert it.ask(b"front") == b"front 0 2 0"


def check_lock(program, folder, _disk, _choose):
    """A second process over the same files is refused, and the first one goes on."""
    one, other = Store(program, folder), Store(program, folder.with_name("second"))
    with contextlib.closing(one), contextlib.closing(other):
        one.start()
        assert one.ask(take(1)) == b"changed"
        other.data = one.data
        status, said = other.refused()
        assert status == 3 and "is open in another store" in said
        assert one.ask(take(2)) == b"changed" and one.ask(b"front") == b"front 0 2 0"


def check_readers(program, folder, disk, _choose):
    """A segment keeps one snapshot, so a second reader waits until the first has left."""
    with contextlib.closing(Store(program, folder, shim=disk).start()) as it:
        one, other = it.client(), it.client()
        assert told(one, takes(1, 20)) == [b"changed"] * 20
        assert it.ask(b"freeze 1").startswith(b"frozen ")  # that connection has ended
        assert until(lambda: one.ask(b"freeze 7").startswith(b"frozen "))
        assert [other.ask(b"freeze 8"), one.ask(b"freeze 9")[:7]] == [b"busy", b"frozen "]
        assert other.ask(b"piece 0") == one.ask(b"piece 0")
        one.close()
        assert until(lambda: other.ask(b"freeze 8").startswith(b"frozen "))
