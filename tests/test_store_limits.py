"""A storage server in trouble that passes: slow clients, long answers, refused connections, limits of the system, and stagings that stay."""

import contextlib
import errno
import fcntl
import os
import resource
import subprocess
import threading
import time

import pytest

from harness import SECONDS, environment
from harness.shims import built
from harness.store_checks import shows, take, takes, told
from harness.stores import Client, until
from model.facts import PAGE_LEN, Record, Write
from model.wire import fact_bytes, framed

pytestmark = pytest.mark.xdist_group("store")  # which builds the program once


@pytest.fixture(scope="module")
def faults(tmp_path_factory):
    return built("store_faults", tmp_path_factory.mktemp("faults"))


def fill(client, pages, heading=b""):
    """Writes so many whole pages."""
    for number in range(1, pages + 1):
        record = Record(0, number, number - 1, number, 0, False, (Write(0, bytes([number]) * PAGE_LEN),))
        assert client.ask(heading + b"take " + fact_bytes(record)) == heading + b"changed"


# Clients


def drip(client, gone):
    """Sends a byte now and then until the server has closed the connection."""
    with contextlib.suppress(OSError):
        while True:
            client.socket.sendall(b"x")
            time.sleep(0.05)
    gone.append(client)


def test_slow_clients_stop_nobody(store):
    it = store("one", "--frame-bytes", 200_000, "--memory-bytes", 200_000, "--patience", 500).start()
    slow, gone = [it.client() for _ in range(3)], []
    for client, sent in zip(slow, (1, 70_000, 70_000), strict=True):
        client.socket.sendall((200_000).to_bytes(4, "big") + bytes(sent))
        threading.Thread(target=drip, args=(client, gone), daemon=True).start()
    client = it.client()
    client.socket.settimeout(10)
    assert client.ask(b"front") == b"front 0 0 0"
    assert client.ask(b"x" * 150_000) == b"bad request"
    assert until(lambda: len(gone) == 3) and it.metrics()["yieldcleat_request_bytes_held"] == 0


def sip(client, done):
    """Reads a little of an answer now and then."""
    with contextlib.suppress(OSError):
        while not done.is_set() and client.socket.recv(2000):
            time.sleep(0.02)


def test_who_reads_slowly_holds_no_memory_of_requests(store):
    it, done = store("one", "--frame-bytes", 200_000, "--memory-bytes", 200_000).start(), threading.Event()
    slow, client = it.client(), it.client()
    slow.send(b"many " + framed([b"read 1 0 0 4096"] * 7000))
    threading.Thread(target=sip, args=(slow, done), daemon=True).start()
    time.sleep(0.5)
    client.socket.settimeout(10)
    assert client.ask(b"x" * 150_000) == b"bad request"
    done.set()


def test_a_slow_scraper_stops_nobody(store):
    it = store("one", "--metrics", "127.0.0.1:0").start()
    address = next(line.split()[-3] for line in it.log().splitlines() if line.endswith("for metrics"))
    slow, other, gone = Client(address), Client(address), []
    threading.Thread(target=drip, args=(slow, gone), daemon=True).start()
    other.socket.settimeout(15)
    other.socket.sendall(b"GET /metrics HTTP/1.1\r\n\r\n")
    assert other.answers.readline() == b"HTTP/1.1 200 OK\r\n"


def peak(it):
    """The most bytes of memory that the process has had."""
    with open(f"/proc/{it.process.pid}/status", encoding="ascii") as lines:
        return next(1024 * int(line.split()[1]) for line in lines if line.startswith("VmHWM"))


@pytest.mark.parametrize("is_guarded", [False, True])
def test_long_answers_are_not_held_all_at_once(store, is_guarded):
    """Requests come in one packet, and each of them is answered with all pages."""
    it = store().start()
    client = it.client()
    summary = client.ask(b"ask").removeprefix(b"summary ")
    birth = client.ask(b"status").split()[2]
    assert client.ask(b"admit 1 %s 0 0" % birth) == b"admitted 1 " + birth
    name = b"as 1 %s " % birth
    fill(client, 200, name)
    requests = [(name if is_guarded else b"") + b"answer " + summary] * 200
    before = peak(it)
    client.send(*requests, b"front")
    assert all(len(client.answer()) > 200 * PAGE_LEN for _ in requests)
    assert client.answer() == b"front 0 200 0"
    assert peak(it) - before < 100_000_000 < 200 * 200 * PAGE_LEN


# The system


def test_a_log_that_nobody_reads_stops_nobody(store_program, disk, tmp_path):
    """Each time that the disk is full and has room again the server writes two lines, and the pipe has room for a few."""
    reader, writer = os.pipe()
    fcntl.fcntl(writer, fcntl.F_SETPIPE_SZ, 4096)
    full, place = tmp_path / "full", tmp_path / "socket"
    command = [store_program, "--data", tmp_path / "data", "--listen", f"unix:{place}"]
    with subprocess.Popen(command, stderr=writer, env=environment(LD_PRELOAD=disk, DISK_FULL=full)) as process:
        try:
            assert until(place.exists)
            client = Client(f"unix:{place}")
            client.socket.settimeout(10)
            for number in range(1, 61):
                full.touch()
                assert client.ask(take(number)) == b"disk full"
                full.unlink()
                assert until(lambda number=number: client.ask(take(number)) == b"unchanged")
            process.terminate()
            assert process.wait(10) == 0
        finally:
            process.kill()
            os.close(reader)
            os.close(writer)


def test_an_error_of_accept_passes(store, faults):
    it = store("one", LD_PRELOAD=faults, REFUSE_ACCEPT=2, REFUSE_ERROR=errno.ENOBUFS).start()
    assert [it.ask(b"front"), it.ask(b"front")] == [b"front 0 0 0", None]
    client = it.client()
    client.socket.settimeout(10)
    assert client.ask(b"front") == b"front 0 0 0"


def test_a_socket_that_takes_nobody_ends_the_server(store, faults):
    it = store("one", LD_PRELOAD=faults, REFUSE_ACCEPT=2, REFUSE_ERROR=errno.EINVAL).start()
    assert [it.ask(b"front"), it.ask(b"front")] == [b"front 0 0 0", None]
    assert it.process.wait(10) == 6 and f"cannot listen at {it.address}" in it.log().splitlines()[-1]


def test_two_starts_at_one_time(store, faults):
    """The second one comes when the first one has drawn its birth, and has no log yet."""
    one = store("one", LD_PRELOAD=faults, UNLOCK_DELAY=1_000_000)
    other = store("other", LD_PRELOAD=faults, UNLOCK_DELAY=3_000_000)
    other.data = one.data
    one.run()
    assert until((one.data / "birth").exists)
    assert other.refused()[0] == 3
    one.wait()
    birth = one.ask(b"status").split()[2]
    assert one.ask(b"admit 1 %s 0 0" % birth) == b"admitted 1 " + birth
    one.restart()
    assert one.ask(b"status") == b"status 1 %s 1 0 0 0" % birth


def test_a_limit_on_file_sizes(store):
    it = store().start()
    client = it.client()
    assert told(client, takes(1, 10)) == [b"changed"] * 10
    limit = it.file("log").stat().st_size + 10
    resource.prlimit(it.process.pid, resource.RLIMIT_FSIZE, (limit, resource.RLIM_INFINITY))
    assert client.ask(take(11)) == b"disk full"
    resource.prlimit(it.process.pid, resource.RLIMIT_FSIZE, (resource.RLIM_INFINITY, resource.RLIM_INFINITY))
    assert until(lambda: client.ask(take(11)) == b"unchanged") and shows(client, 11)


# Snapshots


def made(it):
    """How many snapshots the server has made since it started."""
    return it.metrics().get("yieldcleat_snapshots_total", 0)


def test_a_staging_makes_no_snapshots_without_end(store):
    one, other = store("one").start(), store("other", "--snapshot-after", 20_000, "--fold-every", 5).start()
    source, client = one.client(), other.client()
    fill(source, 40)
    total = int(source.ask(b"freeze 7").split()[1])
    pieces = sorted((source.ask(b"piece %d" % place).removeprefix(b"piece ") for place in range(total)), key=len)
    assert client.ask(b"stage 7 %d" % total) == b"staged"
    assert told(client, [b"add " + piece for piece in pieces[1:]]) == [b"added"] * (total - 1)
    for _ in range(2):  # before a restart, and after it
        time.sleep(1)
        assert made(other) == 0
        other.restart()
    client = other.client()
    assert told(client, [b"add " + pieces[0], b"unite"]) == [b"added", b"united"]
    assert until(lambda: made(other) >= 1)
    assert client.ask(b"front") == source.ask(b"front")


def test_the_last_line_says_why_a_snapshot_failed(store):
    it = store("one", "--snapshot-after", 4096).start()
    (it.data / "snapshot.1/inside").mkdir(parents=True)
    with contextlib.suppress(OSError):
        told(it.client(), takes(1, 400))
    assert it.process.wait(SECONDS) == 4 and "snapshot.1: " in it.log().splitlines()[-1]
