"""The storage server of `store/` as processes: requests, kills, spoiled files, full disks, signals and limits."""

import contextlib
import os
import shutil
import signal
import socket
import subprocess
import time
from concurrent.futures import ThreadPoolExecutor

import pytest

from harness import rounds
from harness.store_checks import Writer, check_answers, check_damage, check_full, check_full_at_flush, check_kills, check_lock, check_refused
from harness.store_checks import shows, take, takes, told
from harness.stores import Client, until
from model.wire import framed

pytestmark = pytest.mark.xdist_group("store")  # which builds the program once


# Requests and answers


def test_requests_over_both_sockets(store):
    it = store("one", "--listen", "127.0.0.1:0").start()
    address = next(line.split()[-1] for line in it.log().splitlines() if "127.0.0.1:" in line)
    one, other = it.client(), Client(address)
    assert told(one, [*takes(1, 50), b"front"]) == [*[b"changed"] * 50, b"front 0 50 0"]
    assert told(other, [*takes(50, 60), b"front"]) == [b"unchanged", *[b"changed"] * 10, b"front 0 60 0"]
    assert other.ask(b"many " + framed([take(61), b"front"])) == framed([b"changed", b"front 0 61 0"])
    assert shows(one, 61) and shows(other, 61)


def test_what_is_no_request(store):
    it = store().start()
    client = it.client()
    for request in (b"", b"bogus", b"many x", b"read 0 0 0 0"):
        assert client.ask(request) == b"bad request"
    for request in (b"open 1", b"finish", b"many " + framed([b"front", b"open 2"])):
        assert client.ask(request) == b"not allowed"
    client.socket.sendall(framed([b"front"]) + b"\0\0\0\x09tak")
    client.socket.shutdown(socket.SHUT_WR)
    assert (client.answer(), client.answer()) == (b"front 0 0 0", None)
    assert it.ask(b"front") == b"front 0 0 0"


def test_limits(store):
    it = store("one", "--frame-bytes", 1000, "--memory-bytes", 4096, "--connections", 2, "--patience", 300).start()
    one, other = it.client(), it.client()
    assert told(one, [b"take " + bytes(1000), b"front", b"x" * 1000]) == [b"long frame", b"front 0 0 0", b"bad request"]
    assert other.ask(b"front") == b"front 0 0 0"
    third = it.client()
    assert (third.answer(), third.answer()) == (b"busy", None)
    # A client that stalls within a frame is left, and its memory is free again.
    other.socket.sendall((1000).to_bytes(4, "big") + b"take")
    assert until(lambda: it.client().ask(b"front") == b"front 0 0 0")
    time.sleep(0.1)
    seen = it.metrics()
    assert seen["yieldcleat_request_bytes_held"] <= 1000 and seen["yieldcleat_connections_refused_total"] >= 1
    # One that is silent between frames is not.
    time.sleep(0.5)
    assert one.ask(b"front") == b"front 0 0 0"


def test_an_idle_client_is_left(store):
    it = store("one", "--patience", 50, "--idle", 400).start()
    client = it.client()
    for _ in range(4):
        time.sleep(0.15)
        assert client.ask(b"front") == b"front 0 0 0"
    assert client.answer() is None
    assert it.ask(b"front") == b"front 0 0 0"


def test_an_idle_client_is_left_before_its_patience_ends(store):
    it = store("one", "--patience", 30_000, "--idle", 300).start()
    client = it.client()
    client.socket.settimeout(10)
    assert client.ask(b"front") == b"front 0 0 0" and client.answer() is None
    # Within a frame it may stall for longer.
    slow = it.client()
    slow.socket.sendall(b"\0\0\0\x05fr")
    time.sleep(0.6)
    slow.socket.sendall(b"ont")
    assert slow.answer() == b"front 0 0 0"


def test_a_client_that_reads_nothing_stops_nobody(store):
    it = store("one", "--patience", 500).start()
    greedy, other = it.client(), it.client()
    assert told(other, takes(1, 20)) == [b"changed"] * 20
    greedy.socket.settimeout(0.5)
    with contextlib.suppress(OSError):
        for _ in range(40):
            greedy.send(*[b"read 1 20 0 4096"] * 1000)
    assert other.ask(b"front") == b"front 0 20 0"
    assert until(lambda: it.metrics()["yieldcleat_connections"] == 2)


@pytest.mark.parametrize(
    "words",
    [
        (),
        ("--data",),
        ("--data", "x"),
        ("--data", b"\xff", "--listen", "unix:y"),
        ("--data", "x", "--listen", "nowhere"),
        ("--data", "x", "--listen", "unix:y", "--queue", "0"),
        ("--no",),
    ],
)
def test_bad_command_lines(store_program, tmp_path, words):
    done = subprocess.run([store_program, *words], capture_output=True, cwd=tmp_path, check=False)
    assert (done.returncode, done.stdout) == (2, b"") and b"--help shows" in done.stderr
    assert not any(tmp_path.iterdir())


def test_help_and_version(store_program):
    for word, wanted in (("--help", b"--listen ADDR"), ("--version", b"yieldcleat-store 1.")):
        done = subprocess.run([store_program, word], capture_output=True, check=False)
        assert (done.returncode, done.stderr) == (0, b"") and wanted in done.stdout


# Kills and spoiled files


def test_kills(store_program, disk, tmp_path, seed, seconds):
    for place, choose in enumerate(rounds(seed, "kills", seconds)):
        assert check_kills(store_program, tmp_path / str(place), disk, choose), f"seed {seed}, round {place}"


def test_a_torn_end_is_cut_off(store, rng):
    it = store().start()
    assert told(it.client(), takes(1, 9)) == [b"changed"] * 9
    kept = it.file("log").stat().st_size
    assert it.ask(take(10)) == b"changed"
    it.kill()
    path = it.file("log")
    for length in sorted(rng.sample(range(kept + 1, path.stat().st_size), 5), reverse=True):
        os.truncate(path, length)
        it.start()
        assert it.ask(b"front") == b"front 0 9 0" and f"{length - kept} bytes of an entry" in it.log()
        assert it.ask(take(10)) == b"changed"
        it.kill()


@pytest.mark.parametrize("check", [check_damage, check_answers, check_full, check_full_at_flush, check_refused, check_lock])
def test_what_mutants_break(store_program, disk, tmp_path, rng, check):
    """The checks in which the mutants of `test_store_mutants.py` are found."""
    check(store_program, tmp_path / "one", disk, rng)


def test_a_missing_snapshot_is_refused(store):
    it = store("one", "--snapshot-after", 4096).start()
    client = it.client()
    assert told(client, takes(1, 400)) == [b"changed"] * 400
    assert until(lambda: it.metrics()["yieldcleat_snapshots_total"] >= 1)
    assert told(client, takes(401, 410)) == [b"changed"] * 10
    it.restart()
    assert shows(it.client(), 410)
    it.kill()
    it.file("snapshot").unlink()
    status, said = it.refused()
    assert status == 4 and "is missing" in said


# The disk


def test_a_small_disk(store):
    """A file system that is really full, and then has room again."""
    it = store()
    it.data.mkdir()
    mount = ["mount", "-t", "tmpfs", "-o", "size=400k", "tmpfs", it.data]
    if not shutil.which("mount") or subprocess.run(mount, capture_output=True, check=False).returncode:
        pytest.skip("no file system can be mounted")
    try:
        (it.data / "ballast").write_bytes(bytes(200_000))
        client, last = it.start().client(), 0
        while client.ask(take(last + 1)) == b"changed":
            last += 1
        assert last > 100 and client.ask(take(last + 1)) == b"disk full"
        (it.data / "ballast").unlink()
        assert until(lambda: it.metrics()["yieldcleat_disk_full"] == 0)
        assert client.ask(take(last + 2)) == b"changed"
        it.restart()
        assert it.client().complete() == last + 2 and shows(it.client(), last + 2)
        it.kill()
    finally:
        it.close()
        subprocess.run(["umount", it.data], check=True)


def test_the_name_of_a_new_folder_is_flushed(store, disk):
    """By a later start too, where the flush of the first one has failed."""
    it = store("one", shim=disk, DISK_FAIL_FLUSH=1)
    assert it.refused()[0] == 4 and it.data.exists()
    it.settings["DISK_FAIL_FLUSH"] = 0
    it.start()
    assert any(line.endswith(f" {it.folder}") for line in it.flushed.read_text().splitlines())


def test_one_flush_for_all_that_wait(store, disk):
    it = store("one", shim=disk, DISK_DELAY=20_000).start()
    clients = [it.client() for _ in range(16)]
    before = it.metrics()["yieldcleat_fsync_seconds_count"]

    def answers(place):
        return [clients[place].ask(take(1 + 16 * step + place)) for step in range(5)]

    with ThreadPoolExecutor(16) as pool:
        assert list(pool.map(answers, range(16))) == [[b"changed"] * 5] * 16
    flushes = it.metrics()["yieldcleat_fsync_seconds_count"] - before
    assert flushes <= 40, "80 requests of 16 clients share flushes"
    assert it.ask(b"front") == b"front 0 80 0"


# Several processes


def test_an_address_that_is_taken(store):
    it, other = store().start(), store("other")
    other.socket = it.socket
    status, said = other.refused()
    assert status == 6 and "cannot listen at" in said
    assert it.ask(b"front") == b"front 0 0 0"


@pytest.mark.parametrize("number", [signal.SIGTERM, signal.SIGINT])
def test_a_signal_ends_it_well(store, number, rng):
    it = store().start()
    writer = Writer(it.client(), 0, rng)
    writer.start()
    assert until(lambda: writer.acknowledged > 50)
    assert it.stop(number) == 0 and "ended" in it.log()
    writer.join(10)
    assert not it.socket.exists()
    it.start()
    assert it.client().complete() >= writer.acknowledged > 50
