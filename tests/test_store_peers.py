"""Storage servers of `store/` that gossip with each other, and the status and metrics of a server."""

import shutil
import signal
import time
import urllib.error
import urllib.request

import pytest

from harness.store_checks import advance, shows, takes, told
from harness.stores import until

pytestmark = pytest.mark.xdist_group("store")  # which builds the program once


def pair(store, *words):
    one, other = store("one"), store("other")
    for it, peer in ((one, other), (other, one)):
        it.words = ("--peer", peer.address, "--gossip-every", 20, *words)
    return one.start(), other.start()


def equal(one, other, front):
    return until(lambda: one.ask(b"front") == other.ask(b"front") == front)


def test_two_stores_gossip(store):
    one, other = pair(store)
    assert told(one.client(), takes(1, 100)[::2]) == [b"changed"] * 50
    assert told(other.client(), [*takes(1, 100)[1::2], advance(40)]) == [b"changed"] * 51
    assert equal(one, other, b"front 0 100 40")
    assert shows(one.client(), 100) and shows(other.client(), 100)
    # Gossip without news writes nothing.
    time.sleep(0.3)
    lengths = [it.file("log").stat().st_size for it in (one, other)]
    time.sleep(0.3)
    assert lengths == [it.file("log").stat().st_size for it in (one, other)]
    name = f'{{peer="{other.address}"}}'
    other.kill()
    assert until(lambda: one.metrics()[f"yieldcleat_peer_up{name}"] == 0)
    assert told(one.client(), takes(101, 120)) == [b"changed"] * 20
    other.start()
    assert equal(one, other, b"front 0 120 40")
    assert until(lambda: one.metrics()[f"yieldcleat_peer_up{name}"] == 1)
    assert until(lambda: one.metrics()[f"yieldcleat_peer_lag{name}"] == 0)


def test_a_wiped_store_is_whole_again(store):
    one, other = pair(store, "--gossip-bytes", 4000)
    for first in range(1, 2000, 100):
        assert told(one.client(), takes(first, first + 99)) == [b"changed"] * 100
    assert equal(one, other, b"front 0 2000 0")
    other.kill()
    shutil.rmtree(other.data)
    other.start()
    assert equal(one, other, b"front 0 2000 0") and shows(other.client(), 2000)
    assert other.metrics()[f'yieldcleat_peer_snapshots_total{{peer="{one.address}"}}'] >= 1
    other.kill()
    other.words = ()
    other.start()
    assert other.ask(b"front") == b"front 0 2000 0" and shows(other.client(), 2000)


def test_a_long_delta_of_a_peer_that_lags_is_written_once(store):
    """A peer that lacks a record sends what it has above that again and again."""
    one, other = store("one"), store("other").start()
    one.words = ("--peer", other.address, "--gossip-every", 20)
    one.start()
    for it, facts in ((one, takes(1, 3000)), (other, takes(2, 3000))):
        assert told(it.client(), [*facts, advance(3000)]) == [b"changed"] * (len(facts) + 1)
    rounds = f'yieldcleat_peer_rounds_total{{peer="{other.address}"}}'
    begun, length = one.metrics()[rounds], one.file("log").stat().st_size
    assert until(lambda: one.metrics()[rounds] >= begun + 2)
    assert one.file("log").stat().st_size - length < 1_000_000
    length = one.file("log").stat().st_size
    assert until(lambda: one.metrics()[rounds] >= begun + 4)
    assert one.file("log").stat().st_size == length


def test_two_stores_become_whole_at_once(store):
    """Both read snapshots of one peer, which keeps one at a time."""
    one = store("one", "--gossip-bytes", 4000).start()
    for first in range(1, 2000, 100):
        assert told(one.client(), takes(first, first + 99)) == [b"changed"] * 100
    others = [store(name, "--peer", one.address, "--gossip-every", 20, "--gossip-bytes", 4000) for name in ("two", "three")]
    for it in others:
        it.run()
    for it in others:
        it.wait()
    for it in others:
        assert equal(it, one, b"front 0 2000 0") and shows(it.client(), 2000)


def test_a_stopped_peer_stops_nobody(store):
    one, other = pair(store, "--patience", 300)
    other.process.send_signal(signal.SIGSTOP)
    assert told(one.client(), takes(1, 50)) == [b"changed"] * 50
    assert until(lambda: one.metrics()[f'yieldcleat_peer_up{{peer="{other.address}"}}'] == 0)
    other.process.send_signal(signal.SIGCONT)
    assert equal(one, other, b"front 0 50 0")


# Status and metrics


def test_metrics_over_http(store):
    it = store("one", "--metrics", "127.0.0.1:0").start()
    address = next(line.split()[-3] for line in it.log().splitlines() if line.endswith("for metrics"))
    assert told(it.client(), [*takes(1, 40), advance(20)]) == [b"changed"] * 41
    assert until(lambda: it.metrics()["yieldcleat_front_complete"] == 40)
    with urllib.request.urlopen(f"http://{address}/metrics", timeout=10) as answer:
        text = answer.read().decode()
    names = [line.split()[2] for line in text.splitlines() if line.startswith("# TYPE")]
    assert len(names) == len(set(names)) and all(line.startswith(("#", "yieldcleat_")) for line in text.splitlines())
    buckets = [float(line.split()[-1]) for line in text.splitlines() if line.startswith("yieldcleat_fsync_seconds_bucket")]
    assert buckets == sorted(buckets) and buckets[-1] >= 1
    with urllib.request.urlopen(f"http://{address}/report", timeout=10) as answer:
        assert b"front: epoch 0, complete 40, minimum read point 20" in answer.read()
    with pytest.raises(urllib.error.HTTPError):
        urllib.request.urlopen(f"http://{address}/other", timeout=10)


def test_pages_are_folded_in_the_background(store):
    it = store("one", "--fold-every", 5).start()
    assert told(it.client(), [*takes(1, 400), advance(300)]) == [b"changed"] * 401
    assert until(lambda: it.metrics()["yieldcleat_records_held"] <= 100)
    assert shows(it.client(), 400) and it.ask(b"read 0 200 0 1") == b"below 300"
