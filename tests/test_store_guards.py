"""The guard of a storage server: kept over kills and snapshots, and lost together with the files."""

import shutil

import pytest

from harness.store_checks import advance, take, takes, told
from harness.stores import until

pytestmark = pytest.mark.xdist_group("store")


def birth_of(it):
    return int(it.ask(b"status").split()[2])


def test_a_guard_comes_back(store):
    it = store().start()
    birth = birth_of(it)
    assert it.ask(b"status") == b"status 0 %d 0 0 0 0" % birth
    assert it.ask(b"fence 2") == b"fresh %d" % birth
    for request, answer in [
        (b"admit 1 %d 0 0" % (birth ^ 1), b"stranger %d" % birth),
        (b"admit 1 %d 0 5" % birth, b"behind 0 0"),
        (b"admit 1 %d 0 0" % birth, b"admitted 1 %d" % birth),
        (b"admit 1 %d 0 0" % birth, b"member"),
        (b"fence 3", b"fenced 3 %d" % birth),
        (b"fence 3", b"stale 3"),
        (b"as 3 %d " % birth + take(1), b"as 3 %d changed" % birth),
        (b"as 2 %d " % birth + take(2), b"stale 3"),
        (b"as 3 %d front" % birth, b"as 3 %d front 0 1 0" % birth),
        (b"as 3 %d finish" % birth, b"unguarded"),
        (b"propose 3 %d 1 1 4" % birth, b"accepted 3 %d 1" % birth),
        (b"as 3 %d many " % birth, b"bad request"),
    ]:
        assert it.ask(request) == answer
    status = b"status 3 %d 1 0 1 0 3 1 1 4" % birth
    assert it.ask(b"status") == status
    it.restart()
    assert it.ask(b"status") == status
    assert it.ask(b"propose 3 %d 1 0 4" % birth) == b"accepted 3 %d 1" % birth
    seen = it.metrics()
    assert until(lambda: it.metrics()["yieldcleat_guard_accepted_epoch"] == 1)
    assert (seen["yieldcleat_guard_member"], seen["yieldcleat_guard_generation"]) == (1, 3)


def test_a_snapshot_has_the_guard(store):
    it = store("one", "--snapshot-after", 4096).start()
    birth = birth_of(it)
    assert it.ask(b"admit 5 %d 0 0 4 2 7 9" % birth) == b"admitted 5 %d" % birth
    client = it.client()
    assert told(client, [b"as 5 %d " % birth + request for request in takes(1, 300)]) == [b"as 5 %d changed" % birth] * 300
    assert until(lambda: it.metrics()["yieldcleat_snapshots_total"] >= 1)
    assert told(client, [b"fence 6", b"as 6 %d " % birth + advance(200)]) == [b"fenced 6 %d 4 2 7 9" % birth, b"as 6 %d changed" % birth]
    it.kill()
    assert not (it.data / "log.0").exists()
    it.start()
    assert it.ask(b"status") == b"status 6 %d 1 0 300 200 4 2 7 9" % birth


def test_a_node_without_its_files_is_no_member(store):
    it = store().start()
    birth = birth_of(it)
    assert it.ask(b"admit 1 %d 0 0" % birth) == b"admitted 1 %d" % birth
    it.kill()
    shutil.rmtree(it.data)
    it.start()
    other = birth_of(it)
    assert other != birth and it.ask(b"status") == b"status 0 %d 0 0 0 0" % other
    assert it.ask(b"admit 1 %d 0 0" % birth) == b"stranger %d" % other
    it.kill()
    (it.data / "birth").unlink()
    status, said = it.refused()
    assert status == 4 and "is missing" in said
