"""SQLite over real servers as others test it: scripts of the shell, Python's own tests of `sqlite3`, a large database, and Valgrind."""

import contextlib
import json
import re
import shlex
import subprocess
import sys

import pytest
import test_sqlite
from test_sqlite import SCRIPTS, needs_shell, needs_valgrind, shell
from test_sqlite_nodes import SECONDS, run

from harness import ROOT, environment, ran
from harness.sqlite_cluster import Cluster
from harness.sqlite_python import NOT_FOR_VOLUMES, folder_of_tests
from harness.store_checks import advance, take, takes, told
from harness.stores import Store, until

pytestmark = [pytest.mark.xdist_group("sqlite_suites"), *test_sqlite.pytestmark[1:]]
VALGRIND = ["valgrind", "--quiet", "--error-exitcode=99", "--leak-check=full", "--show-leak-kinds=definite", "--errors-for-leak-kinds=definite"]


@pytest.fixture
def cluster(store_program, disk, tmp_path):
    with contextlib.closing(Cluster(store_program, tmp_path / "servers", disk)) as made:
        made.start()
        yield made


@needs_shell
@pytest.mark.parametrize("name", SCRIPTS)
def test_shell_over_servers(cluster, extension, tmp_path, name):
    ours = shell(extension, SCRIPTS[name], tmp_path / "ours", place=cluster.folder / "volume")
    assert ours == shell(None, SCRIPTS[name], tmp_path / "plain")


@needs_shell
def test_demo(parts, tmp_path):
    """The conversation of the README."""
    extension, store, _ = parts
    settings = environment(YIELDCLEAT_EXTENSION=extension, YIELDCLEAT_STORE=store, YIELDCLEAT_DEMO=tmp_path)
    section = (ROOT / "README.md").read_text().split("## SQLite without a file")[1].split("\n## ")[0]
    conversation = re.findall(r"^    \$ (.*)\n((?:    (?!\$).*\n)*)", section, re.MULTILINE)
    assert len(conversation) == 3
    try:
        for command, said in conversation:
            expected = re.sub("^    ", "", said, flags=re.MULTILINE).replace("/tmp/yieldcleat-demo", str(tmp_path))
            assert ran(shlex.split(command), cwd=ROOT, env=settings) == (expected, "")
    finally:
        subprocess.run(["sqlite/demo", "stop"], cwd=ROOT, env=settings, timeout=SECONDS, check=True, stdout=subprocess.DEVNULL)


# Python's own tests


def failed(folder, *words):
    """The tests that fail, and why."""
    tests = folder_of_tests()
    if not tests:
        pytest.skip(f"no Python {sys.version_info[0]}.{sys.version_info[1]} with test.test_sqlite3 is on the path")
    folder.mkdir()
    output, _ = ran([sys.executable, "-m", "harness.sqlite_python", tests, folder, *words], cwd=ROOT / "tests")
    found = json.loads(output.splitlines()[-1])
    assert found["count"] > 400
    return found["failed"]


@pytest.fixture(scope="module")
def failed_over_files(tmp_path_factory):
    """Those that this Python fails too: they may be of another patch level, and expect memory in place of a file."""
    return failed(tmp_path_factory.mktemp("files") / "s")


@pytest.mark.parametrize("over", ["double", "servers"])
def test_python(over, failed_over_files, request, tmp_path):
    words = [request.getfixturevalue("double")] if over == "double" else request.getfixturevalue("parts")
    found = failed(tmp_path / "s", *words)
    wrong = {name: why for name, why in found.items() if name not in failed_over_files and name not in NOT_FOR_VOLUMES}
    assert not wrong, "\n".join(f"{name}\n{why}" for name, why in wrong.items())
    assert set(NOT_FOR_VOLUMES) <= set(found), "a test that is listed passes"


# Much data


def test_large_database(parts, tmp_path, seed):
    run("sqlite_large", *parts, tmp_path, seed, 3)


# Valgrind


@needs_shell
@needs_valgrind
def test_shell_over_servers_under_valgrind(cluster, extension, tmp_path):
    """The extension, the driver and the proved machine. The threads of a writer that a process keeps are no leak."""
    ours = shell(extension, SCRIPTS["first"], tmp_path / "ours", VALGRIND, place=cluster.folder / "volume")
    assert ours == shell(None, SCRIPTS["first"], tmp_path / "plain")


@needs_valgrind
def test_store_under_valgrind(store_program, tmp_path):
    """A server and its proved segment: facts, reads, gossip with a peer, a snapshot, a restart and a graceful end."""
    watched = tmp_path / "watched"
    watched.write_text(f"#!/bin/sh\nexec {' '.join(VALGRIND)} {store_program} \"$@\"\n")
    watched.chmod(0o755)
    peer = Store(store_program, tmp_path / "peer").start()
    it = Store(watched, tmp_path / "one", "--snapshot-after", 4096, "--gossip-every", 50, "--peer", peer.address)
    with contextlib.closing(peer), contextlib.closing(it):
        it.start()
        client = it.client()
        assert told(client, takes(1, 150)) == [b"changed"] * 150
        assert told(client, [advance(60), b"read 7 150 0 64"])[1].startswith(b"page ")
        assert told(peer.client(), takes(151, 200)) == [b"changed"] * 50
        assert until(lambda: it.ask(b"front").split()[2] == b"200" and it.metrics()["yieldcleat_snapshots_total"] >= 1)
        assert it.stop() == 0, it.log()
        it.start()
        assert it.ask(b"front") == b"front 0 200 60" and it.ask(take(200)) == b"unchanged"
        assert it.stop() == 0, it.log()
