"""Many rounds in several processes: where they end, and what they say of faults. The rounds here play nothing."""

import multiprocessing
import os
import signal
import sys
import time

from harness import ROOT, many_rounds
from harness.stores import until


class Idle:
    """Rounds that only count."""

    def __init__(self, _store, folder, _disk, seed, _snapshot_after):
        folder.mkdir()
        self.folder, self.seed, self.counts = folder, seed, {"rounds": 0, "deaths": 0}

    def play(self, round_):
        time.sleep(0.01)
        self.counts["rounds"] += 1
        self.counts["deaths"] += 2
        return self.wrong(round_)

    def wrong(self, _round):
        return ""

    def close(self):
        (self.folder / "closed").touch()


class Wrong(Idle):
    def wrong(self, round_):
        return "a commit is lost" if self.seed == "7/1 0" and round_ == 3 else ""


class Broken(Idle):
    def wrong(self, round_):
        assert round_ < 2, "a server does not start"
        return ""


class Playing:
    """`many_rounds` in a process of its own."""

    def __init__(self, folder, kind, *words):
        self.folder, self.said = folder / "rounds", folder / "said"
        self.process = multiprocessing.get_context("fork").Process(target=self.run, args=(kind, [str(self.folder), "--processes", "3", *words]))
        self.process.start()

    def run(self, kind, words):
        os.dup2(os.open(self.said, os.O_CREAT | os.O_WRONLY), 1)
        sys.stdout = os.fdopen(1, "w")
        sys.exit(many_rounds.main(words, kind))

    def text(self):
        return self.said.read_text() if self.said.exists() else ""

    def end(self):
        """The status, and what it has printed."""
        self.process.join()
        return self.process.exitcode, self.text().splitlines()


def test_ends_after_so_many_rounds(tmp_path):
    it = Playing(tmp_path, Idle, "--rounds", "60", "--every", "0.1")
    status, lines = it.end()
    assert status == 0 and lines[0].startswith("seed ") and lines[0].endswith(f": 3 processes in {it.folder}")
    assert lines[-1].startswith(lines[0].split(":")[0]) and " 0 faults; " in lines[-1]
    counts = [int(line.split(" rounds, ")[0].split()[-1]) for line in lines[1:]]
    assert len(counts) > 1 and counts == sorted(counts) and 60 <= counts[-1] < 80
    assert lines[-1].endswith(f"; {2 * counts[-1]} deaths") and not list(it.folder.iterdir())


def test_ends_after_so_many_seconds(tmp_path):
    assert Playing(tmp_path, Idle, "--seconds", "0.3").end()[0] == 0


def test_fault(tmp_path):
    """The files stay, the command names the round with which the cluster began, and the others go on."""
    it = Playing(tmp_path, Wrong, "--rounds", "100", "--seed", "7")
    status, lines = it.end()
    assert (status, lines[1]) == (1, "FAULT 1, process 1: a commit is lost") and lines[2] == f"  files: {it.folder}/p1/c0"
    assert lines[3].endswith(f" --seed 7 --only 1 --rounds {many_rounds.ROUNDS} --first 0") and " 1 faults; " in lines[-1]
    assert [path.name for path in it.folder.rglob("*")] == ["p1", "c0", "closed"]
    assert int(lines[-1].split(" rounds, ")[0].split()[-1]) >= 100


def test_exception(tmp_path):
    status, lines = Playing(tmp_path, Broken, "--rounds", "1000").end()
    assert status == 1 and sum(line.startswith("FAULT ") for line in lines) >= many_rounds.MOST_FAULTS
    assert "AssertionError: a server does not start" in lines


def test_interrupt(tmp_path):
    it = Playing(tmp_path, Idle, "--every", "0.1")
    assert until(lambda: " rounds, " in it.text())
    os.kill(it.process.pid, signal.SIGINT)
    status, lines = it.end()
    assert status == many_rounds.INTERRUPTED and " 0 faults; " in lines[-1] and not list(it.folder.iterdir())


def test_what_is_not_played(tmp_path):
    (tmp_path / "rounds").mkdir()
    (tmp_path / "rounds/file").touch()
    assert Playing(tmp_path, Idle).end()[0] == 2
    words = ["--extension", str(ROOT / "nowhere")]
    (tmp_path / "other").mkdir()
    assert Playing(tmp_path / "other", None, *words).end()[0] == 2
