"""SQLite over six storage servers: crashes of engines beside what happens to servers, and schedules that random rounds hit seldom."""

import re
import subprocess
import sys

import pytest
import test_sqlite

from harness import ROOT, copy_of, spoilt
from harness.sqlite_cluster import build_extension
from harness.sqlite_network import SKIPPED
from harness.sqlite_schedules import SCHEDULES

pytestmark = [pytest.mark.xdist_group("sqlite_nodes"), *test_sqlite.pytestmark[1:]]
SECONDS = 240  # until a run counts as not ended
PROCESSES = 8  # that play rounds at the same time

# Faults of the driver: the schedule that finds each, a file, and what is there with what is put in its place.
MUTANTS = {
    "acknowledges_at_once": ("not_yet_durable", "progress.rs", {"if durable >= commit_point {": "if durable >= commit_point.min(1) {"}),
    "page_0_first": (
        "one_snapshot",
        "driver.rs",
        {
            "        for (place, write) in": "        let early = self.step(Event::Commit { header }).and_then(accepted);\n        for (place, write) in",
            "match self.step(Event::Commit { header }).and_then(accepted) {": "match early {",
        },
    ),
    "writer_asks_nobody": ("fenced_reader", "volume.rs", {"let mut have = 0;": "let mut have = 0;\n        if have == 0 {\n            return Ok(own.durable);\n        }"}),
    "reads_without_a_snapshot": ("one_snapshot", "../c/src/handles.rs", {"reader.read(page, point, offset, length)": "reader.read(page, reader.newest()?, offset, length)"}),
    "believes_one_server": ("not_yet_durable", "newest.rs", {"nth_greatest(counted, quorum.saturating_sub(1))": "nth_greatest(counted, quorum.saturating_sub(quorum))"}),
    "reminds_what_it_holds_back": (
        "openings_with_stopped_servers",
        "driver.rs",
        {
            "if self.grace.is_some() || (!self.is_opening() && !self.progress.is_waiting()) {": "if !self.is_opening() && !self.progress.is_waiting() {",
        },
    ),
    "keeps_to_itself_what_was_durable": ("third_server", "../c/src/known.rs", {"lock(&self.0).learn(found);": "let _ = found;"}),
    "believes_another_volume": ("another_volume", "known.rs", {"if !self.meets(found) {": "if self.births.is_empty() {"}),
    "never_opens_again": ("replaced_one_by_one", "driver.rs", {"if is_at_rest || self.opening.is_some() {": "if is_at_rest || self.generation > 0 {"}),
}


def run(module, *words, limit=SECONDS, statuses=(0,)):
    """A module of the harness that has run in a process of its own, and ended with one of these statuses. What it said is printed."""
    command = [sys.executable, "-m", f"harness.{module}", *map(str, words)]
    streams = {"stdout": subprocess.PIPE, "stderr": subprocess.STDOUT, "text": True}
    done = subprocess.run(command, cwd=ROOT / "tests", timeout=limit, check=False, **streams)
    print(done.stdout)
    assert done.returncode in statuses, f"{module} ended with status {done.returncode}"
    return done


def test_crash_rounds(parts, tmp_path, seed, seconds):
    """200 rounds by default, if they take less than two minutes."""
    extension, store, _ = parts
    bounds = ("--rounds", int(20 * seconds), "--seconds", 12 * seconds, "--processes", PROCESSES)
    done = run("many_rounds", tmp_path / "s", "--extension", extension, "--store", store, "--seed", seed, *bounds, limit=SECONDS + 12 * seconds)
    assert re.search(" 0 faults; [1-9][0-9,]* returned, ", done.stdout.splitlines()[-1]), "no commit has returned in all rounds"


def test_crash_rounds_leave_a_sound_log(parts, fleet, tmp_path, seed, seconds):
    run("sqlite_rounds", *parts, tmp_path, seed, seconds, fleet)


def test_crash_rounds_over_a_network(parts, fleet, tmp_path, seed, seconds):
    """With delays, losses and partitions."""
    done = run("sqlite_network", *parts, tmp_path, seed, 2 * seconds, fleet, statuses=(0, SKIPPED))
    if done.returncode == SKIPPED:
        pytest.skip(f"no network namespaces: {done.stdout.strip()}")


@pytest.mark.parametrize("name", SCHEDULES)
def test_schedule(parts, tmp_path, seed, name):
    run("sqlite_schedules", *parts, tmp_path, seed, name)


@pytest.fixture(scope="module")
def copy(tmp_path_factory):
    """A copy of the sources, so that each mutant builds two packages."""
    folder = tmp_path_factory.mktemp("copy")
    copy_of(folder, "client", "volume", "sqlite")
    return folder


@pytest.mark.parametrize("name", MUTANTS)
def test_mutant(copy, volume_archive, store_program, disk, tmp_path, seed, name):
    schedule, file, changes = MUTANTS[name]
    with spoilt(copy / "volume/src" / file, changes):
        extension = build_extension(volume_archive, copy / "build", copy)
        done = run("sqlite_schedules", extension, store_program, disk, tmp_path, seed, schedule, statuses=(1,))  # 0: nobody noticed
    assert "AssertionError" in done.stdout
