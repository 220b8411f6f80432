"""Faults that the tests of the storage server must find: each is put into a copy of its sources, which is built and tested."""

import contextlib
import random
import subprocess

import pytest

from harness import copy_of, environment, spoilt, stores
from harness.shims import kit
from harness.store_checks import check_answers, check_damage, check_full, check_full_at_flush, check_kills, check_lock, check_readers, check_refused

pytestmark = pytest.mark.xdist_group("store_mutants")  # which share what is built


def check_client(program, folder, _disk, _choose):
    """The tests of what a client may take for an acknowledgement."""
    settings = environment(CARGO_TARGET_DIR=program.parents[1], RATTLE_C=kit() / "c")
    command = ["cargo", "test", "--offline", "--locked", "--test", "acknowledged"]
    done = subprocess.run(command, cwd=folder.parent / "store", env=settings, capture_output=True, text=True, check=False)
    if "could not compile" in done.stderr:
        pytest.fail(done.stderr)  # which is no AssertionError: a mutant that does not compile is not found
    assert done.returncode == 0, done.stdout[-1000:]


LOG, STORE, CALLS, ANSWERS = "embedding/src/store/log.rs", "embedding/src/store/mod.rs", "client/src/calls.rs", "client/src/answers.rs"
ENTRIES, FOLDER = "embedding/src/store/entries.rs", "embedding/src/store/folder.rs"
ENGINE, SNAPSHOTS = "store/src/engine.rs", "store/src/snapshots.rs"
MUTANTS = {
    "acknowledges_before_the_flush": (LOG, "self.file.sync_data().map_err(|error| self.take_back(error))?;", "", check_kills),
    "believes_what_the_system_keeps": (LOG, "drop_kept(&file);", "", check_refused),
    "ends_where_a_flush_finds_no_room": (LOG, "self.file.sync_data().map_err(|error| self.take_back(error))?;", "self.flush()?;", check_full_at_flush),
    "counts_unchanged": (CALLS, "Ok(self.front()?.has(last))", "self.front().map(|front| front.epoch >= last.epoch)", check_client),
    "compares_fronts_of_two_epochs": (ANSWERS, "self.epoch == key.epoch && self.complete >=", "self.complete + 1 >=", check_client),
    "skips_the_checksum": (ENTRIES, "|| crc32c(&[bytes]) != head.sum", "", check_damage),
    "shares_a_folder": (FOLDER, "match lock.try_lock() {", "match Ok::<(), TryLockError>(()) {", check_lock),
    "ignores_an_answer": (STORE, ".find(|(request, answer)| !requests::has_changed(request, answer))", ".find(|_| false)", check_answers),
    "leaves_what_a_full_disk_took": (LOG, "match self.file.set_len(self.length) {", "match Ok::<(), io::Error>(()) {", check_full),
    "freezes_for_everybody": (SNAPSHOTS, "is_free = held.is_none_or(", "is_free = true || held.is_none_or(", check_readers),
    "answers_on_a_full_disk": (ENGINE, "Err(Refusal::DiskFull))", "Ok(vec![b\"changed\".to_vec(); job.requests.len()]))", check_full),
}


@pytest.fixture(scope="module")
def target(tmp_path_factory):
    return tmp_path_factory.mktemp("target")


@pytest.mark.parametrize("name", [None, *MUTANTS], ids=lambda it: it or "none")
def test_mutants(archive, target, disk, tmp_path, monkeypatch, seed, name):
    copy_of(tmp_path, "client", "embedding", "store")
    file, old, new, check = MUTANTS.get(name, (LOG, "", "", None))
    each = {check_kills, check_client, check_damage, check_answers, check_full, check_full_at_flush, check_refused, check_lock, check_readers}
    checks = {check} if check else each
    monkeypatch.setenv("YIELDCLEAT_ARCHIVE", str(archive.parent))
    with spoilt(tmp_path / file, {old: new} if name else {}):
        programs = stores.build(archive, target, tmp_path / "store", warnings=bool(name)) or pytest.skip("no cargo is on the path")
        for check in checks:
            choose, folder = random.Random(f"{seed} {name}"), tmp_path / check.__name__
            with pytest.raises(AssertionError) if name else contextlib.nullcontext():
                check(programs / "yieldcleat-store", folder, disk, choose)
