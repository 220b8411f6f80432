"""Faults that the tests of the VFS must find: each is put into a copy of its sources, which is built, and one check must fail on it."""

import pytest
import test_sqlite

from harness import copy_of, spoilt
from harness.sqlite_worlds import build, run

pytestmark = [pytest.mark.xdist_group("sqlite_mutants"), *test_sqlite.pytestmark[1:]]

# A file of `sqlite/src`, what is there, what is put in its place, and the check that finds it.
MUTANTS = {
    "journal_as_a_file": ("vfs.c", "if (flags & SQLITE_OPEN_MAIN_JOURNAL) {", "if (!name) {", "random"),
    "header_without_the_size": ("commit.c", "header.size = size_after(database);", "header.size += !header.size;", "spill"),
    "drops_the_last_run": ("changes.c", "changes->count = runs->count;", "changes->count = runs->count - (runs->count > 1);", "random"),
    "drops_runs_beyond_the_limit": ("changes.c", "runs->at[place] = joined(runs, place);", "", "random"),
    "skips_bytes_after_a_run": ("changes.c", "at = run.end - 1;", "at = run.end + GAP;", "random"),
    "fills_too_much": ("changes.c", "return end - offset;", "return end + 1 - offset;", "random"),
    "from_zeros_by_halves": ("changes.c", "changes->from_zeros ? &whole : &runs", "&runs", "random"),
    "reads_without_a_snapshot": ("database.c", "number > database->view.header.highest", "turn_newest(database->engine, &database->view.at)", "snapshots"),
    "moves_a_snapshot": ("locks.c", "if (database->lock == SQLITE_LOCK_NONE) code", "code", "turns"),
    "keeps_a_stale_cache": ("locks.c", ") database->forgets = true;", ") database->forgets = false;", "turns"),
    "keeps_pages_of_another_state": ("database.c", "if (!is_same_commit(&view.at, &database->view.at)) pages_cut(&database->pages, 0);", "", "snapshots"),
    "keeps_pages_of_a_lost_commit": ("commit.c", "database_return(database, &database->before);", "database->view = database->before;", "in_doubt"),
    "undoes_a_commit_in_doubt": ("commit.c", "database_return(database, &database->before);", ";", "in_doubt"),
    "goes_on_after_doubt": ("commit.c", "if (fault) engine_lose_writer(database->engine, handle, fault);", "", "in_doubt"),
    "takes_a_fence_for_a_commit": ("commit.c", "if (sending->fault) return", "if (sending->fault == YIELDCLEAT_FENCED) return SQLITE_OK;\n    if (sending->fault) return", "fenced_calls"),
    "does_not_wait": ("commit.c", "if (!database->is_sent) return SQLITE_OK;", "if (database) return SQLITE_OK;", "calls"),
    "ignores_a_fault_of_waiting": ("commit.c", "SYNCING, fault) : SQLITE_OK;", "SYNCING, fault) * 0 : SQLITE_OK;", "in_doubt"),
    "writes_over_a_newer_state": ("turns.c", "bool is = engine->published == member->point", "bool is = engine->published >= member->point", "turns"),
    "two_at_a_time": ("turns.c", "is_free = !engine->owner || engine->owner == member,", "is_free = true,", "turns"),
    "fences_back": ("turns.c", "is_fenced = engine->fences != member->fences;", "is_fenced = false;", "fences"),
    "shows_what_is_not_durable": ("commit.c", "database->is_sent = true;", "turn_publish(database->engine, &database->member, false);\n    database->is_sent = true;", "waits"),
    "gives_up_read_points": ("commit.c", "mark < oldest ? mark : oldest", "mark < oldest ? mark : mark", "keep"),
    "gives_up_no_points": ("commit.c", "yieldcleat_volume_advance(handle->volume, mark < oldest ? mark : oldest);", "(void)mark;\n    (void)oldest;", "keep"),
    "keeps_what_is_not_committed": ("locks.c", "    database_forget_changes(database);\n", "", "spill"),
    "ends_super_journals": ("journal.c", "amount == sizeof end_of_name &&", "amount == 0 &&", "several_databases"),
    "takes_super_journals": ("vfs.c", "if (flags & SQLITE_OPEN_SUPER_JOURNAL) return", "if (!flags) return", "several_databases"),
    "takes_other_pages": ("database.c", "start[AT_RESERVED] != RESERVED", "start[AT_RESERVED] > RESERVED", "other_page_sizes"),
    "takes_no_locks": ("address.c", '!sqlite3_uri_boolean(name, "nolock", 0) &&', "", "openings"),
    "returns_too_far": ("commit.c", "database->before = database->view;", "", "in_doubt"),
    "writes_with_a_later_writer": ("engine.c", "struct handle *handle = is_other ? 0 :", "struct handle *handle = is_other && !engine ? 0 :", "swapped_writer"),
    "shows_what_a_lost_writer_had": ("turns.c", "if (engine->losses == member->losses) engine->published", "engine->published", "swapped_writer"),
    "writes_over_a_repeated_point": ("turns.c", " && engine->losses == member->losses;", ";", "repeated_base"),
    "takes_repeated_points_for_one": ("turns.c", "one->point == other->point && one->losses == other->losses", "one->point == other->point", "repeated_points"),
    "reads_what_was_lost": ("database.c", "return snapshot->is_durable ?", "return snapshot ?", "lost_snapshot"),
    "takes_what_is_sent_for_durable": ("commit.c", ".at.losses = database->view.at.losses,", ".at = database->view.at,", "lost_snapshot"),
    "closes_while_others_wait": ("engine.c", "handle->next = engine->unused;\n    engine->unused = handle;", "yieldcleat_volume_close(handle->volume);\n    sqlite3_free(handle);", "slow_closing"),
    "leaves_a_writer_open": ("engine.c", "    retire(engine, &engine->writer); /* which an opening", "    /* which an opening", "left_writer"),
    "writes_to_the_past": ("address.c", ".is_read_only = point ||", ".is_read_only =", "past"),
    "uses_handles_of_a_parent": ("engine.c", "engine->process == getpid() &&", "", "forks"),
    "keeps_an_ended_writer": ("engine.c", "may_go_on ? yieldcleat_volume_status(writer->volume, &status) : fault;", "may_go_on ? YIELDCLEAT_OK : fault;", "ended_writer"),
    "gives_up_the_past": ("engine.c", " || strcmp(other->place, engine->place) != 0) continue;", " || other != engine) continue;", "kept_past"),
    "recovers_to_read": ("engine.c", "    engine->may_write -= may_write;\n", "    (void)may_write;\n", "read_only"),
    "locks_to_read": ("address.c", "point || flags & SQLITE_OPEN_READONLY}", "point}", "read_only"),
    "keeps_what_failed": ("commit.c", "    if (code) database_forget_changes(database);\n", "", "exclusive"),
    "takes_doubt_for_failure": ("commit.c", "is_lost(sending->fault) ? SYNCING : WRITING", "WRITING", "faults"),
}


@pytest.fixture(scope="module")
def copy(tmp_path_factory):
    """A copy of the sources, and what they are built into, so that a mutant builds one file."""
    folder = tmp_path_factory.mktemp("copy")
    copy_of(folder, "sqlite", "volume")
    build(folder / "build", root=folder)
    return folder


@pytest.mark.parametrize("name", MUTANTS)
def test_mutants(copy, tmp_path, seed, name):
    file, old, new, check = MUTANTS[name]
    with spoilt(copy / "sqlite/src" / file, {old: new}):
        library = build(copy / "build", root=copy, words=["WARNINGS="])
        found = run(f"check_{check}", library, tmp_path / "databases", seed, 3)
    assert found != "", "nobody noticed"
