"""`yieldcleat-soundness`: whether the facts in the request logs of stores are a sound log."""

import pytest

from harness import answer, rounds
from harness.scripts import random_log, spoil
from harness.store_files import log
from model.facts import Advance, Cut, Record, has_shape
from model.rules import first_fault
from model.wire import fact_bytes

pytestmark = pytest.mark.xdist_group("store")


def place(fact):
    """Where a fact is in the log that the program makes."""
    return fact.epoch, (Cut, Record, Advance).index(type(fact)), getattr(fact, "number", getattr(fact, "point", 0))


def written(folder, roster, facts, choose, generation=0):
    """The folder of a store that took these facts, some of them in one request."""
    folder.mkdir()
    heads = [b"", b"as 3 7 "]  # anybody's, and an engine's
    takes = [choose.choice(heads) + b"take " + fact_bytes(fact) for fact in facts]
    choose.shuffle(takes)
    batches = [[b"open %d" % roster]] + [[take] for take in takes]
    (folder / f"log.{generation}").write_bytes(log(generation, batches))
    return folder


def ask(program, fleet, *words):
    return answer(program.with_name("yieldcleat-soundness"), ["--fleet", fleet, *words])


def dealt(folder, roster, facts, choose):
    """Three folders, and each fact in one of them or in several."""
    shares = [[], [], []]
    for fact in facts:
        for share in choose.sample(shares, choose.randrange(1, 4)):
            share.append(fact)
    return [written(folder / str(index), roster, share, choose) for index, share in enumerate(shares)]


def test_logs_of_three_stores(store_program, fleet, tmp_path, seed, seconds):
    for index, choose in enumerate(rounds(seed, "soundness", seconds)):
        roster = choose.choice([1, 1, 3])
        facts = random_log(choose, roster)
        if choose.random() < 0.5:
            spoil(choose, facts)
        facts = sorted(filter(has_shape, set(facts)), key=lambda fact: (place(fact), fact_bytes(fact)))
        folder = tmp_path / str(index)
        folder.mkdir()
        done = ask(store_program, fleet, *dealt(folder, roster, facts, choose))
        fault = first_fault(roster, facts)
        expected = (3, b"unsound %d law %d\n" % fault) if fault else (0, b"sound %d\n" % len(facts))
        assert done[:2] == expected, f"seed {seed}, round {index}: {done.said}"


def test_facts_before_a_snapshot_are_missed(store_program, fleet, tmp_path, rng):
    folder = written(tmp_path / "one", 1, [Advance(0, 1, 5)], rng, generation=3)
    (folder / "snapshot.3").write_bytes(b"")
    done = ask(store_program, fleet, folder)
    assert done[:2] == (0, b"sound 1\n") and b"begins after a snapshot" in done.said
    assert ask(store_program, fleet, "--print", folder).output == b"min 0 5\n"


def test_what_is_no_log(store_program, fleet, tmp_path, rng):
    whole = written(tmp_path / "whole", 1, [Advance(0, 1, 5)], rng)
    other = written(tmp_path / "other", 2, [Advance(0, 2, 5)], rng)
    damaged = written(tmp_path / "damaged", 1, [Advance(0, 1, 5), Advance(0, 1, 6)], rng)
    text = bytearray((damaged / "log.0").read_bytes())
    text[60] ^= 1
    (damaged / "log.0").write_bytes(text)
    for words, status, why in [
        ((whole, other), 4, b"the logs have 1 and 2 readers"),
        ((damaged,), 4, b"is damaged at byte"),
        ((tmp_path / "nowhere",), 4, b"is missing"),
        ((), 2, b"a folder is needed"),
        (("--no",), 2, b"unknown option"),
    ]:
        done = ask(store_program, fleet, *words)
        assert done[:2] == (status, b"") and why in done.said, done
    assert not (tmp_path / "nowhere").exists()
    assert ask(store_program, tmp_path / "no program", whole).status == 4
