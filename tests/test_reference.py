"""Random logs through the reference model, beside the oracle and the fleet.

The reference model is the plain code that is proved to compute the definitions; `call_cases` runs it. What it answers of a log must be
what the oracle says, and of a sound log what a node of the fleet answers that takes the same facts.
"""

import random
import re
from typing import NamedTuple

import pytest

from harness import answer, expect_agreement, rounds, scripts, shrunk, text_of
from model import rules
from model.facts import Cut, Record, has_shape, of_kind


class Query(NamedTuple):
    row: str  # of call_cases
    wanted: str


def fault_queries(roster, log):
    """The model's first fault, and the checker's."""
    found = rules.first_fault(roster, log)
    word = f"Some(({found[0]}, {found[1]}))" if found else "None"
    yield Query(f"model faults {roster}", f"Faults({word}, {word})")


def front_queries(roster, log):
    """The position of each prefix of the log."""
    for count in range(len(log) + 1):
        it = rules.Meaning(roster, log[:count])
        points = ", ".join(str(point) for point in it.points)
        wanted = f"Front({it.epoch}, {it.complete}, [{points}], [{points}], {it.min}, {it.anchor})"
        yield Query(f"model front {roster} {count}", wanted)


def standing_queries(log):
    """The standing of each record in the view of each epoch."""
    cuts = of_kind(Cut, log)
    for record in of_kind(Record, log):
        for view in range(4):
            waits, alive = record.epoch > view, rules.is_alive(cuts, view, record)
            for word, holds in (("is_alive", alive), ("waits", waits), ("is_dead", not waits and not alive)):
                yield Query(f"model {word} {view} {record.epoch} {record.number}", f"Flag({str(holds).lower()})")


def page_queries(roster, log):
    """The first two bytes of each page at each point of the log's own view."""
    it = rules.Meaning(roster, log)
    for page in sorted({record.page for record in of_kind(Record, log)}):
        for point in sorted({0, it.complete} | {record.number for record in it.linked}):
            first, second = it.page(page, point)[:2]
            yield Query(f"model page {it.epoch} {page} {point}", f"Bytes([{first}, {second}])")


def compare_queries(choose, roster, log):
    """How two parts of the log compare, both ways, and whether they mean the same."""
    for _ in range(4 if log else 0):
        parts = [choose.sample(range(1, len(log) + 1), choose.randrange(1, len(log) + 1)) for _ in range(2)]
        one, two = (rules.Meaning(roster, [log[place - 1] for place in part]) for part in parts)
        answers = [rules.is_at_most(two, one), rules.is_at_most(one, two), one.parts() == two.parts()]
        row = " ".join(["model compare", str(roster), *(",".join(map(str, part)) for part in parts)])
        yield Query(row, f"Compared({', '.join(f'Ok({str(it).lower()})' for it in answers)})")


def queries(choose, roster, log):
    yield from fault_queries(roster, log)
    yield from front_queries(roster, log)
    yield from standing_queries(log)
    if rules.first_fault(roster, log) is None:
        yield from page_queries(roster, log)
        yield from compare_queries(choose, roster, log)


def answers_of(call_cases, log, asked):
    """What the program prints for each query, after the facts are stored."""
    rows = ["clear", *(fact.line() for fact in log), *(query.row for query in asked)]
    done = answer(call_cases, [], text_of(rows).encode())
    assert done.status == 0, done
    lines = done.output.decode().splitlines()
    assert len(lines) == len(rows)
    return [line.removeprefix(f"{row}: ") for line, row in zip(lines, rows)][len(rows) - len(asked) :]


def random_log(choose):
    """A roster, and a log that one of two times has a fault."""
    roster = choose.choice((1, 1, 2, 3))
    log = scripts.random_log(choose, roster)
    for _ in range(choose.choice((0, 0, 1, 2))):
        scripts.spoil(choose, log)
    return roster, [fact for fact in log if has_shape(fact)]


def by_epoch(fact):
    """The order of a log: in each epoch its truncation, and then its records by number."""
    return fact.epoch, not isinstance(fact, Cut), isinstance(fact, Record) and fact.number


def sound_log(choose):
    """Most random orders of a log break a law: the order that its laws ask for, then."""
    roster = choose.choice((1, 2, 3))
    log = []
    for fact in sorted(scripts.random_log(choose, roster), key=by_epoch):
        if rules.first_fault(roster, [*log, fact]) is None:
            log.append(fact)
    return roster, log


@pytest.mark.parametrize("kind", ["any", "sound"])
def test_reference_model(call_cases, seed, seconds, kind):
    for choose in rounds(seed, f"reference {kind}", seconds):
        roster, made = (random_log if kind == "any" else sound_log)(choose)
        key = choose.random()

        def difference(log):
            asked = [*queries(random.Random(key), roster, log)]
            return [(query, seen) for query, seen in zip(asked, answers_of(call_cases, log, asked)) if seen != query.wanted]

        expect_agreement(made, difference, shrunk)


def test_reference_model_and_fleet(call_cases, fleet, seed, seconds):
    """A node that takes the facts of a sound log, in any order, has the model's front, and reads its pages."""
    for choose in rounds(seed, "reference fleet", seconds):
        roster, log = sound_log(choose)
        taken = choose.sample(range(len(log)), len(log))
        part = [log[place] for place in taken]
        it = rules.Meaning(roster, part)
        points = [point for point in {it.min, it.complete} if it.min <= point <= it.complete]
        reads = [(page, point) for page in sorted({r.page for r in it.linked}) for point in points]
        steps = [line for place in taken for line in (f"take 1 {place + 1}", "front 1")]
        steps += [f"read 1 {page} {point} 0 2" for page, point in reads]
        text = text_of([*[f"roster {roster}"] * (roster > 1), *(fact.line() for fact in log), "go", "nodes 1", *steps])
        seen = answer(fleet, ["run"], text.encode())
        assert seen.status == 0, (text, seen)
        answers = seen.output.decode().splitlines()
        asked = [Query(f"model front {roster} {n + 1}", "") for n in range(len(part))]
        asked += [Query(f"model page {it.epoch} {page} {point}", "") for page, point in reads]
        model = answers_of(call_cases, part, asked)
        fronts = [re.fullmatch(r"Front\((\d+), (\d+), .*, (\d+), \d+\)", line).groups() for line in model[: len(part)]]
        pages = [bytes(int(byte) for byte in re.findall(r"\d+", line)).hex() for line in model[len(part) :]]
        wanted = ["front " + " ".join(front) for front in fronts] + [f"page {page}" for page in pages]
        assert [line for line in answers if line.startswith(("front", "page"))] == wanted, text
