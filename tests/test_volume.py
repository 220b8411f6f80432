"""The protocol of a volume, as a model: no schedule breaks a promise, and each wrong implementation is caught."""

import pytest
from model.volume import HARMLESS, MUTANTS
from model.volume_schedules import SCHEDULES, directed, explore, moves_of, replay, show, shrink


def test_every_mutant_has_a_schedule():
    assert set(SCHEDULES) == set(MUTANTS)


@pytest.mark.parametrize("mutant", SCHEDULES)
def test_directed_schedule_catches(mutant):
    schedule = directed(mutant, (mutant,))
    assert schedule.end(), f"no promise is broken\n{show(schedule.moves, **schedule.options)}"


@pytest.mark.parametrize("mutant", SCHEDULES)
def test_directed_schedule_of_the_right_rules(mutant):
    schedule = directed(mutant)
    assert schedule.end() is None, f"{schedule.violation}\n{show(schedule.moves, **schedule.options)}"


@pytest.mark.parametrize("deviation", ["", *HARMLESS])
@pytest.mark.parametrize("nodes, quorum", [(3, 2), (4, 3), (5, 3), (6, 4)])
def test_random_schedules(rng, nodes, quorum, deviation):
    world = {"nodes": nodes, "quorum": quorum, "mutants": (deviation,)}
    schedules, moves, run = explore(rng, 2 if deviation else 8, **world)
    if run:
        pytest.fail(f"{run.violation}\n{show(shrink(run), **world)}")
    assert schedules and moves


def test_random_search_finds_a_mutant_and_prints_it(rng):
    """The explorer finds, shortens and replays what an easy mutant breaks."""
    world = {"mutants": ("compares_fronts_without_a_union",)}
    _, _, run = explore(rng, 60, **world)
    assert run, "an easy mutant was not found"
    moves = shrink(run)
    assert replay(moves_of(show(moves, **world)), **world).promise == run.violation.promise
