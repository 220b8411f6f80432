"""The volume model keeps to the rules that the theorems of `volume_theorems` assume, with the choices of the built machine too; most of its
wrong implementations do not."""

import time

import pytest
from model import machine_schedules
from model.volume_machine import Machines
from model.volume_rules import Traced, faults, trace
from model.volume_schedules import SCHEDULES, Random, directed, show

# What the rules do not speak of: records, when they are written, their backlinks and advances, and what readers conclude.
OUTSIDE = {
    "advances_above_the_durable_point",
    "leaves_out_block_backlinks",
    "reader_counts_plain_fronts",
    "writes_before_the_truncation_is_chosen",
    "writes_page_0_first",
}


@pytest.mark.parametrize("name", SCHEDULES)
def test_directed_schedule_keeps_to_the_rules(name):
    schedule = directed(name)
    run = trace(schedule.moves, **schedule.options)
    assert faults(run) == [], show(schedule.moves, **schedule.options)
    assert run.steps


@pytest.mark.parametrize("mutant", sorted(set(SCHEDULES) - OUTSIDE))
def test_mutant_breaks_a_rule(mutant):
    schedule = directed(mutant, (mutant,))
    assert faults(trace(schedule.moves, **schedule.options)), show(schedule.moves, **schedule.options)


@pytest.mark.parametrize("nodes, quorum", [(3, 2), (4, 3), (6, 4)])
def test_random_schedules_keep_to_the_rules(rng, nodes, quorum):
    world, end, proposals = {"nodes": nodes, "quorum": quorum}, time.monotonic() + 3, 0
    while time.monotonic() < end or not proposals:
        run = Random(rng, **world)
        run.run(rng.choice((30, 60, 100)))
        traced = trace(run.moves, **world)
        proposals += sum(len(decided.unions) for decided in traced.decided.values())
        assert faults(traced) == [], show(run.moves, **world)


class TracedMachines(Traced, Machines):
    """The model of the machine, written down in the words of the theorems."""


@pytest.mark.parametrize("nodes", [3, 6])
@pytest.mark.parametrize("name", machine_schedules.DIRECTED)
def test_directed_schedule_of_machines_keeps_to_the_rules(name, nodes):
    schedule = machine_schedules.directed(name, nodes)
    assert faults(trace(schedule.moves, TracedMachines, **schedule.options)) == [], schedule.moves


@pytest.mark.parametrize("nodes, quorum", [(3, 2), (6, 4)])
def test_random_schedules_of_machines_keep_to_the_rules(rng, nodes, quorum):
    end = time.monotonic() + 3
    while time.monotonic() < end:
        run = machine_schedules.RandomMachines(rng, nodes=nodes, quorum=quorum)
        assert run.run(rng.choice((30, 60, 100))) is None, run.moves
        assert faults(trace(run.moves, TracedMachines, **run.options)) == [], run.moves
