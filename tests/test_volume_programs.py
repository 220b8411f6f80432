"""The built guard and the built machine of a volume, in processes, play the schedules of the volume model and are compared with it."""

import pytest

from harness import rounds, shrunk
from harness.volume_programs import Programs, difference
from model.machine_schedules import DIRECTED, SHOWN_BY, RandomMachines, directed
from model.volume import MUTANTS
from model.volume_machine import Machines

LETTERS = {"status", "fence", "pull", "ask", "absorb", "front", "take", "propose", "join", "admit"}
REPORTS = {"created", "opened", "committed", "durable", "fenced", "no", "not", "shape"}


@pytest.fixture(scope="session")
def programs(fleet_node, volume_node):
    return Programs(fleet_node, volume_node)


def compare(programs, moves, **world):
    """Fails with the shortest schedule that was found where the programs differ; `explore_volume.py` plays it again."""
    if not difference(programs, moves, **world):
        return
    moves = shrunk(moves, lambda fewer: difference(programs, fewer, **world))
    lines = [difference(programs, moves, **world), f"# model/explore_volume.py --programs FOLDER --replay FILE, with {world}"]
    pytest.fail("\n".join([*lines, *(f"{move!r}," for move in moves)]))


@pytest.mark.parametrize("nodes", [3, 6])
@pytest.mark.parametrize("name", DIRECTED)
def test_directed_schedule(programs, name, nodes):
    schedule = directed(name, nodes)
    assert schedule.end() is None
    compare(programs, schedule.moves, **schedule.options)


@pytest.mark.parametrize("nodes, quorum", [(3, 2), (5, 3), (6, 4)])
def test_random_schedules(programs, seed, seconds, nodes, quorum):
    for choose in rounds(seed, f"volume programs {nodes}", seconds):
        schedule = RandomMachines(choose, nodes=nodes, quorum=quorum)
        assert schedule.run(choose.choice((30, 60, 100, 150))) is None, schedule.moves
        compare(programs, schedule.moves, **schedule.options)


@pytest.mark.parametrize("mutant", sorted(set(MUTANTS) - {"reader_counts_plain_fronts"}))
def test_programs_differ_from_a_wrong_model(programs, mutant):
    """So a program with that fault would differ from the right model. No program is a reader."""
    schedule = directed(SHOWN_BY.get(mutant, mutant), 3, (mutant,))
    assert " in place of " in difference(programs, schedule.moves, **schedule.options)


def test_directed_schedules_reach_each_letter_and_report():
    letters, reports = set(), set()
    for name in DIRECTED:
        schedule = directed(name, 3)
        world = Machines(**schedule.options)
        for move in schedule.moves:
            world.do(move)
            letters |= {it[2][0] for it in world.did if len(it) == 3}
            reports |= {it[1].split(" ")[0] for it in world.did if len(it) == 2}
    assert (letters, reports) == (LETTERS, REPORTS)
