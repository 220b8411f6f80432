"""What texts cost that are made to keep a node busy (`bench/hostile.py`): how the instructions of a run grow, and what it holds."""

import pytest

import hostile  # of bench/
import instructions

pytestmark = pytest.mark.llvm_only


@pytest.mark.skipif(instructions.counter() is None, reason="neither perf nor callgrind counts instructions here")
@pytest.mark.parametrize("name", hostile.TASKS)
def test_hostile_text_grows(fleet, name, tmp_path):
    """No faster than by the exponent that is allowed; what a run costs that does nothing is taken off first."""
    grown, most = hostile.grown(fleet, name, tmp_path)
    assert grown <= most


@pytest.mark.parametrize("name", hostile.BAD)
def test_bad_text_is_light(fleet, name, tmp_path):
    assert hostile.times_held(fleet, name, tmp_path) <= hostile.MOST_HELD
