"""Inputs and outputs that fail: folders, full devices, pipes that nobody reads, and each read and write of small runs."""

import math
import os

import pytest

from harness import Answer, answer
from model import drill

LOST = [
    ("run", b"rec 0 3 0 7 0 0:61\ngo\nnodes 1\ntake 1 1\n"),
    ("check", b"min 0 3\n"),
    ("check", b"rec 0 3 2 7 0 -\n"),
    ("check --explain", b"rec 0 3 2 7 0 -\n"),
    ("check", b"x\n"),
    ("inspect", b"04\n"),
    *((words, b"") for words in ("drill", "--help", "run --help", "drill --help", "--version")),
]
STEPS = {"READ_STEP": 7, "WRITE_STEP": 3}  # the most bytes of a read and of a write
CUT = [  # words, text, answer
    ("run", b"rec 0 3 0 7 0 0:6161\nrec 0 5 3 7 3 1:62\nrec 0 9 5 8 0 0:63\nmin 0 5\ngo\nnodes 1\ntake 1 3\nfront 1\n", b"changed\nfront 0 0 0\n"),
    (
        "run",
        b"rec 0 3 0 7 0 0:6161\ngo\nnodes 2\ntake 2 1\nask 1\nanswer 2 1\nabsorb 1 2\nabsorb 1 1\n",
        b"changed\nmessage 1\nmessage 2\nabsorbed\nno message 1\n",
    ),
    ("check", b"min 0 5\n", b"sound 1\n"),
    ("inspect", b"030000000000000005\n\nzz\n020001000000000005000000000014", b"min 0 5\nwire 1\nbad hex\ncut 1 5 20\n"),
    ("drill --nodes 2", b"", drill.text(2, "small").encode()),
]


def answer_to_a_folder(program, *words):
    """What the program answers to an input that opens, but cannot be read."""
    return answer("sh", ["-c", '"$@" < /', "sh", program, *words])


def unread_pipe():
    """The end of a pipe that is written to, and its other end is closed."""
    reader, writer = os.pipe()
    os.close(reader)
    return open(writer, "wb")


def full():
    return open("/dev/full", "wb")


@pytest.mark.parametrize("task", ["run", "check", "inspect"])
def test_input_fails(fleet, task):
    assert answer_to_a_folder(fleet, task) == (4, b"", b"fleet: input failed\n")


@pytest.mark.parametrize("device", [full, unread_pipe])
@pytest.mark.parametrize("words, text", LOST, ids=lambda it: str(it))
def test_output_fails(fleet, words, text, device):
    with device() as output:
        assert answer(fleet, words.split(), text, stdout=output) == (4, None, b"fleet: output failed\n")


def test_an_empty_answer_loses_nothing(fleet):
    with full() as output:
        assert answer(fleet, ["run"], b"go\nnodes 1\n", stdout=output) == (0, None, b"")


def test_node_input_fails(fleet_node):
    assert answer_to_a_folder(fleet_node) == (4, b"", b"fleet-node: input failed\n")


@pytest.mark.parametrize("device", [full, unread_pipe])
def test_node_output_fails(fleet_node, device):
    with device() as output:
        assert answer(fleet_node, [], b"front\n", stdout=output) == (4, None, b"fleet-node: output failed\n")


@pytest.mark.parametrize("words, text, wanted", CUT, ids=lambda it: str(it)[:60])
def test_each_call_fails(fleet, refusing, words, text, wanted):
    """Each of many short reads fails in turn, and each of many short writes: nothing is written then, or a beginning of the answer."""
    command = [fleet, *words.split()]
    counts, ample = refusing.counted(command, text, **STEPS)
    assert ample == Answer(0, wanted)
    reads = math.ceil(len(text) / STEPS["READ_STEP"]) + bool(text)  # (a drill reads nothing; else the last read finds the end)
    assert (counts.reads, counts.writes) == (reads, math.ceil(len(wanted) / STEPS["WRITE_STEP"]))
    failed = {at: refusing.run(command, text, FAIL_READ=at, **STEPS) for at in range(1, counts.reads + 1)}
    assert failed == dict.fromkeys(failed, Answer(4, b"", b"fleet: input failed\n"))
    failed = {at: refusing.run(command, text, FAIL_WRITE=at, **STEPS) for at in range(1, counts.writes + 1)}
    assert failed == {at: Answer(4, wanted[: (at - 1) * STEPS["WRITE_STEP"]], b"fleet: output failed\n") for at in failed}
