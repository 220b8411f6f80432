"""Random texts against the oracle: scripts and logs, sound and spoilt, nodes that join, nodes that gossip, and captures.

Each test draws its inputs from the seed of the run, for a bounded time. A failure is made small and printed: add it to tests/cases.
"""

import pytest

from harness import Answer, answer, captures, expect_agreement, rounds, scripts, shrunk, shrunk_script
from model import oracle, wire
from test_texts import answer_of_oracle

MAKES = {"any": scripts.random_input, "joins": scripts.input_of_joins, "gossip": scripts.input_of_gossip}


def difference(seen, wanted):
    """Two answers in words, or nothing where they are the same."""
    return "" if seen == wanted else f"wanted: {wanted}\nseen: {seen}"


@pytest.mark.parametrize("kind", MAKES)
def test_random_texts(fleet, seed, seconds, kind):
    for choose in rounds(seed, kind, seconds):
        task, made = MAKES[kind](choose)

        def differs(text):
            text = text.encode("latin-1")
            return difference(answer(fleet, [task], text), answer_of_oracle(task, text))

        expect_agreement(made, differs, shrunk_script)


def shrunk_capture(lines, fails):
    """The least lines that still fail: a part of the shortest line that fails alone, where there is one."""
    if single := [it for it in lines if fails([it])]:
        line = min(single, key=len)
        digits = [line[at : at + 2] for at in range(0, len(line), 2)]
        lines = [b"".join(shrunk(digits, lambda it: fails([b"".join(it)])))]
    return shrunk(lines, fails)


def test_random_captures(fleet, seed, seconds):
    for choose in rounds(seed, "captures", seconds):
        made = [captures.line(choose) for _ in range(100)]
        ending = choose.choice((b"", b"\n", b"\n\n"))

        def differs(lines):
            text = b"\n".join(lines) + ending
            return difference(answer(fleet, ["inspect"], text), Answer(0, wire.inspected(text)))

        expect_agreement(made, differs, shrunk_capture)


def test_a_failure_is_made_small():
    """Of a planted fault, a node 2 that takes a record of page 2, the least script is found, and its facts keep their names."""
    text = "roster 2\nrec 0 3 0 7 0 -\nmin 0 3\nrec 0 5 3 2 0 0:61\nmin 0 2\ngo\nnodes 2\ntake 1 1\ntake 2 3\ntake 1 4\nread 1 2 5 0 1\n"

    def fails(text):
        script = oracle.Script(text)
        return any(step[:2] == ("take", 2) and script.facts[step[2] - 1].line().startswith("rec 0 5 3 2") for step in script.steps)

    assert fails(text)
    assert shrunk_script(text, fails) == "rec 0 5 3 2 0 0:61\ngo\nnodes 2\ntake 2 1\n"
