"""What the program answers to whole texts: the examples, the cases of tests/cases/*.texts, and texts at the limits."""

import re

import pytest

from harness import ROOT, Answer, Case, answer, cases, text_of
from model import oracle

import make_log  # of bench/

EXAMPLES = ROOT / "examples"
NUMBERS = range(1, 100_000)
FACTS, STEPS, MOST = b"min 0 1\n", b"front 1\n", 1_000_000
NODES = b"go\nnodes 1\n"
LONG_FACTS = [b"rec 0 %d %d 7 %d 0:%s\n" % (n, n - 1, n - 1, b"61" * 4096) for n in range(1, 1051)]  # 8.6 MB, four blocks at most


def examples():
    """The answers of examples/, each to the text NAME.txt in a file NAME.TASK.out."""
    for path in sorted(EXAMPLES.glob("*.*.out")):
        name, task, _ = path.name.split(".")
        yield Case(f"example {name}", task, path.with_name(f"{name}.txt").read_bytes(), path.read_bytes())


TEXTS = [*examples(), *cases()]
NAMED = [pytest.param(it, id=it.name) for it in TEXTS]

LONG = {
    "a million facts": ("check", lambda: FACTS * MOST, 0, b"sound 1000000\n"),
    "a fact more": ("check", lambda: FACTS * (MOST + 1), 2, b"bad line 1000001\n"),
    "a script of a million facts": ("run", lambda: FACTS * MOST + NODES + STEPS, 0, b"front 0 0 0\n"),
    "a script of a fact more": ("run", lambda: b"roster 2\n" + FACTS * (MOST + 1) + NODES, 2, b"bad line 1000002\n"),
    "a million steps": ("run", lambda: NODES + STEPS * MOST, 0, b"front 0 0 0\n" * MOST),
    "a step more": ("run", lambda: NODES + STEPS * (MOST + 1), 2, b"bad line 1000003\n"),
    "a log in four blocks": ("check", lambda: b"".join(LONG_FACTS), 0, b"sound 1050\n"),
    "a script in four blocks": ("run", lambda: b"".join(LONG_FACTS) + ENDS["run"], 0, b"changed\nfront 0 0 0\n"),
    "a log of 999 epochs": ("check", lambda: text_of(make_log.facts(999_000, 1, 998, 0)).encode(), 0, b"sound 999998\n"),
    "a capture of many lines": ("inspect", lambda: b"".join(map(b"03%016x\n".__mod__, NUMBERS)), 0, b"".join(map(b"min 0 %d\n".__mod__, NUMBERS))),
    "a capture of empty lines": ("inspect", lambda: b"\n" * MOST, 0, b"wire 1\n" * MOST),
    "a capture of one line that no LF ends": ("inspect", lambda: b"0" * (MOST + 1), 0, b"bad hex\n"),
    "a capture with a long line": ("inspect", lambda: b"zz\n" + b"0" * (MOST + 1) + b"\n\n04", 0, b"bad hex\nbad hex\nwire 1\nwire 2\n"),
}


@pytest.mark.parametrize("case", NAMED)
def test_text(fleet, case):
    """Nothing is on standard error beside an answer, whatever the answer is."""
    assert answer(fleet, [case.task], case.text) == Answer(case.status, case.output)


def test_each_example_has_an_answer():
    answered = {path.name.split(".")[0] for path in EXAMPLES.glob("*.*.out")}
    assert answered == {path.stem for path in EXAMPLES.glob("*.txt")}


@pytest.mark.parametrize("case", [it for it in NAMED if it.values[0].task == "check" and not it.values[0].output.startswith(b"bad")])
def test_script_over_a_log(fleet, case):
    """A script over a log has the answer of `check` where the log is not sound, and else those to its steps, of which there are none."""
    expected = Answer(0, b"") if case.status == 0 else Answer(case.status, case.output)
    assert answer(fleet, ["run"], case.text + NODES) == expected


def pattern_of_said(output):
    """The form of the explanation of an answer, which names the same line or fact."""
    if found := re.fullmatch(rb"bad line ([0-9]+)\n", output):
        return rb"fleet: line %s: [^\n]+\n" % found[1]
    if found := re.fullmatch(rb"unsound ([0-9]+) law ([1-5])\n", output):
        return rb"fleet: fact %s breaks law %s: [^\n]+\n" % found.groups()
    return b""


@pytest.mark.parametrize("case", [it for it in NAMED if it.values[0].task != "inspect"])
def test_explained(fleet, case):
    """An explained answer and its status are those without the option, and what is said names the same line or fact."""
    status, output, said = answer(fleet, [case.task, "--explain"], case.text)
    assert (status, output) == (case.status, case.output)
    assert re.fullmatch(pattern_of_said(case.output), said), said
    assert case.said is None or said == b"fleet: " + case.said + b"\n"


@pytest.mark.parametrize("name", LONG)
def test_long_text(fleet, name):
    """The first fact line, and the first step line, past a million is the bad line. What several threads read keeps its order."""
    task, text, status, output = LONG[name]
    seen = answer(fleet, [task], text())
    assert (seen.status, len(seen.output), seen.output[:40], seen.said) == (status, len(output), output[:40], b"")
    assert seen.output == output, "an answer to a long text differs beyond its first 40 bytes"


# Long texts, whose fact lines several threads read: each reads a block of whole lines, and the answer is that of one thread

PLACES = range(1, len(LONG_FACTS), len(LONG_FACTS) // 4)  # one in each block
WRONG = {
    "an unknown word": b"fact 0 1 0 7 0 -",
    "a leading zero": b"min 0 01",
    "a CR": b"min 0 1\r",
    "an empty line": b"",
    "go and a space": b"go ",
    "a fact after go": b"go\nmin 0 1",
    "a g": b"rec 0 1 0 g 0 -",
}
ENDS = {"check": b"", "run": b"go\nnodes 1\ntake 1 1050\nfront 1\n"}


def spoilt(task, places=(), line=b""):
    """The text of the task with the line in place of the facts of these numbers."""
    return b"".join(line + b"\n" if place in places else fact for place, fact in enumerate(LONG_FACTS, 1)) + ENDS[task]


def answer_of_oracle(task, text):
    output, status = oracle.TASKS[task](text.decode("latin-1"))
    return Answer(status, output.encode("latin-1"))


@pytest.mark.parametrize("task", ENDS)
@pytest.mark.parametrize("name", WRONG)
def test_a_bad_line_of_each_block(fleet, task, name):
    """Its number counts the lines of the blocks before, and what is said of it is what is said of it in a short text."""
    reason = answer(fleet, [task, "--explain"], WRONG[name] + b"\n" + ENDS[task]).said.split(b": ", 2)[2]
    for place in PLACES:
        text = spoilt(task, [place], WRONG[name])
        status, output = answer_of_oracle(task, text)[:2]
        assert status == 2
        number = output.split()[2]
        assert answer(fleet, [task], text) == Answer(status, output)
        assert answer(fleet, [task, "--explain"], text) == Answer(status, output, b"fleet: line %s: %s" % (number, reason))


@pytest.mark.parametrize("task", ENDS)
def test_the_first_of_two_bad_lines(fleet, task):
    for first, second in zip(PLACES, PLACES[1:]):
        text = spoilt(task, [first, second], b"min 0 01")
        assert answer(fleet, [task], text) == answer_of_oracle(task, text) == Answer(2, b"bad line %d\n" % first)


@pytest.mark.parametrize("task", ENDS)
def test_the_end_of_a_long_text(fleet, task):
    """A last line that no LF ends, and steps that are bad."""
    for text in [spoilt(task)[:-1], spoilt(task) + b"take 1 1051\n", spoilt("check") + b"go\nnodes 0\n", spoilt("check") + b"go"]:
        assert answer(fleet, [task], text) == answer_of_oracle(task, text)
        assert answer_of_oracle(task, text).status == 2
