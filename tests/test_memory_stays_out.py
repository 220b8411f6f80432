"""The programs where memory runs out and stays out, and where one request for memory is refused: every run ends, and says so."""

import re
import time
from concurrent.futures import ThreadPoolExecutor

import pytest

from harness import ROOT, answer
from test_memory import NO_MEMORY

BUDGET = 45  # seconds for the runs of a test
AT_ONCE = 4  # runs at the same time
ROWS = b"== end of threads\nrounds\n"
FOR_EVER = 2**63


def sweep(refusing, command, text, rng, stays_out):
    """The ample answer, and that of each run in which a request is refused, alone or with all later ones: of every request, or of a
    sample where there are too many."""
    started = time.monotonic()
    counts, ample = refusing.counted(command, text)
    numbers, most = range(1, counts.allocations + 1), max(1, int(BUDGET * AT_ONCE / (time.monotonic() - started)))
    if len(numbers) > most:
        numbers = sorted(rng.sample(numbers, most))
        print(f"of {counts.allocations} requests these are refused: {numbers}")

    def run(number):
        return refusing.run(command, text, FAIL_ALLOC=number, FAIL_ALLOC_LAST=FOR_EVER if stays_out else 0)

    with ThreadPoolExecutor(AT_ONCE) as pool:
        return ample, dict(zip(numbers, pool.map(run, numbers)))


def bad(answers, is_good):
    """The answers that are not good, by the number of the first request that was refused; the first few of them."""
    found = {number: answer for number, answer in answers.items() if not is_good(answer)}
    return dict(list(found.items())[:5])


def example(name):
    return (ROOT / "examples" / name).read_bytes()


# Of a script and of a log


TASKS = [
    (["drill", "--nodes", "3", "--workers", "4", "--size", "small"], None),
    (["run"], "first.txt"),
    (["run"], "gossip.txt"),
    (["check"], "unsound.txt"),
]


@pytest.mark.parametrize("words, text", TASKS, ids=["drill", "run", "run messages", "check"])
def test_memory_stays_out(fleet, refusing, rng, words, text):
    """Every request from one on is refused: the run ends with status 5 and its words, or gives the ample answer."""
    text = b"" if text is None else example(text)
    ample, answers = sweep(refusing, [fleet, *words], text, rng, True)
    assert bad(answers, lambda answer: answer in (ample, NO_MEMORY)) == {}
    assert NO_MEMORY in answers.values()


# Of a node


def test_a_node_whose_memory_stays_out(fleet_node, refusing, rng):
    """It answers `memory` and goes on, or ends with status 5 and its words. Nothing has changed by a request that lacked memory: the others
    are answered as where that one was not made."""
    text = example("node.requests")
    lines = text.splitlines()
    _, answers = sweep(refusing, [fleet_node], text, rng, True)

    def is_good(seen):
        told = seen.output.splitlines()
        kept = [(line, it) for line, it in zip(lines, told) if it != b"memory"]
        wanted = answer(fleet_node, [], b"".join(line + b"\n" for line, _ in kept)).output
        is_whole = seen.status == 0 and seen.said == b"" and len(told) == len(lines)
        is_cut = seen.status == 5 and seen.said == b"fleet-node: out of memory\n"
        return (is_whole or is_cut) and wanted.splitlines() == [it for _, it in kept]

    assert bad(answers, is_good) == {}
    assert any(b"memory" in it.output for it in answers.values())


# Of the rounds of workers


def rounds_of(told):
    """What was refused of the gossip round and of the batch of eight folds, whether the asker has what it asked for, and how many pages
    are folded: each fold takes four of the 64 keys away."""
    asked, folded = (re.findall(r"(\w+) \{ worker: (\d+)(?:, fault: (\w+))?", it) for it in re.findall(r"Refusals\((.*)\)", told))
    fronts = re.findall(r"Front\((.*)\)", told)
    keys = int(re.findall(r"Stored\(\d+, (\d+)\)", told)[0])
    return asked, folded, fronts[1] == "0, 64, 32", (64 - keys) // 4


def test_a_round_that_lacks_memory_is_listed(thread_cases, refusing, rng):
    """One request is refused. A round that was not carried out is listed with its worker, and no other; where the program itself lacked
    memory, it ends."""
    ample, answers = sweep(refusing, [thread_cases], ROWS, rng, False)
    assert rounds_of(ample.output.decode()) == ([], [], True, 8)
    assert None not in [it.status for it in answers.values()]
    ended = {number: it.output.decode() for number, it in answers.items() if it.status == 0}
    assert 8 * len(ended) > len(answers)
    listed = set()
    for number, told in ended.items():
        asked, folded, has_asked, pages = rounds_of(told)
        listed |= {(kind, fault) for kind, _, fault in asked + folded}
        # The other worker of each run has no round: that it was not started changes nothing.
        assert has_asked == all(worker != "2" for _, worker, _ in asked), (number, told)
        assert (pages == 8) == all(worker != "1" for _, worker, _ in folded), (number, told)
        if "NotStarted" not in told:
            assert {worker for _, worker, _ in asked} <= {"2"} and {worker for _, worker, _ in folded} <= {"1"}, (number, told)
            assert len(folded) == 8 - pages or (len(folded), pages) == (1, 0), (number, told)
    assert {("Memory", ""), ("Commit", "Memory"), ("Absorb", "Memory")} <= listed
