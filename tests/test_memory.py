"""Refused allocations and refused starts of threads, and how much memory a run may ask for."""

import re

import pytest

from harness import ROOT, Answer, answer
from harness.nodes import LIMIT, OWN, FramedNode, Node, as_frame, framed_pairs, many
from model import oracle
from model.wire import frame, framed, frames_of
from test_texts import LONG_FACTS, TEXTS

NO_MEMORY = Answer(5, b"", b"fleet: out of memory\n")
SLACK = 64 * 1024  # bytes that an inspection may hold beside its input
TABLES = 4 * 1024 * 1024  # bytes that the laws of a log may hold for their epochs
TEXT_OF = {case.name: case for case in TEXTS}
SWEPT = [  # several readers, joins, gossip, the check of a sound log and of another, and a capture
    "example readers",
    "example merge",
    "example gossip",
    "example unsound",
    "example capture",
    "two_nodes: run joined into an empty one",
    "two_nodes: run that heard other facts",
    "gossip: run gap filled",
    "gossip: run wiped before the answer",
    "ends_of_texts: check rec 0 12 9 7 5 0:78",
]
DRILL = ["drill", "--nodes", "2", "--workers", "2"]
MOST = 300  # how many allocations of a node's run are refused, spread evenly over it


def sweep(refusing, command, text=b"", setting="FAIL_ALLOC"):
    """Refuses each allocation or start in turn: each refusal is answered as such, or as with ample memory, and some are answered as such.
    Returns what the command asks for, and how it ends with ample memory."""
    counts, ample = refusing.counted(command, text)
    most = {"FAIL_ALLOC": counts.allocations, "FAIL_START": counts.starts}[setting]
    answers = {n: refusing.run(command, text, **{setting: n}) for n in range(1, most + 1)}
    assert {n: it for n, it in answers.items() if it not in (NO_MEMORY, ample)} == {}
    assert NO_MEMORY in answers.values()
    return counts, ample


@pytest.mark.parametrize("name", SWEPT)
def test_each_allocation_refused(fleet, refusing, name):
    """And none is much larger than there is cause for. With ample memory the answer is the one that the text has."""
    case = TEXT_OF[name]
    counts, ample = sweep(refusing, [fleet, case.task], case.text)
    assert ample == Answer(case.status, case.output)
    assert counts.greatest <= len(case.text) + (SLACK if case.task == "inspect" else TABLES)


def test_the_swept_script_has_each_step():
    asked = {line.split(b" ")[0].decode() for line in TEXT_OF["example gossip"].text.split(b"go\n")[1].splitlines()}
    assert set(oracle.STEPS) <= asked


@pytest.mark.parametrize("setting", ["FAIL_ALLOC", "FAIL_START"])
def test_each_refusal_of_a_drill(fleet, refusing, setting):
    """No worker waits for one that is not there."""
    sweep(refusing, [fleet, *DRILL], setting=setting)


@pytest.mark.parametrize("task", ["inspect", "check", "run"])
def test_each_start_of_a_long_text_refused(fleet, refusing, task):
    """What several threads describe or read is described or read all the same without any one of them."""
    capture, facts = TEXT_OF["example capture"], b"".join(LONG_FACTS)
    text, output = {
        "inspect": (capture.text * 1000, capture.output * 1000),
        "check": (facts, b"sound 1050\n"),
        "run": (facts + b"go\nnodes 1\nfront 1\n", b"front 0 0 0\n"),
    }[task]
    counts, ample = refusing.counted([fleet, task], text)
    assert ample == Answer(0, output)
    assert all(refusing.run([fleet, task], text, FAIL_START=n) == ample for n in range(1, counts.starts + 1))


ALL, NO_BOOK, REST = "ff" * 4, "0000 000000000000 00000000", "00" * 40
PROMISES = [  # heads whose counts promise far more than there is, each with a few bytes after it
    f"10 ffff {REST}",
    f"10 0000 000000000000 {ALL} {REST}",
    f"10 {NO_BOOK} 000000000000 {ALL} {REST}",
    f"11 {NO_BOOK} 000000000000 00000000 {ALL} {REST}",
    f"11 0000 000000000005 00000000 000000000005 {ALL} {REST}",
    f"20 0000 02 000000000005 000000000005 {ALL} {REST}",
    f"20 0000 02 000000000005 000000000005 00000000 000000000005 {ALL} {REST}",
    f"21 0000 0f {'000000000005' * 15} 00000000 000000000005 {ALL} {REST}",
    f"21 0000 0f {'000000000005' * 15} 00000000 000000000005 00000000 {ALL} {REST}",
    "01 0000 000000000003 000000000000 0007 000000000000 40 00000000",
    "06 0000 000000000003 000000000000 0007 000000000000 01 40 00000000",
]


@pytest.mark.parametrize("value", PROMISES, ids=lambda it: it[:40])
def test_a_count_reserves_no_memory(fleet, refusing, value):
    text = value.replace(" ", "").encode() + b"\n"
    counts, (status, output, said) = refusing.counted([fleet, "inspect"], text)
    assert (status, output[:4], said) == (0, b"wire", b"")
    assert counts.greatest <= len(text) + SLACK


# Nodes


def test_a_long_line_reserves_no_memory(fleet_node, refusing):
    """It is answered as such, and the next one as ever."""
    text = b"take " + b"0" * 300_000_000 + b"\nfront\n"
    counts, seen = refusing.counted([fleet_node], text)
    assert seen == Answer(0, b"long line\nfront 0 0 0\n")
    assert counts.greatest <= len(text)


LONG_FRAMES = {
    "a length that lies": frame(b"front") + LIMIT.to_bytes(4, "big"),
    "a frame that is too long": framed([b"take " + bytes(200_000_000), b"front"]),
}


@pytest.mark.parametrize("text", LONG_FRAMES.values(), ids=LONG_FRAMES)
def test_a_long_frame_reserves_no_memory(fleet_node, refusing, text):
    counts, _ = refusing.counted([fleet_node, "--frames"], text)
    assert counts.greatest <= 100_000


def lacking(node, rows):
    """How many requests were answered `memory`, each only once, where all were answered in the end as with ample memory; None for a
    node that ended at once with status 5."""
    count = 0
    for place, (line, wanted) in enumerate(rows):
        try:
            told = node.ask(line)
            if told == "memory":
                told, count = node.ask(line), count + 1
        except BrokenPipeError:
            told = " and an end"
        if told.endswith(" and an end") and place == 0:
            assert node.close() == (5, b"")
            return None
        assert told == wanted, line[:80]
    assert node.close() == (0, b"")
    return count


def sweep_node(refusing, command, kind, rows, most=MOST):
    """A request that lacked memory is asked once more, and then has the answer of ample memory: so nothing had changed."""
    text = b"".join(frame(as_frame(it)) if kind is FramedNode else it.encode() + b"\n" for it, _ in rows)
    told = [lacking(kind(command, settings), rows) for settings in refusing.spread([command, *kind.words], text, most)]
    assert None in told and any(told), f"{len(told)} runs: {told.count(None)} ended at once"


@pytest.mark.parametrize("kind, rows", [(Node, OWN), (FramedNode, framed_pairs(OWN))], ids=["lines", "frames"])
def test_each_allocation_of_a_node_refused(fleet_node, refusing, kind, rows):
    """The requests are those of the crate's own run."""
    sweep_node(refusing, fleet_node, kind, rows)


def lacking_in_many(program, settings, requests):
    """Whether the frame of many requests lacked memory, or how many of its requests did; None for a node that ended at once. Each
    other request is answered as where those were not asked at all."""
    status, output, _ = answer(program, ["--frames"], many(requests) + many(requests[-1:]), env=settings)
    if status == 5 and not output:
        return None
    told, behind = frames_of(output)
    if told == b"memory":
        assert behind == frame(b"front 0 0 0")
        return "all"
    told = frames_of(told)
    kept = [request for request, it in zip(requests, told) if it != b"memory"]
    wanted = answer(program, ["--frames"], many(kept)).output[4:]
    assert framed(it for it in told if it != b"memory") == wanted
    return len(requests) - len(kept)


def test_each_allocation_refused_in_many(fleet_node, refusing):
    requests = [*(as_frame(line) for line, _ in framed_pairs(OWN)), b"front"]
    told = {lacking_in_many(fleet_node, it, requests) for it in refusing.spread([fleet_node, "--frames"], many(requests), MOST)}
    assert {None, "all", 1} <= told <= {None, "all", 0, 1}


# Rows of calls

SECTION = re.compile(rb".*?(^== end of ([^\n]*)\n)", re.S | re.M)


def section_alone(text, section):
    """A text of rows in which one section alone has rows: the others have the lines that end them."""
    return b"".join(it[0] if it[2] == section else it[1] for it in SECTION.finditer(text))


@pytest.mark.parametrize("section", [b"messages", b"nodes and boards"], ids=lambda it: it.decode())
def test_rows_make_a_refused_call_again(call_cases, refusing, section, most=150):
    """A call that finds no memory is made once more, so each run writes what it writes with ample memory: the first call left all as
    it was. A run may also end by an error with a beginning of that text, where the program of rows itself was refused."""
    folder = ROOT / "crates/call_cases"
    rows, wanted = (section_alone((folder / name).read_bytes(), section) for name in ("stdin", "stdout"))
    ample = refusing.counted([call_cases], rows)[1]
    assert ample.output == wanted and wanted.count(b"\n") >= 100
    seen = [answer(call_cases, [], rows, env=settings) for settings in refusing.spread([call_cases], rows, most)]
    whole = [it for it in seen if it[:2] == ample[:2]]
    bad = [it for it in seen if it[:2] != ample[:2] and (it.status == 0 or not wanted.startswith(it.output))]
    assert bad == [] and 2 * len(whole) >= len(seen)
