"""The program `fleet-node`: request lines and frames, each answered before the next one is sent, and random scripts of nodes."""

import contextlib
import os
import random
import shutil
import sys
from string import hexdigits

import pytest

from harness import CASES, ROOT, Answer, answer, expect_agreement, ran, rounds, scripts, shrunk_script
from harness.nodes import EXAMPLE, LIMIT, OWN, FramedNode, Node, Play, as_frame, as_line, framed_pairs, headed, is_repeated, many
from model import oracle
from model.facts import fact_of
from model.wire import fact_bytes, frame, framed, frames_of

FRAMES = ["--frames"]
NODES = 8  # the most that a script of gossip has
FACT = fact_bytes(fact_of("rec 0 3 0 7 0 0:6161"))
FORMS = pytest.mark.parametrize("form", [Node, FramedNode], ids=["lines", "frames"])


def answers_to(program, text):
    """What is answered to the bytes of a stream of frames, which ends well."""
    status, output, said = answer(program, FRAMES, text)
    assert (status, said) == (0, b"")
    return frames_of(output)


# Lines and frames alike


@FORMS
def test_example_one_by_one(fleet_node, form):
    node, pairs = form(fleet_node), framed_pairs(EXAMPLE) if form is FramedNode else EXAMPLE
    assert [node.ask(line) for line, _ in pairs] == [told for _, told in pairs]
    assert node.close() == (0, b"")


def test_example_at_once(fleet_node):
    text, told = ("".join(f"{it}\n" for it in side).encode() for side in zip(*EXAMPLE))
    assert answer(fleet_node, [], text) == Answer(0, told)


@pytest.mark.parametrize("pairs", [EXAMPLE, OWN], ids=["example", "rows"])
def test_frames_are_answered_as_lines(fleet_node, pairs):
    asked = framed_pairs(pairs)
    told = answers_to(fleet_node, framed(as_frame(line) for line, _ in asked))
    assert [as_line(it) for it in told] == [it for _, it in asked]


def test_many_in_a_frame_are_answered_as_lines(fleet_node):
    asked = framed_pairs(EXAMPLE)
    (told,) = answers_to(fleet_node, many(as_frame(line) for line, _ in asked))
    assert [as_line(it) for it in frames_of(told)] == [it for _, it in asked]


MESSAGES = {"answer": ("summary",), "add": ("piece",), "absorb": ("summary", "delta")}


def in_bytes(words):
    """A word and a fact, which is replaced by its bytes."""
    word, _, fact = words.partition(" ")
    return f"{word} {fact_bytes(fact_of(fact)).hex()}"


def request_of(row, came):
    """The request line of a row: its fact as bytes, or the messages that it names by their numbers."""
    head, own = headed(row)
    word, _, rest = own.partition(" ")
    if word == "take":
        return head + in_bytes(own)
    if word in MESSAGES:
        kinds, numbers = MESSAGES[word], rest.split(" ")
        messages = [came[kind][int(number) - 1] for kind, number in zip(kinds, numbers)]
        return head + " ".join([word, *messages, *numbers[len(kinds) :]])
    return row


def row_of(told, came):
    """An answer as a row has it: a message is kept, and named by its number, and a record's bytes are its words."""
    head, own = headed(told)
    word, _, rest = own.partition(" ")
    if word not in came or not set(rest) <= set(hexdigits):
        return told.replace("bad request", "bad line")
    came[word].append(rest)
    return f"{head}{word} {len(came[word])}"


def wanted_of(row):
    head, own = headed(row)
    return head + in_bytes(own) if own.startswith("record ") else row


@FORMS
@pytest.mark.parametrize("path", sorted(CASES.glob("*.requests")), ids=lambda path: path.stem)
def test_conversation(fleet_node, form, path):
    """Each request of a file, with the messages that came before; all rows that are answered otherwise are shown."""
    rows = [line.split(" -> ") for line in path.read_text().splitlines() if line and not line.startswith("#")]
    node, came = form(fleet_node), {"summary": [], "delta": [], "piece": []}
    seen = [(asked, wanted_of(told), row_of(node.ask(request_of(asked, came)), came)) for asked, told in rows]
    assert [it for it in seen if it[1] != it[2]] == []
    assert node.close() == (0, b"")


# Ends of the input, and what is no request


@pytest.mark.parametrize(
    "text, wanted",
    [(b"", b""), (b"front", b""), (b"front\nfront", b"front 0 0 0\n"), (b"\n", b"bad line\n"), (b"front\r\n", b"bad line\n")],
)
def test_end_of_lines(fleet_node, text, wanted):
    """What follows the last line end is not answered; an empty line is."""
    assert answer(fleet_node, [], text) == Answer(0, wanted)


def test_frames_cut_off_at_each_byte(fleet_node):
    """The whole frames are answered, and nothing else."""
    requests = [b"front", b"", b"take " + FACT, b"read 7 0 0 1", b"x" * 300]
    text, wanted = framed(requests), answers_to(fleet_node, framed(requests))
    ends = [len(framed(requests[:n])) for n in range(1, len(requests) + 1)]
    for cut in range(len(text) + 1):
        assert answers_to(fleet_node, text[:cut]) == wanted[: sum(end <= cut for end in ends)], f"{cut} bytes"


@pytest.mark.parametrize("size", [6, 4096, 8193, LIMIT, LIMIT + 1, 2**32 - 1])
def test_a_length_that_lies(fleet_node, size):
    assert answers_to(fleet_node, frame(b"front") + size.to_bytes(4, "big") + b"front") == [b"front 0 0 0"]


def test_frames_at_the_limit(fleet_node):
    told = answers_to(fleet_node, framed([b"take " + bytes(LIMIT - 5), b"take " + bytes(LIMIT - 4), b"front"]))
    assert (told[0][:5], told[1:]) == (b"wire ", [b"long frame", b"front 0 0 0"])


def test_each_request(fleet_node):
    """Each request of the grammar, and each answer that needs no snapshot of 2^32 pieces."""
    asked = answers_to(fleet_node, framed([b"take " + FACT, b"ask", b"freeze 5", b"piece 0", b"piece 1"]))
    summary, pieces = asked[1].removeprefix(b"summary "), [it.removeprefix(b"piece ") for it in asked[3:]]
    delta = answers_to(fleet_node, framed([b"take " + FACT, b"answer " + summary]))[1].removeprefix(b"delta ")
    absorb = b"absorb %d " % len(summary) + summary
    told = {
        b"open 1": b"opened",
        b"front": b"front 0 0 0",
        b"take " + FACT: b"changed",
        b"take \3" + bytes(5) + b"\0\0\3": b"changed",
        b"take \3" + bytes(5) + b"\0\0\2": b"unchanged",
        b"read 7 3 0 4": b"page aa\0\0",
        b"read 7 2 0 4": b"below 3",
        b"read 7 4 0 4": b"above 3",
        b"next 0 0": b"record " + FACT,
        b"next 0 3": b"none",
        b"fold 7": b"folded",
        b"discard": b"discarded",
        b"tidy": b"tidied",
        absorb + delta: b"absorbed",
        b"piece 0": b"no snapshot",
        b"add " + pieces[0]: b"no staging",
        b"finish": b"no staging",
        b"add  " + pieces[0]: b"wire 2",
    }
    assert dict(zip(told, answers_to(fleet_node, framed(told)))) == told
    asked = [b"stage 5 2", b"add " + pieces[1], b"add " + pieces[1], b"finish", b"add " + pieces[0], b"finish", b"front"]
    staged = [b"staged", b"added", b"double 1", b"missing 0", b"added", b"restored", b"front 0 3 0"]
    assert answers_to(fleet_node, framed(asked)) == staged


BAD = [b"", b" ", b"front ", b" front", b"front\n", b"FRONT", b"take", b"answer", b"add", b"absorb", b"absorb ", b"absorb 1", b"absorb x "]
BAD += [b"absorb 01 a", b"absorb 2 a", b"absorb -1 a", b"absorb 4294967296 ", b"open 0", b"open 16", b"open 1 1", b"read 7 3 0 0", b"\xff\0"]
BAD += [b"bogus \0", b"many", b"MANY " + frame(b"front"), b" many " + frame(b"front"), b"many \0"]
NO_VALUES = [b"take ", b"answer ", b"add ", b"absorb 0 ", b"take \n", b"take " + FACT + b" ", b"take " + FACT.hex().encode()]


@pytest.mark.parametrize("request_", BAD, ids=repr)
def test_bad_frame(fleet_node, request_):
    assert answers_to(fleet_node, framed([request_, b"front"])) == [b"bad request", b"front 0 0 0"]


@pytest.mark.parametrize("request_", NO_VALUES, ids=lambda it: repr(it)[:30])
def test_bytes_that_are_no_value(fleet_node, request_):
    told, front = answers_to(fleet_node, framed([request_, b"front"]))
    assert told.startswith(b"wire ") and told[5:].isdigit() and front == b"front 0 0 0"


def test_many_in_a_frame(fleet_node):
    """Each of them is answered as it would be alone, in order."""
    asked = [b"take " + FACT, b"read 7 3 0 4096", b"", b"many ", b"many " + frame(b"front"), b"bogus", b"front", b"many"]
    wanted = [b"changed", b"page aa" + bytes(4094), *[b"bad request"] * 4, b"front 0 3 0", b"bad request"]
    told = answers_to(fleet_node, many([]) + many(asked) + many([b"front"]))
    assert told == [b"", framed(wanted), framed([b"front 0 3 0"])]
    assert answers_to(fleet_node, many([b""] * 100_000)) == [framed([b"bad request"] * 100_000)]


def test_torn_frames_in_a_frame(fleet_node):
    """What is no whole frames changes nothing."""
    whole = framed([b"take " + FACT, b"front"])
    torn = [whole[:cut] for cut in range(1, len(whole)) if cut not in (0, 4 + 5 + len(FACT))]
    torn += [whole + b"\0", whole + (2**32 - 1).to_bytes(4, "big")]
    told = answers_to(fleet_node, framed([*(b"many " + it for it in torn), b"front"]))
    assert told == [b"bad request"] * len(torn) + [b"front 0 0 0"]


@pytest.mark.parametrize("words", [["run"], ["front"], ["--lines"], ["--help", "--version"], ["--frames", "--frames"], [""], [b"\xff"]], ids=repr)
def test_node_bad_command_line(fleet_node, words):
    status, output, said = answer(fleet_node, words)
    assert (status, output, said[:28]) == (2, b"", b"fleet-node: bad command line")


@pytest.mark.parametrize("word", ["--help", "-h", "--version", "-V"])
def test_node_help(fleet_node, word):
    status, output, said = answer(fleet_node, [word])
    assert (status, bool(output), said) == (0, True, b"")
    assert word != "--help" or output == (ROOT / "docs/help/fleet_node.txt").read_bytes()


def test_node_name_of_any_bytes(fleet_node, tmp_path):
    """In a folder whose name is not UTF-8 the program does what it does anywhere."""
    folder = os.fsencode(tmp_path) + b"/caf\xe9"
    os.mkdir(folder)
    called = shutil.copy2(os.fsencode(fleet_node), folder + b"/\xff\xfe")
    assert answer(called, [], b"front\n") == Answer(0, b"front 0 0 0\n")
    assert answer(called, FRAMES, frame(b"front")) == Answer(0, frame(b"front 0 0 0"))
    assert answer(called, [b"\xff"]) == Answer(2, b"", b"fleet-node: bad command line\n")
    for word in ("--help", "--version"):
        assert answer(called, [word]) == answer(fleet_node, [word])


# Random scripts


def play(program, text, key):
    """What differs from the oracle, or between lines, frames, and many in a frame; the key fixes the choices. Nothing where the text is no
    script of a sound log."""
    if oracle.run(text)[1] != 0:
        return ""
    told = []
    with contextlib.ExitStack() as stack:
        for form in (Node, FramedNode):
            nodes = [form(program) for _ in range(NODES)]
            for node in nodes:
                stack.callback(node.process.kill)
            run, choose = Play(nodes, text), random.Random(key)
            try:
                differs = run.difference(choose)
            except OSError as fault:
                return f"by {form.__name__}: {fault}"
            if not differs and form is FramedNode and not all(is_repeated(program, node, choose) for node in nodes):
                differs = "many in a frame are answered otherwise"
            if differs or {node.close() for node in nodes} != {(0, b"")}:
                return f"by {form.__name__}: {differs or 'a node does not end well'}"
            told.append((run.answers, run.messages))
    return "" if told[0] == told[1] else "lines and frames are answered otherwise"


def test_random_scripts_of_nodes(fleet_node, seed, seconds):
    """Each node a process: now and then one is put together again from its snapshot, and no answer shows it."""
    for choose in rounds(seed, "nodes", seconds):
        text, key = scripts.input_of_gossip(choose)[1], choose.random()
        expect_agreement(text, lambda it: play(fleet_node, it, key), shrunk_script)


def test_random_cluster(fleet_node, seed):
    output, said = ran([sys.executable, ROOT / "examples/cluster.py", "--program", fleet_node, "--seed", str(seed)])
    assert said == "", output
