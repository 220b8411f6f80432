"""The archive `libnode_c.a` as a server has it inside: segments on threads of this process, and a program of one line of C."""

import os
import random
import threading
from concurrent.futures import ThreadPoolExecutor

import pytest

from harness import SECONDS, captures, expect_agreement, rounds, scripts, shrunk_script
from harness.archive import Segment, library, program
from harness.nodes import EXAMPLE, LIMIT, OWN, FramedNode, Play, framed_pairs
from harness.store_checks import PAGES, advance, reads, replayed, takes
from model import oracle, wire
from model.wire import frame, framed
from test_memory import sweep_node
from test_node import NODES

WINDOW = 64  # requests that are not answered yet


@pytest.fixture(scope="module")
def serve(archive, tmp_path_factory):
    return library(archive, tmp_path_factory.mktemp("library"))


@pytest.fixture
def segment(serve):
    """A segment that is to end well."""
    it = Segment(serve)
    yield it
    assert it.close() == (0, b"")


def test_archive_example(segment):
    pairs = framed_pairs(EXAMPLE)
    assert [segment.ask(line) for line, _ in pairs] == [told for _, told in pairs]


def play(serve, text, key):
    """What differs from the oracle where the key fixes the choices, or nothing, as where the text is no script of a sound log."""
    if oracle.run(text)[1] != 0:
        return ""
    segments = [Segment(serve) for _ in range(NODES)]
    try:
        differs = Play(segments, text).difference(random.Random(key))
        ends = {it.close() for it in segments}
    except (AssertionError, OSError) as fault:
        return str(fault)
    return differs or ("" if ends == {(0, b"")} else f"the ends are {ends}")


def test_archive_random_scripts(serve, seed, seconds):
    """Gossip, folds, discards, reads and restarts from snapshots, beside the oracle."""
    for choose in rounds(seed, "archive", seconds):
        text, key = scripts.input_of_gossip(choose)[1], choose.random()
        expect_agreement(text, lambda it: play(serve, it, key), shrunk_script)


# Hostile frames

TAGS = {"fact": (1, 2, 3, 5, 6), "summary": (0x10, 0x20), "delta": (0x11, 0x21), "piece": (0x12, 0x22)}


def fault(kind, data):
    """What bytes are answered that are no value of the kind, or None."""
    if data and data[0] not in TAGS[kind]:
        return b"wire 2"
    told = wire.line(data.hex().encode())
    return told.encode() if told.startswith("wire") else None


def hostile(choose):
    """A request that may well ask for nothing, and its answer where it does, else None."""
    word, data = choose.choice(("take", "answer", "add", "absorb", "noise")), captures.value(choose)
    if word == "noise":
        words = choose.choice((b"", b"take", b"absorb", b"front ", b"read 0 0 0 0", b"open 16", b"fold 65536", b"next 0", b"ask\n", b"\0"))
        return words + choose.choice((b"", b" ", b"\n", b"\xff")) * (words in (b"", b"\0")), b"bad request"
    if word != "absorb":
        return f"{word} ".encode() + data, fault({"take": "fact", "answer": "summary", "add": "piece"}[word], data)
    both = data + captures.value(choose)
    size = choose.choice((len(data),) * 6 + (0, len(both), len(both) + 1, 2**32, 2**64))
    digits = choose.choice((str(size),) * 9 + (f"0{size}", f"+{size}", "", "x"))
    request = f"absorb {digits} ".encode() + both
    if digits != str(size) or size > len(both):
        return request, b"bad request"
    return request, fault("summary", both[:size]) or fault("delta", both[size:])


def test_hostile_frames(segment, seed, seconds):
    """Each answer is what the layouts say, and nothing changes where a request asks for nothing."""
    segment.told(*chain(40))
    seen = set()
    for choose in rounds(seed, "hostile", seconds):
        request, wanted = hostile(choose)
        if wanted is not None:
            before = segment.told(b"state"), segment.told(b"ask")
            assert segment.told(request) == wanted, f"{request[:400]!r} of {len(request)} bytes"
            assert (segment.told(b"state"), segment.told(b"ask")) == before, f"after {request[:400]!r}"
            seen.add(wanted)
    assert len(seen) >= 6, "too few kinds of answers"


@pytest.mark.parametrize("size, wanted", [(LIMIT + 1, b"long frame"), (LIMIT, b"wire 2"), (3 * LIMIT, b"long frame"), (0, b"bad request")])
def test_archive_long_frame(segment, size, wanted):
    """A frame above the limit is answered as such, and the next one as ever; one at the limit is read."""
    assert segment.told((b"take " + b"\x99" * size)[:size]) == wanted
    assert segment.ask("front") == "front 0 0 0"


WHOLE = frame(b"front")


@pytest.mark.parametrize("text", [b"", WHOLE[:3], WHOLE[:4], WHOLE[:-1], b"\xff\xff\xff\xff" + b"take " * 2000], ids=lambda it: repr(it[:9]))
def test_archive_torn_frame(segment, text):
    """An input that ends within a frame gets no answer after that to its last whole frame, and ends well."""
    segment.own.sendall(WHOLE + text)
    assert segment.answer() == b"front 0 0 0"


def test_descriptors(serve):
    """Two pipes; an output that nobody reads; an input that cannot be read; both stay open."""
    given, input_end = os.pipe()
    output, answers = os.pipe()
    os.write(input_end, WHOLE * 2)
    os.close(input_end)
    assert serve(given, answers) == 0
    assert os.read(output, 100) == frame(b"front 0 0 0") * 2
    os.close(output)
    given_again, input_end = os.pipe()
    os.write(input_end, WHOLE)
    os.close(input_end)
    assert serve(given_again, answers) == 4
    assert serve(answers, answers) == 0  # the library takes a descriptor that cannot be read as one at its end
    for number in (given, given_again, answers):
        os.close(number)


# Many requests


def chain(last):
    """The takes of a log of one chain over four pages, with an advance to its half."""
    return [*takes(1, last), advance(last // 2)]


def pages(last):
    """What is answered to the reads after the chain."""
    return [replayed(last, page) for page in range(PAGES)]


def windows(last, size):
    """Takes of the chain, each with a front after it, so many at a time; and their answers."""
    requests = [it for take in chain(last) for it in (take, b"front")]
    fronts = [*((number, 0) for number in range(1, last + 1)), (last, last // 2)]
    answers = [it for front in fronts for it in (b"changed", b"front 0 %d %d" % front)]
    for place in range(0, len(requests), 2 * size):
        yield requests[place : place + 2 * size], answers[place : place + 2 * size]


def test_many_at_once(segment, last=3000):
    """Requests that come many at a time are answered in order, one for one."""
    for requests, wanted in windows(last, WINDOW):
        segment.own.sendall(framed(requests))
        assert [segment.answer() for _ in requests] == wanted


def test_archive_many_in_a_frame(segment, last=3000):
    for requests, wanted in windows(last, 2 * WINDOW):
        assert segment.told(b"many " + framed(requests)) == framed(wanted)
    assert segment.told(b"many " + framed(reads(last))) == framed(pages(last))


def fed(serve, last, choose, begin):
    """What a segment of its own answers that takes the chain in a random order, and folds: its summary, all four pages, and its end."""
    segment, requests = Segment(serve), chain(last)
    segment.ask("front")
    begin.wait(SECONDS)
    for take in choose.sample(requests, len(requests)):
        segment.told(take)
    summary, images = segment.told(b"tidy", b"ask"), [segment.told(it) for it in reads(last)]
    begin.wait(SECONDS)  # none ends before all have done their work
    return summary, images, segment.close()


def test_eight_at_once(serve, rng, count=8, last=2000):
    """Segments on as many threads, all within the call at the same time, share nothing and report the same."""
    begin, keys = threading.Barrier(count), [rng.random() for _ in range(count)]
    with ThreadPoolExecutor(count) as pool:
        seen = list(pool.map(lambda key: fed(serve, last, random.Random(key), begin), keys))
    assert seen == [(seen[0][0], pages(last), (0, b""))] * count


def test_archive_each_allocation_refused(archive, refusing, tmp_path):
    sweep_node(refusing, program(archive, tmp_path), FramedNode, framed_pairs(OWN), 200)
