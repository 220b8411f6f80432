"""The answers to many requests in one frame: at most 64 MiB together; what exceeds them is answered `long`, and nothing of it is lost."""

import itertools

import pytest

from harness.nodes import LIMIT, many
from harness.store_checks import advance
from model.facts import Record, Write
from model.wire import NOTHING, fact_bytes, frame, framed, frames_of

import measure  # of bench/

SURE = 21  # bytes that are kept for each answer that is not known yet
MOST = LIMIT // SURE  # requests in a frame
PAGES = 1000  # in a delta of 4 MB
ASKED = 80  # deltas that a frame of 3 kB asks for: more than 320 MB
SLACK = 16 * 1024  # kB that a run may hold beside the answers to one frame and what it holds without them


def record(number, page=7):
    """A take of a record in one chain, the first of its page, which writes `a` there."""
    return b"take " + fact_bytes(Record(0, number, number - 1, page, 0, False, (Write(0, b"a"),)))


def run(program, text, folder):
    """The answers to the frames of a text, and the most kilobytes that the program held."""
    (folder / "input").write_bytes(text)
    _, megabytes = measure.run_once(program, "--frames", folder / "input", folder / "output")
    return frames_of((folder / "output").read_bytes()), 1024 * megabytes


def difference(told, wanted):
    """Where two lists of answers differ first, and the beginnings of both there; None where they are the same."""
    pairs = enumerate(itertools.zip_longest(told, wanted, fillvalue=b"(none)"))
    return next(((place, one[:20], other[:20]) for place, (one, other) in pairs if one != other), None)


def cut_at_the_limit(answers):
    """The answers in one frame, by the rule: one that would leave too few bytes for the later ones is `long`."""
    put, told = 0, []
    for place, answer in enumerate(answers):
        later = SURE * (len(answers) - place - 1)
        told.append(answer if put + 4 + len(answer) + later <= LIMIT else b"long")
        put += 4 + len(told[-1])
    return told


def test_long_answers_are_bounded(fleet_node, tmp_path):
    """A short answer always has room: after answers that exceed the limit a take is carried out and acknowledged. What was answered
    `long` is answered in a frame of its own."""
    pages = range(1, PAGES + 1)
    setup = many([*[record(page, page) for page in pages], advance(PAGES), *[b"fold %d" % page for page in pages], b"discard"])
    ask = b"answer " + NOTHING
    (_, delta), alone = run(fleet_node, setup + frame(ask), tmp_path)
    requests = many([*[ask] * ASKED, record(PAGES + 1), b"front", ask])
    assert len(requests) < 4000 and ASKED * len(delta) > 320_000_000
    (_, told, larger), held = run(fleet_node, setup + requests + frame(ask), tmp_path)
    answers = [*[delta] * ASKED, b"changed", b"front 0 %d %d" % (PAGES + 1, PAGES), larger]
    assert difference(frames_of(told), cut_at_the_limit(answers)) is None
    assert len(larger) > len(delta) and frames_of(told)[-1] == b"long"
    assert held <= alone + LIMIT // 1024 + SLACK, f"{held} kB, and {alone} kB without the answers"


@pytest.mark.parametrize("more", [-1, 0], ids=["one fewer", "just too few bytes"])
def test_the_last_byte_of_the_limit(fleet_node, tmp_path, more):
    """As many pages as fit, and after them a beginning of one that takes the bytes that are left, or one byte more."""
    page = b"page a" + bytes(4095)
    count, left = divmod(LIMIT, 4 + len(page))
    size = left - 8 + more
    requests = [*[b"read 7 1 0 4096"] * count, b"read 7 1 0 %d" % size]
    (_, told), _ = run(fleet_node, frame(record(1)) + many(requests), tmp_path)
    wanted = cut_at_the_limit([*[page] * count, page[: 5 + size]])
    assert difference(frames_of(told), wanted) is None
    assert (len(told), wanted[-1] == b"long") == ((LIMIT, False) if more else (LIMIT - left + 8, True))


def test_as_many_requests_as_a_frame_has_room_for(fleet_node, tmp_path):
    told, _ = run(fleet_node, many([record(1), *[b""] * (MOST - 1)]) + frame(b"front"), tmp_path)
    assert difference(told, [framed([b"changed", *[b"bad request"] * (MOST - 1)]), b"front 0 1 0"]) is None


def test_too_many_requests_are_not_carried_out(fleet_node, tmp_path):
    told, _ = run(fleet_node, many([record(1), *[b""] * MOST]) + frame(b"front"), tmp_path)
    assert difference(told, [b"long", b"front 0 0 0"]) is None


@pytest.mark.parametrize("size, wanted", [(91, (b"as 1 0 changed", b"front 0 2 0")), (92, (b"long", b"front 0 1 0"))])
def test_a_request_of_an_engine_near_the_limit(fleet_node, tmp_path, size, wanted):
    """It is carried out only where 220 bytes and a length are left for its answer."""
    count, left = divmod(LIMIT, 4 + 5 + 4096)
    assert left - (4 + 5 + 91) == 4 + 220
    requests = [*[b"read 7 1 0 4096"] * count, b"read 7 1 0 %d" % size, b"as 1 0 " + record(2)]
    (*_, told, front), _ = run(fleet_node, frame(record(1)) + frame(b"admit 1 0 0 1") + many(requests) + frame(b"front"), tmp_path)
    assert (frames_of(told)[-1], front) == wanted
