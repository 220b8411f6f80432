"""Answers under a limit, and snapshots that are united: how a node that lacks much comes back."""

import pytest

from harness.nodes import FramedNode, Node
from model.facts import Advance, Cut, Fill, Record, Write
from model.wire import NOTHING, fact_bytes

PAGES = 5
EMPTY = NOTHING.hex()


def record(number, page=7, data=b"aa", epoch=0, back=None):
    """The digits of a record that follows the one with the LSN before, the first of its page."""
    return fact_bytes(Record(epoch, number, number - 1 if back is None else back, page, 0, False, (Write(0, data),))).hex()


@pytest.fixture(params=(Node, FramedNode), ids=("Lines", "Frames"))
def nodes(request, fleet_node):
    """Makes nodes, which are to end well."""
    made = []

    def start():
        made.append(request.param(fleet_node))
        return made[-1]

    yield start
    assert [node.close() for node in made] == [(0, b"")] * len(made)


@pytest.fixture
def peer(nodes):
    """A node with as many folded pages as PAGES, each of one record, and one record above its anchor."""
    node = nodes()
    for number in range(1, PAGES + 2):
        assert node.ask("take", record(number, page=number)) == "changed"
    assert node.ask("take", fact_bytes(Advance(0, 1, PAGES)).hex()) == "changed"
    for page in range(1, PAGES + 1):
        assert node.ask("fold", page) == "folded"
    assert node.ask("discard") == "discarded"
    return node


def size_of(delta):
    """How many bytes the delta of an answer has."""
    word, digits = delta.split(" ")
    assert word == "delta"
    return len(digits) // 2


def test_an_answer_within_its_size(peer):
    """The answer is the delta where it has at most so many bytes, and `large` where it has one more."""
    delta = peer.ask("answer", EMPTY)
    size = size_of(delta)
    assert size > PAGES * 4098
    for most in (size, size + 1, 2**32 - 1):
        assert peer.ask("answer", EMPTY, most) == delta
    for most in (size - 1, 4098, 1, 0):
        assert peer.ask("answer", EMPTY, most) == "large"


def test_an_answer_of_records_within_its_size(nodes):
    """The same of records with fills and new beginnings, which have the full form, and of truncations and waiting advances."""
    node = nodes()
    assert node.ask("open", 2) == "opened"
    filled = Record(0, 6, 5, 9, 0, True, (Fill(0, 16, 0xFF),))
    others = [fact_bytes(it).hex() for it in (filled, Cut(1, 6, 20), Advance(7, 2, 99), Advance(8, 1, 99))]
    for fact in (record(3), record(5, page=8, data=b"x" * 400, back=3), *others, record(9, epoch=3)):
        assert node.ask("take", fact) == "changed"
    empty = "20" + "0000" + "02" + "000000000000" * 2 + "00000000" + "000000000000" + "00000000"
    delta = node.ask("answer", empty)
    assert node.ask("answer", empty, size_of(delta)) == delta
    assert node.ask("answer", empty, size_of(delta) - 1) == "large"


def test_limits_that_are_none(peer):
    """A limit is a number of 32 bits; it is judged before the summary."""
    bad = "bad request" if isinstance(peer, FramedNode) else "bad line"
    for most in ("x", "-1", "01", 2**32, ""):
        assert peer.ask("answer", EMPTY, most) == bad
    assert peer.ask("answer", "04", 1) == "wire 2"


def test_united_facts_stay(nodes, peer):
    """What a node takes while a snapshot comes is not lost, and it has all that the peer had when it froze."""
    node, pieces = nodes(), peer.snapshot(9)
    assert peer.ask("take", record(PAGES + 2, page=50)) == "changed"
    assert node.ask("stage", 9, len(pieces)) == "staged"
    for piece in pieces[1:]:
        assert node.ask("add", piece) == "added"
    assert node.ask("take", record(PAGES + 2, page=50)) == "changed"
    assert node.ask("unite") == "missing 0"
    assert node.ask("front") == "front 0 0 0"
    assert node.ask("add", pieces[0]) == "added"
    assert node.ask("unite") == "united"
    assert node.ask("unite") == "no staging"
    assert node.ask("ask") == peer.ask("ask")
    assert node.ask("front") == peer.ask("front") == f"front 0 {PAGES + 2} {PAGES}"


def test_a_finish_replaces(nodes, peer):
    """In its place `finish` drops what the node has taken meanwhile."""
    node = nodes()
    assert node.stage(9, peer.snapshot(9))
    assert node.ask("take", record(PAGES + 2, page=50)) == "changed"
    assert node.ask("finish") == "restored"
    assert node.ask("front") == f"front 0 {PAGES + 1} {PAGES}"


def test_refused_unions(nodes, peer):
    """Over unsound facts a union is refused as the first of its facts would be, and the staging stays."""
    pieces = peer.snapshot(9)
    other_roster, other_record = nodes(), nodes()
    assert other_roster.ask("open", 2) == "opened"
    assert other_record.ask("take", record(PAGES + 1, page=PAGES + 1, data=b"b")) == "changed"
    for node, why in ((other_roster, "refused by roster 2 1"), (other_record, "refused by record")):
        before = node.ask("ask")
        assert node.stage(9, pieces)
        assert node.ask("unite") == why
        assert node.ask("ask") == before
        assert node.ask("add", pieces[0]) == "double 0"
        assert node.ask("finish") == "restored"
    fresh = nodes()
    assert fresh.ask("unite") == "no staging"
    assert fresh.ask("stage", 9, 0) == "staged"
    assert fresh.ask("unite") == "missing 0"
