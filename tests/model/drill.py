"""What a drill writes, from the rules of its log and of what a set of facts means alone.

Each fact of the log reaches some node, and at the end each node is joined with all the others. So each node means the whole log,
whatever its workers did, and however many they were.
"""

from functools import lru_cache

from model.facts import Advance, Cut, Record, Write
from model.rules import Meaning

SIZES = {"small": 64, "large": 1024}
PAGES = 8
PLACES = 511  # of 8 bytes, behind the first of a page


def patches(number):
    """A record writes its number at the head of its page, and at a place that the number picks."""
    data = number.to_bytes(8, "big")
    return Write(0, data), Write(8 + 8 * (number // PAGES % PLACES), data)


def first_record(number):
    """Of epoch 0: the page is the number's remainder, and both chains go on from number to number."""
    return Record(0, number, number - 1, number % PAGES, max(number - PAGES, 0), False, patches(number))


def later_record(place, lo, hi):
    """Of epoch 1, which continues after what the truncation leaves: each page from its last number there."""
    number, page = hi + place, (place - 1) % PAGES
    back = lo if place == 1 else number - 1
    last = 0 if lo < page else lo - (lo - page) % PAGES
    return Record(1, number, back, page, last if place <= PAGES else number - PAGES, False, patches(number))


def facts(count):
    """The log: so many records, an advance and a truncation to half of them, and as many records again."""
    lo, hi = count // 2, count + PAGES
    places = range(1, count + 1)
    return [
        *(first_record(number) for number in places),
        Advance(0, 1, lo),
        Cut(1, lo, hi),
        *(later_record(place, lo, hi) for place in places),
    ]


@lru_cache
def text(nodes, size):
    """What a drill of so many nodes writes."""
    log = facts(SIZES[size])
    whole = Meaning(1, log)
    front = f"front {whole.epoch} {whole.complete} {whole.min}"
    lines = [f"facts {len(log)}", *(f"node {node} {front}" for node in range(1, nodes + 1))]
    lines += [f"page {page} {whole.page(page, whole.complete)[:8].hex()}" for page in range(PAGES)]
    return "".join(line + "\n" for line in [*lines, "same yes"])
