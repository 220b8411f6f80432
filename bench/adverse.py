#!/usr/bin/env python3
"""Measures the program on sound logs that lean on one of its structures each: what they cost, and how that grows with what was sent.

    adverse.py [--peer PROGRAM] [--program PROGRAM] [--only a,b] [--sizes N ..] [--runs N] [--most GROWTH]

Each task is a script of about a size, in facts. A row shows the CPU seconds, the most memory held, and for each the
exponent of growth from the least size to the greatest, by the bytes of the text. With --peer another program reads the same texts,
and the answers may not differ by a byte. With --most the status is 1 where an exponent is above it.
"""

import random

import growth
import make_log
import measure

SIZES = [10_000, 100_000]
PAGES = 64
EVERY_PAGE = 65_536
MOST_EPOCHS = 65_535
SHOWN = "0 16"  # the bytes of a page that a read answers
SHARE = 100  # records between two exchanges
TURN = 10  # records between two truncations, or two discards


def script(facts, steps, nodes=1):
    return [*facts, "go", f"nodes {nodes}", *steps]


def taken(facts, places=None):
    """The facts, taken by one node in an order of their places, and its front."""
    return script(facts, [*measure.takes(places or range(1, len(facts) + 1)), "front 1"])


def places_of(facts, *words):
    """The places of the facts of these forms: all of the first form, then all of the next."""
    return [place for word in words for place, line in enumerate(facts, 1) if line.startswith(word)]


def chain(size, pages):
    """So many records, one after another, and their writer."""
    writer = make_log.Writer()
    return writer, [writer.record(turn % pages) for turn in range(size)]


def log(size, epochs=0, advances=1):
    return list(make_log.facts(size, measure.pages_of(size), epochs, advances))


def epochs_of(size):
    return min(MOST_EPOCHS, size // TURN)


# ---- pages


def one_page(size):
    """All records are of one page."""
    writer, facts = chain(size, 1)
    return [*taken(facts), f"read 1 0 {writer.number} {SHOWN}"]


def one_page_from_its_end(size):
    """The same from the last record to the first."""
    writer, facts = chain(size, 1)
    return [*taken(facts, range(size, 0, -1)), f"read 1 0 {writer.number} {SHOWN}"]


def every_page(size):
    """The records go round all pages; some of these are read."""
    writer, facts = chain(size, EVERY_PAGE)
    return [*taken(facts), *(f"read 1 {page % EVERY_PAGE} {writer.number} {SHOWN}" for page in range(0, size, TURN))]


def every_page_folded(size):
    """The same, folded and discarded."""
    writer, facts = chain(size, EVERY_PAGE)
    folds = [f"fold 1 {page}" for page in range(min(size, EVERY_PAGE))]
    return [*taken([*facts, f"min 0 {writer.number}"]), *folds, "discard 1", "front 1"]


def points_all_over(size):
    """Reads at points all over the log."""
    facts, choose = log(size, 0, 0), random.Random(2)
    reads = [f"read 1 {choose.randrange(measure.pages_of(size))} {choose.randrange(1, size)} {SHOWN}" for _ in range(size)]
    return [*taken(facts), *reads]


# ---- orders


def from_the_end(size):
    """From the last fact to the first."""
    facts = log(size)
    return taken(facts, range(len(facts), 0, -1))


def epochs_from_the_end(size):
    """The same of a log with a truncation for every 100 records."""
    facts = log(size, max(1, size // SHARE), 20)
    return taken(facts, range(len(facts), 0, -1))


def any_order(size):
    facts = log(size, 20, 20)
    places = list(range(1, len(facts) + 1))
    random.Random(3).shuffle(places)
    return taken(facts, places)


def first_one_last(size):
    """The first record comes last, so that all link at once."""
    facts = log(size)
    return taken(facts, [*range(2, len(facts) + 1), 1])


def every_other_one(size):
    """Every other fact, and then the rest: each links two."""
    facts = log(size)
    places = range(1, len(facts) + 1)
    return taken(facts, [*places[1::2], *places[::2]])


# ---- truncations and advances


def truncation_after_ten(size):
    return taken(log(size, epochs_of(size), 20))


def truncations_at_the_end(size):
    """All records, and then the truncations: each opens an epoch whose records are stored already."""
    facts = log(size, epochs_of(size), 20)
    return taken(facts, places_of(facts, "rec", "cut", "min"))


def truncations_at_the_end_falling(size):
    """The same from the last truncation to the first, so that all wait for that one."""
    facts = log(size, epochs_of(size), 20)
    return taken(facts, [*places_of(facts, "rec", "min"), *reversed(places_of(facts, "cut"))])


def truncations_at_the_start(size):
    facts = log(size, epochs_of(size), 20)
    return taken(facts, places_of(facts, "cut", "rec", "min"))


def advance_after_each(size):
    """Each record is followed by an advance to it."""
    writer = make_log.Writer()
    facts = [line for turn in range(size // 2) for line in (writer.record(turn % PAGES), f"min 0 {writer.number}")]
    return taken(facts)


def advances_that_wait(size):
    """Advances of epochs that have not begun, and then the truncations that begin them."""
    facts = log(size, epochs_of(size), epochs_of(size))
    return taken(facts, places_of(facts, "min", "cut", "rec"))


# ---- rounds


def discard_after_ten(size):
    """An advance, a fold of one page and a discard after each ten records."""
    writer, facts, steps = make_log.Writer(), [], []
    for turn in range(size):
        facts.append(writer.record(turn % PAGES))
        steps += measure.takes([len(facts)])
        if turn % TURN == TURN - 1:
            facts.append(f"min 0 {writer.number}")
            steps += [*measure.takes([len(facts)]), f"fold 1 {turn % PAGES}", "discard 1"]
    return script(facts, [*steps, "front 1"])


def shared(size, exchange):
    """One node takes the records; after each share of them it brings the other one what that lacks."""
    _, facts = chain(size, PAGES)
    steps = []
    for place in range(1, size + 1):
        steps += measure.takes([place])
        if place % SHARE == 0:
            steps += exchange(place // SHARE - 1)
    return script(facts, steps, 2)


def small_messages(size):
    """Messages between two nodes that differ by little."""
    return shared(size, lambda done: ["ask 2", f"answer 1 {2 * done + 1}", f"absorb 2 {2 * done + 2}", "front 2"])


def small_joins(size):
    """Joins and comparisons of two nodes that differ by little."""
    return shared(size, lambda done: ["join 2 1", "same 1 2", "covers 2 1"])


def eight_nodes(size, nodes=8, epochs=16, shares=100):
    """The facts of sixteen epochs dealt to eight nodes, which exchange messages, fold and discard."""
    pages = measure.pages_of(measure.room_of(size))
    facts = list(make_log.facts(measure.room_of(size), pages, epochs - 1, 1 + size // 1000))

    def exchange(done):
        node, other = done % nodes + 1, (done + 1) % nodes + 1
        folds = [f"fold {node} {page}" for page in range(done // nodes % 4, pages, 4)]
        messages = [f"ask {other}", f"answer {node} {2 * done + 1}", f"absorb {other} {2 * done + 2}"]
        return [*folds, f"discard {node}", *messages, f"front {other}"]

    return measure.dealt(facts, nodes, shares, exchange)


TASKS = {it.__name__: it for it in (
    one_page,
    one_page_from_its_end,
    every_page,
    every_page_folded,
    points_all_over,
    from_the_end,
    epochs_from_the_end,
    any_order,
    first_one_last,
    every_other_one,
    truncation_after_ten,
    truncations_at_the_end,
    truncations_at_the_end_falling,
    truncations_at_the_start,
    advance_after_each,
    advances_that_wait,
    discard_after_ten,
    small_messages,
    small_joins,
    eight_nodes,
)}


if __name__ == "__main__":
    raise SystemExit(growth.print_all(__doc__, TASKS, SIZES, {}))
