#!/usr/bin/env python3
"""Measures the program on inputs that are made to keep a node busy: what they cost, and how that grows with what was sent.

    hostile.py [--peer PROGRAM] [--program PROGRAM] [--only a,b] [--sizes N ..] [--runs N] [--most GROWTH]

Each task is a text over a sound log, whose length grows as its size does. A row shows the CPU seconds, the most memory
held, and for each the exponent of growth from the least size to the greatest, by the bytes of the text. With --peer another program
reads the same texts, and the answers may not differ by a byte. With --most the status is 1 where an exponent is above it.

tests/test_growth.py judges each task at two small sizes by the instructions of its runs, which do not waver, and of texts that are bad
from their first line on the memory held.
"""

import functools
import os

import growth
import instructions
import measure

SIZES = [1_000, 4_000, 16_000]
TURNS = 3  # of calls that are asked again and again
PAGES = 1_000
ADVANCES = 8  # of each epoch
PARTS = 250  # of a bad text, for each one of its size


def script(facts, nodes, *steps):
    return [*facts, "go", f"nodes {nodes}", *steps]


def taken(facts, node=1):
    return measure.takes(range(1, len(facts) + 1), node)


def siblings(size):
    """A record in each epoch, all with one backlink, and then the truncations, which annul all but the last."""
    records = [f"rec {epoch} {epoch + 1} 0 1 0 -" for epoch in range(size)]
    return records, [f"cut {epoch} 0 {epoch}" for epoch in range(1, size + 1)]


def apart(records, cuts):
    """Node 3 takes the records, and node 1 the truncations."""
    count = len(records)
    return [*measure.takes(range(1, count + 1), 3), *measure.takes(range(count + 1, count + len(cuts) + 1), 1)]


def joins_of_waiting(size):
    """Records that wait, and then a joined node that has their truncations."""
    records, cuts = siblings(size)
    return script([*records, *cuts], 3, *apart(records, cuts), *["wipe 2", "join 2 3", "join 2 1"] * TURNS)


def absorbs_of_waiting(size):
    """The same by messages."""
    records, cuts = siblings(size)
    asked = ["ask 2", "answer 3 1", "answer 1 1"]
    return script([*records, *cuts], 3, *apart(records, cuts), *asked, *["wipe 2", "absorb 2 2", "absorb 2 3"] * TURNS)


def chain_of_dead(size):
    """Truncations one after another, each of all that was written, so that all records have one backlink and a page of their own."""
    facts = []
    for number in range(1, size + 1):
        facts += [f"rec {number - 1} {number} 0 {number % 60_000} 0 -", f"cut {number} 0 {number}"]
    return script(facts, 1, *taken(facts))


def dead_with_one_backlink(size):
    """A database that fails again and again behind one record: each epoch's one record is annulled."""
    facts = ["rec 0 1 0 1 0 -", "rec 0 2 1 1 1 -", "cut 1 1 2"]
    for epoch in range(1, size):
        facts += [f"rec {epoch} {epoch + 2} 1 1 1 -", f"cut {epoch + 1} 1 {epoch + 2}"]
    return script(facts, 1, *taken(facts))


def reads_behind_dead(size):
    """The same, and then as many reads of the page after its annulled records."""
    return [*dead_with_one_backlink(size), *["read 1 1 1 0 1"] * size]


def cuts_below_dead(size):
    """A database that fails again and again, each time with a truncation just below its one record since the last."""
    facts = ["rec 0 1 0 1 0 -", "rec 0 3 1 1 1 -"]
    for epoch in range(size):
        facts += [f"cut {epoch + 1} {2 * epoch + 2} {2 * epoch + 3}", f"rec {epoch + 1} {2 * epoch + 5} 1 1 1 -"]
    return script(facts, 1, *taken(facts))


def cuts_below_two(size):
    """The same with two records each time, of which the second one comes first."""
    facts = ["rec 0 1 0 1 0 -"]
    for epoch in range(size):
        number = 4 * epoch + 3
        facts += [f"rec {epoch} {number + 1} {number} 1 {number} -", f"rec {epoch} {number} 1 1 1 -"]
        facts.append(f"cut {epoch + 1} {number - 1} {number + 1}")
    return script(facts, 1, *taken(facts))


def filled(pages):
    """A record that fills each page, and the advance that has them folded."""
    facts = [f"rec 0 {page + 1} {page} {page} 0 0:61" for page in range(pages)]
    return [*facts, f"min 0 {pages}"]


def folds(pages, node=1):
    return [f"fold {node} {page}" for page in range(pages)]


def answers_again(size):
    """The question of a node that has nothing, answered again and again with the images of all pages."""
    pages = min(PAGES // 2, size // 8)
    facts = filled(pages)
    return script(facts, 2, *taken(facts), *folds(pages), "discard 1", "ask 2", *["answer 1 1"] * pages)


def images_joined(size):
    """Folded pages, joined by each of 15 other nodes."""
    pages = min(PAGES, size // 4)
    facts = filled(pages)
    joined = [f"join {node} 1" for node in range(2, 17)]
    return script(facts, 16, *taken(facts), *folds(pages), "discard 1", *joined)


def comparisons(size):
    """Two nodes that hold the same records, compared."""
    facts = [f"rec 0 {number} {number - 1} 0 {number - 1} -" for number in range(1, size + 1)]
    return script(facts, 2, *taken(facts, 1), *taken(facts, 2), *["same 1 2"] * TURNS)


def comparisons_of_fills(size):
    """The same of unfolded pages."""
    facts = filled(min(size, 60_000))
    return script(facts, 2, *taken(facts, 1), *taken(facts, 2), *["same 1 2"] * TURNS)


def crashes(size):
    """Epochs one after another: each has a record that stays, one that its truncation annuls, and that truncation."""
    facts = []
    for epoch in range(size):
        number = 2 * epoch + 1
        before = max(number - 2, 0)
        facts += [f"rec {epoch} {number} {before} 0 {before} -", f"rec {epoch} {number + 1} {number} 0 {number} -"]
        facts.append(f"cut {epoch + 1} {number} {number + 1}")
    return facts


def falling_truncations(size):
    """The facts of many crashes, from the last to the first."""
    facts = crashes(size)
    return script(facts, 1, *measure.takes(range(len(facts), 0, -1)))


def joins_of_falling(size):
    """Two nodes that have every other fact of many crashes, from the last to the first, joined with each other and with a third."""
    facts = crashes(size)
    count = len(facts)
    halves = [*measure.takes(range(count, 0, -2), 1), *measure.takes(range(count - 1, 0, -2), 2)]
    return script(facts, 3, *halves, *["wipe 3", "join 3 1", "join 3 2"] * TURNS)


def cuts_below_all_before(size):
    """Truncations that each cut lower than all before them, taken by one node, and joined and absorbed by another again and again."""
    facts = [f"cut {epoch} {size - epoch} {size}" for epoch in range(1, size + 1)]
    asked = ["ask 2", "answer 1 1"]
    return script(facts, 2, *taken(facts), *asked, *["wipe 2", "absorb 2 2", "wipe 2", "join 2 1"] * TURNS)


def advances_before_their_epochs(size):
    """Advances of epochs that have not begun, several of each, and then the truncations that begin them."""
    last = ADVANCES * size
    advances = [f"min {1 + turn // ADVANCES} {turn + 1}" for turn in range(last)]
    facts = [*advances, *(f"cut {epoch} {last} {last}" for epoch in range(1, size + 1))]
    return script(facts, 1, *taken(facts), "front 1")


def advances_behind_truncations(size):
    """Truncations, and then advances of the first epoch and of the last."""
    last = ADVANCES * size
    cuts = [f"cut {epoch} {last} {last}" for epoch in range(1, size + 1)]
    facts = [*cuts, *(f"min {turn % 2 * size} {turn + 1}" for turn in range(last))]
    return script(facts, 1, *taken(facts), "front 1")


def deep_waits(size):
    """All of many crashes waits for the first truncation, which comes last, at a node and by a message that is absorbed late."""
    facts = crashes(size)
    first = facts.index("cut 1 1 2") + 1
    others = [place for place in range(len(facts), 0, -1) if place != first]
    asked = ["ask 2", "answer 1 1", "absorb 2 2", "take 1 %d" % first, "take 2 %d" % first]
    return script(facts, 2, *measure.takes(others), *asked, *["wipe 2", "absorb 2 2"] * TURNS)


def late_mail(size):
    """The answer to a node that had nothing, absorbed again and again by one that has it all."""
    facts = [f"rec 0 {number} {number - 1} {number % 100} {max(number - 100, 0)} -" for number in range(1, size + 1)]
    return script(facts, 2, *taken(facts), "ask 2", "answer 1 1", *["absorb 2 2"] * TURNS, *["absorb 1 2"] * TURNS)


def discards_over_images(size):
    """Discards after each of many folds."""
    facts = filled(min(size, 60_000))
    pages = len(facts) - 1
    steps = [step for page in range(pages) for step in (f"fold 1 {page}", "discard 1")]
    return script(facts, 1, *taken(facts), *steps)


def absorbs_over_images(size):
    """A message without images, absorbed again and again by a node that holds many, with a discard after each."""
    facts = filled(min(size, 60_000))
    pages = len(facts) - 1
    facts.append(f"cut 1 {pages} {pages}")
    asked = ["ask 1", "answer 2 1"]
    return script(facts, 2, *taken(facts), *taken(facts, 2), *folds(pages), "discard 1", *asked, *["absorb 1 2", "discard 1"] * pages)


def blanks(size):
    """One line of nothing but blanks, which are the separators of fields."""
    return [" " * (PARTS * size)]


def line_ends(size):
    """Nothing but line ends."""
    return [""] * (PARTS * size)


def many_writes(size):
    """One record with many times the writes that a record may have."""
    return ["rec 0 1 0 1 0 " + ",".join(["0:61"] * (PARTS * size))]


TASKS = {it.__name__: it for it in (
    joins_of_waiting,
    absorbs_of_waiting,
    chain_of_dead,
    dead_with_one_backlink,
    reads_behind_dead,
    cuts_below_dead,
    cuts_below_two,
    answers_again,
    images_joined,
    comparisons,
    comparisons_of_fills,
    falling_truncations,
    joins_of_falling,
    cuts_below_all_before,
    advances_before_their_epochs,
    advances_behind_truncations,
    deep_waits,
    late_mail,
    discards_over_images,
    absorbs_over_images,
    blanks,
    line_ends,
    many_writes,
)}


JUDGED = (100, 400)  # the sizes that the test tries
MOST = 1.2
# What may grow faster, and why.
SLOWER = {
    "answers_again": (2.1, "each answer lists all its pages"),
}
IDLE = {0: ["go", "nodes 1"], 2: ["x"]}  # texts that cost nothing by themselves, by the status that their runs end with

# The tasks whose text is bad, and the status that their runs end with.
BAD = {"blanks": 2, "line_ends": 2, "many_writes": 2}
BAD_JUDGED = (4_000, 16_000)  # their sizes, which are judged in no time
MOST_HELD = 3  # how often its own length a bad text may hold


def instructions_of(program, lines, folder, wanted=0):
    """The instructions of a run over the lines, which must end with the given status."""
    text = os.path.join(folder, "given")
    with open(text, "w") as given:
        given.writelines(line + "\n" for line in lines)
    counted = instructions.count(program, "run", text, wanted)
    if counted is None:
        raise RuntimeError(f"a run of {program} was not counted, or did not end with status {wanted}")
    return counted


def grown(program, name, folder):
    """How fast a task's instructions grow, and how fast they may; what a run costs that does nothing is taken off first."""
    status = BAD.get(name, 0)
    idle = instructions_of(program, IDLE[status], folder, status)
    texts = [TASKS[name](size) for size in (BAD_JUDGED if name in BAD else JUDGED)]
    counts = [instructions_of(program, text, folder, status) - idle for text in texts]
    return growth.growth([growth.length(text) for text in texts], counts), SLOWER.get(name, (MOST, ""))[0]


def held_by(program, lines_of, folder, wanted=0):
    """The bytes that a run over the lines holds at most, and those of the text."""
    _, peaks = measure.run_all([program], "run", lines_of, 1, folder, wanted)
    return int(peaks[0] * 1024 * 1024), os.path.getsize(os.path.join(folder, "given"))


def times_held(program, name, folder):
    """How many times its own length a bad text holds; what a run holds that does nothing is taken off first."""
    idle, _ = held_by(program, lambda: IDLE[0], folder)
    held, given = held_by(program, functools.partial(TASKS[name], BAD_JUDGED[-1]), folder, BAD[name])
    return (held - idle) / given


if __name__ == "__main__":
    raise SystemExit(growth.print_all(__doc__, TASKS, SIZES, BAD))
