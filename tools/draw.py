#!/usr/bin/env python3
"""Draws a log, a script after some of its steps, or a run of a volume, as SVG on standard output.

    draw.py FILE                a log (as `fleet check` reads it), or a script (as `fleet run` does) at its end
    draw.py FILE --after N      the script after its first N steps
    draw.py --volume NAME       the messages of a run of a volume (`volume_pictures.py`)
    draw.py --documents         makes each picture that a document has a command for, in its place

From the top: the chain of the segment, with a lane for each epoch and what each truncation annuls; the chain of each page; the
advances of each reader; and of each node what came to it, its anchor, and where its pages may be read. In place of nodes a log
has a row that all its facts came to. A log that is not sound is drawn without nodes, with the first place that breaks a law.

What is said of nodes comes from the rules (`oracle.py`), and not from the program. What a node has folded or dropped does not
show, for it changes no answer. A text that is no log and no script, one of more than 400 facts and a step that is not there end with
a message on standard error and status 2.
"""

import argparse
import itertools
import pathlib
import re
import sys
import textwrap

ROOT = pathlib.Path(__file__).resolve().parents[1]
sys.path.insert(0, str(ROOT / "tests"))

import svg_forms as forms
import volume_pictures
from model import oracle
from model.facts import Advance, Record, of_kind
from model.rules import Meaning, counted, first_fault, is_alive

MOST_FACTS = 400
MARGIN, WIDTH = 16, 880  # at the edges; and what the whole is at least wide
LANE, BOX = 60, 34  # of the segment's chain
PAGE_LANE, PAGE_BOX = 40, 24
READER_ROW, NODE_ROW = 40, 92


class NoPicture(Exception):
    """Why there is nothing to draw, in words."""


# What is drawn


class Log:
    """The facts of a log, each once, in kinds; and what they mean together."""

    def __init__(self, roster, log):
        facts = list(dict.fromkeys(log))
        self.roster, self.facts = roster, log
        self.records = sorted(of_kind(Record, facts), key=Record.key)
        self.cuts = sorted(counted(facts), key=lambda cut: cut.epoch)
        self.advances = of_kind(Advance, facts)
        self.pages = sorted({record.page for record in self.records})
        self.epochs = sorted({0, *(fact.epoch for fact in (*self.records, *self.cuts))})
        self.fault = first_fault(roster, log)
        self.faulty = log[self.fault[0] - 1] if self.fault else None  # the fact that breaks a law
        self.meaning = Meaning(roster, frozenset(facts))

    def numbers(self):
        """Each number that occurs."""
        of_records = (n for r in self.records for n in (r.number, r.back, r.block_back))
        of_cuts = (n for cut in self.cuts for n in (cut.lo, cut.hi))
        return sorted({0, *of_records, *of_cuts, *(advance.point for advance in self.advances)})

    def named(self, record, number, page):
        """The record that a backlink names: the one of the number that is alive in the view of the record's epoch, or None."""
        alive = [r for r in self.records if r.number == number and page in (None, r.page) and is_alive(self.cuts, record.epoch, r)]
        return alive[-1] if alive else None


def standing(meaning, record):
    """What a record is in a meaning."""
    if meaning.is_waiting(record):
        return "waiting"
    if not meaning.is_alive(record):
        return "dead"
    return "linked" if record in meaning.linked else "apart"


def answers_of(meaning):
    """What a node answers, in two lines."""
    front = f"front {meaning.epoch} {meaning.complete} {meaning.min}, anchor {meaning.anchor}"
    if meaning.min > meaning.complete:
        return front, "no point may be read"
    points = f"{meaning.min}" if meaning.min == meaning.complete else f"{meaning.min} to {meaning.complete}"
    return front, f"may be read: {points}"


# The canvas


class Picture(forms.Canvas):
    """A canvas with a column for each number, at equal distances, and labels to their left; `y` is how far down it has come."""

    def __init__(self, log, labels):
        super().__init__()
        numbers = log.numbers()
        words = [str(number) for number in numbers] + [f"p{page}" for page in log.pages]
        self.half = max(18, *(forms.width_of(word, 15) // 2 + 10 for word in words))
        self.left = MARGIN + max(130, *(forms.width_of(label) for label in labels)) + 12
        self.step = max(2 * self.half + 26, min(130, (WIDTH - self.left - 2 * MARGIN) // len(numbers)))
        self.at = {number: self.left + self.step // 2 + i * self.step for i, number in enumerate(numbers)}
        self.right = self.left + self.step * len(numbers)
        self.width = max(WIDTH, self.right + 2 * MARGIN)
        self.tints = {page: forms.TINTS[i % len(forms.TINTS)] for i, page in enumerate(log.pages)}
        self.y = 0

    def above(self, number):
        """Between a number and the next one."""
        return self.at[number] + self.step // 2

    def label(self, y, *lines):
        """Words at the left of a row, the first ones in bold, in the middle of it."""
        top = y + 4 - 8 * (len(lines) - 1)
        for i, line in enumerate(lines):
            self.text(MARGIN, top + 16 * i, line, 12, **({"fill": forms.QUIET} if i else {"font_weight": "bold"}))

    def rule(self):
        """Parts what comes from what went before."""
        self.line(MARGIN, self.y, self.width - MARGIN, self.y, forms.QUIET, stroke_opacity="0.4")


def draw_head(picture, title, subtitle):
    picture.text(MARGIN, 30, title, 17, font_weight="bold")
    picture.text(MARGIN, 50, subtitle, 12, fill=forms.QUIET)
    picture.y = 82
    picture.label(picture.y - 4, "number")
    for number, x in picture.at.items():
        picture.centred(x, picture.y, str(number), 12, fill=forms.QUIET)
    picture.y += 10
    picture.rule()


def draw_grid(picture, begin):
    """A faint line down each column, below all else."""
    front, picture.forms = picture.forms, []
    for x in picture.at.values():
        picture.line(x, begin, x, picture.y, forms.GRID)
    picture.forms += front


# Chains


def way(start, goal, half, high, is_blocked):
    """How an arrow goes from a record's left edge to what its backlink names: up to another lane, along its own, or round others."""
    (begin, y), (x, over) = start, goal
    if over < y:
        return f"M{begin},{y} H{x + 10} Q{x},{y} {x},{y - 10} V{over + high // 2 + 2}"
    end = x + half + 2
    if not is_blocked:
        return f"M{begin},{y} H{end}"
    low = y + high // 2 - 4
    return f"M{begin},{low} Q{(begin + end) // 2},{low + 22} {end},{low}"


def draw_backlink(picture, log, lanes, high, record, page):
    """Of a record in the chain of its page, or of the segment where the page is None."""
    number = record.back if page is None else record.block_back
    start = picture.at[record.number] - picture.half, lanes[record.epoch]
    if number == 0:
        goal, half, high = min(lanes), 2, 20
    else:
        named = log.named(record, number, page)
        goal, half = (named.epoch, picture.half) if named else (record.epoch, 8)
        if named is None:
            picture.centred(picture.at[number], start[1] + 4, "?", 13, font_weight="bold")
    between = [r for r in log.records if r.epoch == record.epoch and number < r.number < record.number and page in (None, r.page)]
    forms.arrow(picture, way(start, (picture.at[number], lanes[goal]), half, high, between))


def draw_chain(picture, log, lanes, high, page=None):
    """A box for each record on the lane of its epoch, and an arrow for each backlink; the chain begins at 0.

    Records of one key, which only logs that are not sound have, lie on each other, each a little further down.
    """
    shown = [r for r in log.records if page in (None, r.page)]
    picture.line(picture.at[0], lanes[min(lanes)] - 10, picture.at[0], lanes[min(lanes)] + 10, stroke_width=4)
    for record in shown:
        draw_backlink(picture, log, lanes, high, record, page)
    seen = []
    for record in shown:
        down = 7 * seen.count(record.key())
        seen.append(record.key())
        x, y = picture.at[record.number] + down, lanes[record.epoch] + down
        forms.box(picture, standing(log.meaning, record), x, y, picture.half, high, picture.tints[record.page])
        if record.init:
            forms.init_edge(picture, x, y, picture.half, high)
        if record == log.faulty:
            picture.mark("fault", x - picture.half, y - high // 2)
        picture.centred(x, y - 1 if page is None else y + 5, str(record.number), 13, font_weight="bold")
        if page is None:
            picture.centred(x, y + 12, f"p{record.page}", 11)


def lanes_of(picture, epochs, high):
    """Where the lane of each epoch is; the picture comes down below them."""
    lanes = {epoch: picture.y + 10 + i * high + high // 2 for i, epoch in enumerate(epochs)}
    picture.y += 20 + len(epochs) * high
    return lanes


def words_of_cut(log, cut):
    """In brackets where that of an epoch before is missing, for then it annuls nothing."""
    words = f"truncation: lo {cut.lo}, hi {cut.hi}"
    return words if cut.epoch <= log.meaning.epoch else f"({words})"


def draw_segment(picture, log):
    picture.label(picture.y + 18, "chain of the segment")
    picture.y += 18
    lanes = lanes_of(picture, log.epochs, LANE)
    first = lanes[log.epochs[0]] - LANE // 2 + 4
    cuts = {cut.epoch: cut for cut in log.cuts}
    for epoch, y in lanes.items():
        if not (cut := cuts.get(epoch)):
            picture.label(y, f"epoch {epoch}")
            continue
        picture.label(y, f"epoch {epoch}", words_of_cut(log, cut))
        picture.mark("hi", picture.above(cut.hi), y)
        if epoch <= log.meaning.epoch:
            begin = picture.above(cut.lo)
            forms.annulled(picture, begin, first, picture.right - begin, y - LANE // 2 - first)
    draw_chain(picture, log, lanes, BOX)
    picture.rule()


def draw_pages(picture, log):
    for page in log.pages:
        epochs = sorted({r.epoch for r in log.records if r.page == page})
        middle = picture.y + 10 + len(epochs) * PAGE_LANE // 2
        picture.label(middle, f"chain of page {page}")
        draw_chain(picture, log, lanes_of(picture, epochs, PAGE_LANE), PAGE_BOX, page)
        picture.rule()


# Points and nodes


def by_point(pairs):
    """For each point what goes with it, both rising, from pairs of the two."""
    return {point: [other for _, other in group] for point, group in itertools.groupby(sorted(set(pairs)), lambda pair: pair[0])}


def listed(numbers):
    """Rising numbers in few words: two or more that follow each other as `1-3`."""
    runs = [[number for _, number in run] for _, run in itertools.groupby(enumerate(numbers), lambda it: it[1] - it[0])]
    return ", ".join(f"{run[0]}-{run[-1]}" if len(run) > 1 else f"{run[0]}" for run in runs)


def draw_advances(picture, log):
    """A row for each reader; with the epoch of each advance, where there are several."""
    for reader in sorted({advance.reader for advance in log.advances}):
        middle = picture.y + READER_ROW // 2
        picture.label(middle, "advances" if log.roster == 1 == reader else f"advances of reader {reader}")
        for point, epochs in by_point((a.point, a.epoch) for a in log.advances if a.reader == reader).items():
            picture.mark("point", picture.at[point], middle - 3)
            if len(log.epochs) > 1:
                picture.centred(picture.at[point], middle + 14, f"epoch {listed(epochs)}", 11, fill=forms.QUIET)
        picture.y += READER_ROW
    if log.advances:
        picture.rule()


def draw_points(picture, log, meaning, y):
    """Each reader's point, and the advances that wait, with the readers' numbers, where there are several."""
    points = by_point((point, i + 1) for i, point in enumerate(meaning.points))
    later = by_point((advance.point, advance.reader) for advance in meaning.waits)
    for kind, groups in (("point", points), ("later point", later)):
        for point, readers in groups.items():
            x = picture.at[point] + (18 if kind == "later point" and point in points else 0)
            picture.mark(kind, x, y)
            words = listed(readers)
            if log.roster > 1:
                picture.centred(x, y + 18, words if forms.width_of(words, 11) < picture.step else f"{len(readers)} readers", 11)


def draw_cuts(picture, meaning, y):
    """The truncations that came, each at its lo; in brackets where that of an epoch before is missing."""
    for lo, epochs in by_point((cut.lo, cut.epoch) for cut in meaning.cuts).items():
        forms.cut(picture, picture.above(lo), y)
        begun, early = ([e for e in epochs if (e <= meaning.epoch) == is_begun] for is_begun in (True, False))
        words = [f"cut {listed(begun)}"] * bool(begun) + [f"(cut {listed(early)})"] * bool(early)
        picture.kinds |= {"early cut"} if early else set()
        picture.centred(picture.above(lo), y - 23, " ".join(words), 11, fill=forms.RED)


def draw_node(picture, log, name, facts):
    """What came to a node, how far its chain goes, its anchor, and where its pages may be read."""
    meaning = Meaning(log.roster, facts)
    y = picture.y + NODE_ROW // 2 - 4
    picture.label(y, name, *answers_of(meaning))
    forms.settled(picture, picture.at[0], picture.at[meaning.anchor], y)
    picture.line(picture.at[0], y, picture.at[meaning.complete], y, stroke_width=2)
    if meaning.min <= meaning.complete:
        forms.readable(picture, picture.at[meaning.min] - 14, picture.at[meaning.complete] + 14, y)
    draw_cuts(picture, meaning, y)
    seen = []
    for record in log.records:
        picture.mark(standing(meaning, record) if record in facts else "absent", picture.at[record.number] + 16 * seen.count(record.number), y)
        seen.append(record.number)
    draw_points(picture, log, meaning, y + 27)
    picture.y += NODE_ROW
    picture.rule()


# The whole


def in_words(log, rows):
    """What the picture shows, for those who do not see it."""
    kinds = (("record", log.records), ("truncation", log.cuts), ("advance", log.advances))
    counts = ", ".join(f"{len(facts)} {kind}{'s' * (len(facts) != 1)}" for kind, facts in kinds)
    return ". ".join([f"A log of {counts}", *(f"{name}: {', '.join(answers_of(Meaning(log.roster, facts)))}" for name, facts in rows)]) + "."


def drawn(log, nodes, title, subtitle):
    """The picture of a log, and of nodes, each the set of its facts; of all its facts, where there are no nodes and it is sound."""
    rows = [(f"node {i + 1}", facts) for i, facts in enumerate(nodes)]
    if not rows and not log.fault:
        rows = [("all facts", frozenset(log.facts))]
    labels = [line for _, facts in rows for line in answers_of(Meaning(log.roster, facts))]
    picture = Picture(log, [*labels, *(words_of_cut(log, cut) for cut in log.cuts), "advances of reader 15"])
    draw_head(picture, title, subtitle)
    begin = picture.y
    draw_segment(picture, log)
    draw_pages(picture, log)
    draw_advances(picture, log)
    for name, facts in rows:
        draw_node(picture, log, name, facts)
    draw_grid(picture, begin)
    height = picture.y + 12 + forms.legend(picture, picture.y + 12, picture.width) + MARGIN
    return picture.svg(picture.width, height, title, f"{subtitle}. {in_words(log, rows)}")


def read_text(text):
    """A log, or a script: a text with the line `go`."""
    read = (oracle.Script if "go" in text.split("\n") else oracle.Log)(text)
    if read.bad is not None:
        raise NoPicture(f"bad line {read.bad}")
    if len(read.facts) > MOST_FACTS:
        raise NoPicture(f"{len(read.facts)} facts, and at most {MOST_FACTS} can be drawn")
    return read


def picture_of(path, after=None):
    """The picture of a file: of a log, or of a script after so many steps, or all."""
    read = read_text(path.read_bytes().decode("latin-1"))
    log, steps = Log(read.roster, read.facts), getattr(read, "steps", [])
    if after is not None and not 0 <= after <= len(steps):
        raise NoPicture(f"there are {len(steps)} steps, and no picture after {after}")
    title = "".join(c if c.isprintable() else "?" for c in path.name)
    if log.fault:
        place, law = log.fault
        return drawn(log, [], title, f"not sound: fact {place} breaks law {law}: {textwrap.shorten(log.faulty.line(), 60)}")
    if not isinstance(read, oracle.Script):
        return drawn(log, [], title, "a sound log")
    fleet, before = oracle.Fleet(read), steps[:after]
    for step in before:
        fleet.step(step)
    last = f"; the last was: {' '.join(map(str, before[-1]))}" if before else ""
    return drawn(log, fleet.nodes, title, f"after {len(before)} of {len(steps)} steps{last}")


def parser():
    made = argparse.ArgumentParser(description=__doc__, formatter_class=argparse.RawDescriptionHelpFormatter)
    subject = made.add_mutually_exclusive_group(required=True)
    subject.add_argument("file", type=pathlib.Path, nargs="?", help="the text of a log or of a script")
    subject.add_argument("--documents", action="store_true", help="make the pictures of the documents")
    subject.add_argument("--volume", choices=sorted(volume_pictures.RUNS), help="a run of a volume")
    made.add_argument("--after", type=int, metavar="N", help="how many steps of the script go before")
    return made


def picture_by(given, folder=pathlib.Path()):
    """The picture of what the words of a command name, with files in the folder."""
    return volume_pictures.drawn(given.volume) if given.volume else picture_of(folder / given.file, given.after)


def pictures():
    """The bytes of each picture, as the command makes it that a document has for it."""
    command = re.compile(r"^    tools/draw\.py (.*) > (docs/pictures/[a-z]+\.svg)$", re.M)
    found = [it for page in sorted(ROOT.glob("docs/*.md")) for it in command.findall(page.read_text())]
    return {ROOT / name: picture_by(parser().parse_args(words.split()), ROOT).encode() for words, name in found}


def main():
    given = parser().parse_args()
    if given.documents:
        for path, content in pictures().items():
            path.write_bytes(content)
        return
    try:
        sys.stdout.buffer.write(picture_by(given).encode())
    except (OSError, NoPicture) as why:
        parser().error(str(why))


if __name__ == "__main__":
    main()
