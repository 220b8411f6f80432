#!/usr/bin/env python3
"""Writes a capture of about a given size: a value of the wire a line, in hexadecimal digits of either case.

    make_capture.py --bytes 1000000 > capture.txt

Records, truncations and advances, and now and then a piece of a snapshot, a summary, or a delta with pages. The same arguments
give the same capture.
"""

import argparse
import random
import sys
from pathlib import Path

sys.path.insert(0, str(Path(__file__).resolve().parents[1] / "tests"))
from model import wire
from model.facts import MAX_NUMBER, Advance, Cut, Fill, Record, Write

POINT = 1000  # the least point of each book


def write(choose):
    return Write(choose.randrange(4064), choose.randbytes(choose.randint(1, 32)))


def patch(choose):
    return Fill(choose.randrange(2048), choose.randint(1, 2048), choose.randrange(256)) if choose.randrange(4) == 0 else write(choose)


def record(choose, forms, epoch, number):
    """A record with its tag: up to four writes, or patches behind a new beginning of the page."""
    back = choose.randrange(number)
    links = epoch, number, back, choose.randrange(65536), choose.randint(0, back)
    is_init = forms.patches and choose.randrange(4) == 0
    make = patch if is_init else write
    return wire.record_bytes(Record(*links, is_init, tuple(make(choose) for _ in range(choose.randrange(5)))))


def cut(choose, epoch):
    lo = choose.randrange(MAX_NUMBER // 2)
    return Cut(epoch, lo, lo + choose.randrange(1000))


def advance(choose, forms, epoch):
    return Advance(epoch, choose.randint(1, forms.readers), choose.randint(1, MAX_NUMBER))


def fact(choose, forms):
    kind, epoch = choose.randrange(20), choose.randint(1, 100)
    if kind > 1:
        return record(choose, forms, epoch, choose.randint(1, MAX_NUMBER))
    return wire.fact_bytes(cut(choose, epoch) if kind == 0 else advance(choose, forms, epoch))


def book(choose, forms):
    """Its complete epoch is the number of its truncations, and what waits is above it."""
    points = [POINT, *(choose.randint(POINT, MAX_NUMBER) for _ in range(forms.readers - 1))]
    cuts = [cut(choose, epoch + 1) for epoch in range(choose.randrange(4))]
    waits = [advance(choose, forms, len(cuts) + 1 + place) for place in range(choose.randrange(4))]
    return points, wire.book_bytes(cuts, points, waits)


def summary(choose, forms, keys):
    points, told = book(choose, forms)
    parts = wire.listed([wire.key_bytes(3, place + 1) for place in range(keys)], 4)
    return wire.tag(0x10, points) + told + wire.fields((choose.randrange(POINT + 1), 6)) + parts


def image(choose, page):
    return wire.image_bytes(page, b"\x01" + choose.randbytes(4095))


def delta(choose, forms):
    points, told = book(choose, forms)
    images = wire.listed([image(choose, page) for page in range(choose.randrange(4))], 4)
    records = wire.listed([record(choose, forms, 3, place + 1) for place in range(choose.randrange(100))], 4)
    return wire.tag(0x11, points) + told + wire.fields((POINT, 6)) + images + records


def piece(choose, forms):
    """A piece of a snapshot of 1000 pieces: the head, a page, or up to 64 records."""
    kind = choose.randrange(3)
    index = choose.randint(1, 999) if kind else 0
    if kind == 0:
        points, told = book(choose, forms)
        return wire.piece_bytes(points, 1, index, 1000, kind, told + wire.fields((choose.randrange(POINT + 1), 6)))
    if kind == 1:
        content = image(choose, choose.randrange(65536))
    else:
        content = wire.listed([record(choose, forms, 3, place + 1) for place in range(choose.randint(1, 64))], 1)
    return wire.piece_bytes([POINT], 1, index, 1000, kind, content)


def value(choose, forms):
    kind = choose.randrange(100)
    if kind == 0:
        return delta(choose, forms)
    if kind == 1:
        return summary(choose, forms, choose.randrange(1000))
    return piece(choose, forms) if kind < 4 else fact(choose, forms)


def lines(size, forms):
    choose, written = random.Random(1), 0
    while written < size:
        digits = value(choose, forms).hex()
        written += len(digits) + 1
        yield digits.upper() if choose.randrange(8) == 0 else digits


class Forms:
    """Of how many readers the values are, and whether their records have fills and begin their page again."""

    def __init__(self, readers=1, patches=False):
        self.readers, self.patches = readers, patches


def main():
    parser = argparse.ArgumentParser(description=__doc__, formatter_class=argparse.RawDescriptionHelpFormatter)
    parser.add_argument("--bytes", type=int, required=True, help="how long the text is to be, at least")
    parser.add_argument("--one-line", action="store_true", help="one summary of that length in place of many values")
    parser.add_argument("--readers", type=int, default=1, choices=range(1, 16), metavar="1..15", help="of how many readers the advances and messages are")
    parser.add_argument("--patches", action="store_true", help="with fills, and records that begin their page again")
    given = parser.parse_args()
    forms = Forms(given.readers, given.patches)
    if given.one_line:
        print(summary(random.Random(1), forms, max(0, given.bytes // 16 - 8)).hex())
        return
    sys.stdout.writelines(line + "\n" for line in lines(given.bytes, forms))


if __name__ == "__main__":
    main()
