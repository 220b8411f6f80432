#!/usr/bin/env python3
"""Writes a sound log as fact lines: records of several pages and epochs, truncations that annul records, advances of readers.

    make_log.py --records 10000 --pages 64 > log.txt
    make_log.py --records 10000 --pages 64 --epochs 8 --advances 20 --shuffle 7 > shuffled.txt
    make_log.py --records 10000 --pages 64 --advances 30 --readers 3 --inits --fills > patches.txt

The records are spread evenly over the epochs, and each writes its number at one offset. Each truncation annuls the last tenth of its
epoch's records, at least one. The same arguments give the same log.
"""

import argparse
import random
import sys

GAP = 8  # numbers between the last of an epoch and the `hi` of the next
INIT_EACH = 64  # of so many records one begins its page from zeros
FILL_EACH = 4  # of so many records one fills a range


class Writer:
    """Keeps the chains of the records that are alive, as a database that writes redo records does."""

    def __init__(self, has_inits=False, has_fills=False):
        self.has_inits = has_inits
        self.has_fills = has_fills
        self.epoch = 0
        self.hi = 0
        self.number = 0
        self.alive = []  # (number, page), rising
        self.chains = {}  # page: its alive numbers, rising

    def record(self, page):
        """The next record of the epoch: its segment backlink and its block backlink are the last alive numbers."""
        self.number += 1
        chain = self.chains.setdefault(page, [])
        back = self.alive[-1][0] if self.alive else 0
        block_back = chain[-1] if chain else 0
        self.alive.append((self.number, page))
        chain.append(self.number)
        return f"rec {self.epoch} {self.number} {back} {page} {block_back} {self.patch()}"

    def patch(self):
        """Eight bytes at one offset: the record's number, or one byte of it all over."""
        offset = 8 * (self.number % 512)
        is_init = self.has_inits and self.number % INIT_EACH == 0
        is_fill = self.has_fills and self.number % FILL_EACH == 1
        text = f"{offset}*8:{self.number % 256:02x}" if is_fill else f"{offset}:{self.number:016x}"
        return "init," * is_init + text

    def truncate(self, lo):
        """Begins the next epoch: what is above `lo` is annulled."""
        while self.alive and self.alive[-1][0] > lo:
            _, page = self.alive.pop()
            self.chains[page].pop()
        self.epoch += 1
        self.hi = self.number + GAP
        self.number = self.hi
        return f"cut {self.epoch} {lo} {self.hi}"


def shares(total, parts):
    """The total in nearly equal parts."""
    return [total // parts + (i < total % parts) for i in range(parts)]


def advance(epoch, point, reader):
    return f"min {epoch} {point}" + (f" {reader}" if reader > 1 else "")


def facts(records, pages, epochs, advances, readers=1, has_inits=False, has_fills=False):
    """The fact lines; the advances go round the readers."""
    writer = Writer(has_inits, has_fills)
    choose = random.Random(1)
    owed = 0
    records_of = shares(records, epochs + 1)
    advances_of = shares(advances, epochs + 1)
    for epoch in range(epochs + 1):
        count = records_of[epoch]
        is_last = epoch == epochs
        kept = count if is_last else count - max(1, count // 10)
        first = writer.number + 1
        for _ in range(count):
            yield writer.record(choose.randrange(pages))
        owed += advances_of[epoch]
        if kept > 0 or is_last:
            for i in range(owed):
                point = first + (max(kept, 1) * (i + 1)) // (owed + 1)
                yield advance(epoch, min(point, first + max(kept, 1) - 1), 1 + i % readers)
            owed = 0
        if not is_last:
            yield writer.truncate(first + kept - 1 if kept > 0 else writer.hi)


def main():
    parser = argparse.ArgumentParser(description=__doc__, formatter_class=argparse.RawDescriptionHelpFormatter)
    parser.add_argument("--records", type=int, required=True, help="how many records")
    parser.add_argument("--pages", type=int, required=True, help="how many pages they are spread over, 1 to 65536")
    parser.add_argument("--epochs", type=int, default=0, help="how many truncations, 0 to 65535")
    parser.add_argument("--advances", type=int, default=0, help="how many advances of the minimum read point")
    parser.add_argument("--readers", type=int, default=1, help="how many readers advance in turn, 1 to 15")
    parser.add_argument("--inits", action="store_true", help=f"one of {INIT_EACH} records begins its page from zeros")
    parser.add_argument("--fills", action="store_true", help=f"one of {FILL_EACH} records fills a range")
    parser.add_argument("--shuffle", type=int, metavar="SEED", help="put the facts in a random order")
    parser.add_argument("--run", action="store_true", help="end with `go` and the nodes: a script without steps")
    parser.add_argument("--nodes", type=int, default=1, help="how many nodes the script has, 1 to 64")
    given = parser.parse_args()
    if not 1 <= given.pages <= 65536 or not 0 <= given.epochs <= 65535:
        parser.error("pages go from 1 to 65536, epochs from 0 to 65535")
    if not 1 <= given.readers <= 15:
        parser.error("readers go from 1 to 15")
    if not 1 <= given.nodes <= 64:
        parser.error("nodes go from 1 to 64")
    patches = given.inits, given.fills
    lines = list(facts(given.records, given.pages, given.epochs, given.advances, given.readers, *patches))
    if given.shuffle is not None:
        random.Random(given.shuffle).shuffle(lines)
    if given.readers > 1:
        lines.insert(0, f"roster {given.readers}")
    if given.run:
        lines += ["go", f"nodes {given.nodes}"]
    sys.stdout.write("".join(line + "\n" for line in lines))


if __name__ == "__main__":
    main()
