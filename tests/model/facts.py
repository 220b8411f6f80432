"""Facts: records, truncations and advances, their rules of shape, and the lines that encode them."""

import re
from dataclasses import dataclass

MAX_NUMBER = 2**48 - 1
MAX_EPOCH = 65535
PAGE_LEN = 4096
MOST_PATCHES = 64
MOST_BYTES = 8192
MOST_READERS = 15


# Facts


@dataclass(frozen=True)
class Write:
    offset: int
    data: bytes

    def content(self):
        return self.data

    def word(self):
        return f"{self.offset}:{self.data.hex()}"


@dataclass(frozen=True)
class Fill:
    offset: int
    count: int
    byte: int

    def content(self):
        return bytes([self.byte]) * self.count

    def word(self):
        return f"{self.offset}*{self.count}:{self.byte:02x}"


@dataclass(frozen=True)
class Record:
    epoch: int
    number: int
    back: int
    page: int
    block_back: int
    init: bool
    patches: tuple

    def key(self):
        return self.epoch, self.number

    def is_plain(self):
        return not self.init and all(isinstance(patch, Write) for patch in self.patches)

    def line(self):
        words = ["init"] * self.init + [patch.word() for patch in self.patches]
        return f"rec {self.epoch} {self.number} {self.back} {self.page} {self.block_back} {','.join(words) or '-'}"


@dataclass(frozen=True)
class Cut:
    epoch: int
    lo: int
    hi: int

    def line(self):
        return f"cut {self.epoch} {self.lo} {self.hi}"


@dataclass(frozen=True)
class Advance:
    epoch: int
    reader: int
    point: int

    def line(self):
        return f"min {self.epoch} {self.point}" + (f" {self.reader}" if self.reader > 1 else "")


def has_shape(fact):
    """Whether the numbers of a fact, each within its field, keep the rules of shape."""
    if isinstance(fact, Cut):
        return fact.epoch >= 1 and fact.lo <= fact.hi
    if isinstance(fact, Advance):
        return fact.point >= 1 and 1 <= fact.reader <= MOST_READERS
    return (
        0 <= fact.block_back <= fact.back < fact.number
        and len(fact.patches) <= MOST_PATCHES
        and all(0 < len(patch.content()) <= PAGE_LEN - patch.offset for patch in fact.patches)
        and sum(len(patch.data) for patch in fact.patches if isinstance(patch, Write)) <= MOST_BYTES
    )


def of_kind(kind, facts):
    return [fact for fact in facts if isinstance(fact, kind)]


class BadLine(Exception):
    """The line fits no form of the grammar."""


# Words

NUMBER = re.compile("0|[1-9][0-9]{0,19}")
WRITE = re.compile("([0-9]+):((?:[0-9a-fA-F]{2})+)")
FILL = re.compile(r"([0-9]+)\*([0-9]+):([0-9a-fA-F]{2})")


def number(word, top, least=0):
    if not NUMBER.fullmatch(word) or not least <= int(word) <= top:
        raise BadLine
    return int(word)


def patch_of(word):
    if found := WRITE.fullmatch(word):
        return Write(number(found[1], PAGE_LEN), bytes.fromhex(found[2]))
    if found := FILL.fullmatch(word):
        return Fill(number(found[1], PAGE_LEN), number(found[2], PAGE_LEN), int(found[3], 16))
    raise BadLine


def patches_of(word):
    """Whether the page begins again, and the patches."""
    if word == "-":
        return False, ()
    parts = word.split(",")
    is_init = parts[0] == "init"
    return is_init, tuple(map(patch_of, parts[is_init:]))


# Lines

TOPS = {
    "rec": (MAX_EPOCH, MAX_NUMBER, MAX_NUMBER, 65535, MAX_NUMBER),
    "cut": (MAX_EPOCH, MAX_NUMBER, MAX_NUMBER),
    "min": (MAX_EPOCH, MAX_NUMBER, MOST_READERS),
}


def fact_of(line):
    kind, *words = line.split(" ")
    numbers = [number(word, top) for word, top in zip(words, TOPS.get(kind, ()))]
    if kind == "rec" and len(words) == 6:
        fact = Record(*numbers, *patches_of(words[5]))
    elif kind == "cut" and len(words) == 3:
        fact = Cut(*numbers)
    elif kind == "min" and len(words) in (2, 3):
        epoch, point, reader = numbers if len(words) == 3 else (*numbers, 1)
        fact = Advance(epoch, reader, point)
    else:
        raise BadLine
    if not has_shape(fact):
        raise BadLine
    return fact
