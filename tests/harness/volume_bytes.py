"""What the volume model speaks of, in the bytes of the programs.

A record of the model has no bytes. Here the record of epoch E and number N writes E and N at a place of its page that N picks, or into the
header of page 0, and N at the page's end. What a set of facts means is computed by `model.rules`.
"""

import functools

from model import wire
from model.facts import Advance, Cut, Record, Write
from model.rules import Meaning

PAGES = 3  # that schedules write, from 0
NUMBER_OFFSET = 4088


# Facts


def header_of(epoch, number):
    """What the engine's user puts into page 0; nothing at each third number."""
    return f"{epoch} {number}".encode() * (number % 3)


def own_patch(epoch, number):
    return Write(number % 500 * 8, wire.fields((epoch, 2), (number, 6)))


def commit_patch(generation, epoch, number):
    header = header_of(epoch, number)
    return Write(0, wire.fields((generation, 8), (epoch, 2), (len(header), 2)) + header)


def fact_of(fact, writers):
    """A fact of the model in full; `writers` has the generation that opened each epoch."""
    kind, epoch, *rest = fact
    if kind == "cut":
        return Cut(epoch, *rest)
    if kind == "advance":
        return Advance(epoch, 1, *rest)
    number, back, page, block_back = rest
    patch = own_patch(epoch, number) if page else commit_patch(writers[epoch], epoch, number)
    return Record(epoch, number, back, page, block_back, False, (patch, Write(NUMBER_OFFSET, wire.fields((number, 8)))))


def write_bytes(page, epoch, number):
    """What the event of a write has: the record's bytes with the number 1, no backlinks and epoch 0."""
    return wire.record_bytes(Record(0, 1, 0, page, 0, False, (own_patch(epoch, number),)))


# Messages


@functools.lru_cache(maxsize=20_000)
def meaning_of(facts):
    return Meaning(1, facts)


def book_of(meaning):
    cuts = sorted(meaning.cuts, key=lambda cut: cut.epoch)
    return wire.book_bytes(cuts, meaning.points, sorted(meaning.waits, key=lambda wait: (wait.epoch, wait.point)))


def summary_of(meaning):
    keys = [wire.key_bytes(*key) for key in sorted(record.key() for record in meaning.kept)]
    return b"\x10" + book_of(meaning) + wire.fields((meaning.anchor, 6)) + wire.listed(keys, 4)


def delta_of(facts, base, asked):
    """What a node with this base point answers to the summary of a segment that has the facts `asked`: records that this one lacks, and
    pages at the node's anchor where the node has discarded records above the other anchor."""
    meaning, shown = meaning_of(facts), meaning_of(asked)
    low, pages = min(meaning.anchor, shown.anchor), []
    if base <= shown.anchor:
        base = 0
    else:
        base = low = meaning.anchor
        pages = [wire.image_bytes(page, image) for page in range(PAGES) if any(image := meaning.page(page, base))]
    records = [it for it in facts if isinstance(it, Record) and (meaning.is_waiting(it) or (meaning.is_alive(it) and it.number > low))]
    keys = {it.key() for it in shown.kept}
    records = [wire.record_bytes(it) for it in sorted(records, key=Record.key) if it.key() not in keys]
    return b"\x11" + book_of(meaning) + wire.fields((base, 6)) + wire.listed(pages, 4) + wire.listed(records, 4)


# Frames of words and numbers


def words(*parts):
    """Words and numbers, each after a space but the first; a tuple is its numbers, None is no word."""
    flat = []
    for part in parts:
        flat += part if isinstance(part, tuple) else () if part is None else (part,)
    return " ".join(map(str, flat)).encode()


def pair_of(pair):
    """The numbers of an accepted truncation, or None."""
    return pair and (pair[0], *pair[1][1:])


def under(generation, birth, *parts):
    return words("as", generation, birth, *parts)


def request_bytes(letter, writers):
    """The frame of a letter of the machine's model; not of a part that the machine makes from what it knows."""
    kind, *rest = letter
    if kind in ("status", "fence"):
        return words(kind, *rest)
    if kind == "propose":
        return words(kind, *rest[:2], rest[2][1:])
    if kind == "admit":
        return words(kind, *rest[:4], pair_of(rest[4]))
    if kind == "take":
        return under(*rest[:2], "take ") + wire.fact_bytes(fact_of(rest[2], writers))
    if kind == "pull":
        return under(*rest[:2], "answer ") + summary_of(meaning_of(frozenset(fact_of(fact, writers) for fact in rest[2])))
    return under(*rest, kind)
