"""The bytes of facts and messages: an encoder, which takes any numbers that fit their fields, and a decoder by the layouts and the
order of faults alone, which says what `fleet inspect` answers."""

import io
import itertools
import math
import re

from model.facts import MOST_BYTES, MOST_PATCHES, MOST_READERS, PAGE_LEN, Advance, Cut, Fill

NOTHING = b"\x10" + bytes(22)  # the summary of an empty segment

# Encoding


def fields(*numbers):
    """Numbers, each with how many bytes it takes, one after the other."""
    return b"".join(value.to_bytes(size, "big") for value, size in numbers)


def listed(parts, size, more=0):
    """Parts after their number; with `more` a wrong number."""
    return fields((max(0, len(parts) + more), size)) + b"".join(parts)


def patch_bytes(patch, has_kind):
    place = fields((patch.offset, 2), (len(patch.content()), 2))
    if isinstance(patch, Fill):
        return b"\1" + place + bytes([patch.byte])
    return b"\0" * has_kind + place + patch.data


def record_bytes(record, has_kinds=None, more=0):
    """A record with its tag: that of patches with kinds where one is a fill or the page begins again, or where `has_kinds` says so."""
    has_kinds = not record.is_plain() if has_kinds is None else has_kinds
    links = (record.epoch, 2), (record.number, 6), (record.back, 6), (record.page, 2), (record.block_back, 6)
    head = fields((6 if has_kinds else 1, 1), *links) + bytes([record.init]) * has_kinds
    return head + listed([patch_bytes(it, has_kinds) for it in record.patches], 1, more)


def cut_bytes(cut):
    return fields((cut.epoch, 2), (cut.lo, 6), (cut.hi, 6))


def wait_bytes(advance, has_reader):
    return fields((advance.epoch, 2), *[(advance.reader, 1)] * has_reader, (advance.point, 6))


def fact_bytes(fact):
    if isinstance(fact, Cut):
        return b"\2" + cut_bytes(fact)
    if isinstance(fact, Advance):
        return bytes([5 if fact.reader != 1 else 3]) + wait_bytes(fact, fact.reader != 1)
    return record_bytes(fact)


def book_bytes(cuts, points, waits, more=(0, 0, 0)):
    """Truncations, the point of each reader and waiting advances; `more` makes their numbers wrong."""
    is_shared = len(points) > 1
    least = fields(*((point, 6) for point in points))
    shown = fields((max(0, len(points) + more[1]) % 256, 1)) * is_shared + least
    return listed(list(map(cut_bytes, cuts)), 2, more[0]) + shown + listed([wait_bytes(it, is_shared) for it in waits], 4, more[2])


def tag(plain, points):
    """The tag of a message, which says whether its book is one of several readers."""
    return bytes([plain + 16 * (len(points) > 1)])


def key_bytes(epoch, number):
    return fields((epoch, 2), (number, 6))


def image_bytes(page, content):
    return fields((page, 2)) + content


def piece_bytes(points, name, index, total, kind, content):
    """A piece of a snapshot: its head (kind 0), a page (1) or records after their number (2)."""
    return tag(0x12, points) + fields((name, 8), (index, 4), (total, 4), (kind, 1)) + content


def frame(text):
    """A length and the bytes."""
    return fields((len(text), 4)) + text


def framed(requests):
    return b"".join(map(frame, requests))


def read_frame(stream):
    """The next frame of a stream, or None where it ends before that is whole."""
    size = stream.read(4)
    text = stream.read(int.from_bytes(size, "big"))
    return text if frame(text) == size + text else None


def frames_of(text):
    """The frames of a text that is made of whole ones."""
    stream = io.BytesIO(text)
    frames = list(iter(lambda: read_frame(stream), None))
    assert framed(frames) == text, f"no whole frames: {text[:80]!r}"
    return frames


# Decoding

SHORT, TAG, SHAPE, ORDER, REST = 1, 2, 3, 4, 5


class Fault(Exception):
    """The first fault of some bytes, by its number."""


def need(holds, number=SHAPE):
    if not holds:
        raise Fault(number)


class Front:
    """Takes fields from the front of some bytes."""

    def __init__(self, data):
        self.data = data
        self.at = 0

    def bytes(self, size):
        need(self.at + size <= len(self.data), SHORT)
        self.at += size
        return self.data[self.at - size : self.at]

    def whole(self, size, least=0, most=math.inf):
        """A number of so many bytes, in its range."""
        value = int.from_bytes(self.bytes(size), "big")
        need(least <= value <= most)
        return value


# Facts


def patches(front, has_kinds):
    """The words of a record's patches."""
    words, total = [], 0
    for _ in range(front.whole(1, 0, MOST_PATCHES)):
        kind = front.whole(1) if has_kinds else 0
        need(kind <= 1, TAG)
        offset = front.whole(2)
        length = front.whole(2, 1, PAGE_LEN - offset)
        if kind == 1:
            words.append(f"{offset}*{length}:{front.bytes(1).hex()}")
        else:
            total += length
            need(total <= MOST_BYTES)
            words.append(f"{offset}:{front.bytes(length).hex()}")
    return words


def record(front, has_kinds):
    """The key of a record, and its line."""
    epoch, number = front.whole(2), front.whole(6, 1)
    back, page = front.whole(6, 0, number - 1), front.whole(2)
    block_back = front.whole(6, 0, back)
    is_init = front.whole(1, 0, 1) if has_kinds else 0
    words = ["init"] * is_init + patches(front, has_kinds)
    need(not has_kinds or is_init or any("*" in word for word in words))
    return (epoch, number), f"rec {epoch} {number} {back} {page} {block_back} {','.join(words) or '-'}"


def tagged_record(front):
    tag = front.whole(1)
    need(tag in (1, 6), TAG)
    return record(front, tag == 6)


def cut(front):
    epoch, lo = front.whole(2, 1), front.whole(6)
    hi = front.whole(6, lo)
    return epoch, f"cut {epoch} {lo} {hi}"


def advance(front, readers=None, above=-1):
    """An advance of a later epoch, with its reader where the first and the last reader are given."""
    epoch = front.whole(2, above + 1)
    reader = front.whole(1, *readers) if readers else 1
    point = front.whole(6, 1)
    return (epoch, reader, point), f"min {epoch} {point}" + (f" {reader}" if readers else "")


# Messages


def rising(front, count, read, *more):
    """So many elements, each above the one before it; what `read` returns first is its place."""
    places = []
    for _ in range(count):
        place = read(front, *more)[0]
        need(not places or place > places[-1], ORDER)
        places.append(place)
    return places


def book(front, has_roster):
    """The least point, and the inspector's words."""
    cuts = rising(front, front.whole(2), cut)
    complete = next(epoch for epoch in itertools.count() if epoch + 1 not in cuts)
    readers = front.whole(1, 2, MOST_READERS) if has_roster else 1
    least = min([front.whole(6) for _ in range(readers)])
    waits = rising(front, front.whole(4), advance, (1, readers) if has_roster else None, complete)
    return least, f"cuts {len(cuts)} min {least} waits {len(waits)}"


def key(front):
    return ((front.whole(2), front.whole(6, 1)),)


def image(front):
    number = front.whole(2)
    need(any(front.bytes(PAGE_LEN)))
    return (number,)


def summary(front, has_roster):
    least, text = book(front, has_roster)
    anchor = front.whole(6, 0, least)
    keys = rising(front, front.whole(4), key)
    return f"summary {text} anchor {anchor} keys {len(keys)}"


def delta(front, has_roster):
    least, text = book(front, has_roster)
    base = front.whole(6, 0, least)
    pages = rising(front, front.whole(4, 0, math.inf if base else 0), image)
    records = rising(front, front.whole(4), tagged_record)
    return f"delta {text} base {base} pages {len(pages)} records {len(records)}"


def piece(front, has_roster):
    front.bytes(8)
    index = front.whole(4)
    total = front.whole(4, index + 1)
    kind = front.whole(1)
    need(kind <= (0 if has_roster else 2), TAG)
    need((kind == 0) == (index == 0))
    if kind == 0:
        least, _ = book(front, has_roster)
        front.whole(6, 0, least)
        holds = "head"
    elif kind == 1:
        holds = f"page {image(front)[0]}"
    else:
        holds = f"records {len(rising(front, front.whole(1, 1, 64), tagged_record))}"
    return f"piece {index} of {total} {holds}"


# Values

FORMS = {
    0x01: lambda front: record(front, False)[1],
    0x02: lambda front: cut(front)[1],
    0x03: lambda front: advance(front)[1],
    0x05: lambda front: advance(front, (2, MOST_READERS))[1],
    0x06: lambda front: record(front, True)[1],
    0x10: lambda front: summary(front, False),
    0x11: lambda front: delta(front, False),
    0x20: lambda front: summary(front, True),
    0x21: lambda front: delta(front, True),
    0x12: lambda front: piece(front, False),
    0x22: lambda front: piece(front, True),
}


def value(data):
    front = Front(data)
    tag = front.whole(1)
    need(tag in FORMS, TAG)
    text = FORMS[tag](front)
    need(front.at == len(data), REST)
    return text


def line(digits):
    """The answer to a line of a capture, or to the bytes of a value in hexadecimal digits."""
    if not re.fullmatch(b"(?:[0-9a-fA-F]{2})*", digits):
        return "bad hex"
    try:
        return value(bytes.fromhex(digits.decode()))
    except Fault as fault:
        return f"wire {fault.args[0]}"


def inspected(text):
    """What is answered to the lines of a capture."""
    *lines, rest = text.split(b"\n")
    return "".join(f"{line(digits)}\n" for digits in [*lines, *[rest] * bool(rest)]).encode()
