"""Random captures: values of each form, with numbers that are out of their order or range, spoilt in a byte, cut off or joined."""

from model import wire
from model.facts import Advance, Cut, Fill, Record, Write


def small(choose, size):
    """A number that is small, or as large as the field holds."""
    most = 256**size - 1
    return choose.choice((0, 1, 2, 3, 3, 4, 5, 5, 6, 7, most - 1, most)) if choose.random() < 0.3 else choose.randrange(1, 8)


def wrong(choose):
    """What a number of elements is wrong by: mostly nothing."""
    return choose.choice((-1, 1)) if choose.random() < 0.05 else 0


def mixed(choose, parts):
    """A list that mostly rises; at times its second element is the first again, or it falls."""
    if len(parts) > 1 and choose.random() < 0.1:
        parts[1] = parts[0]
    return parts[::-1] if choose.random() < 0.1 else parts


def numbers(choose, many, most):
    return mixed(choose, sorted(choose.sample(range(1, most + 1), many)))


def reader(choose, roster):
    """A reader of a roster, at times one that is not there."""
    return choose.choice((0, 1, roster + 1, 16, 255)) if choose.random() < 0.04 else choose.randrange(1, roster + 1)


# Facts


def patch(choose, has_kinds):
    """Mostly a short one; now and then it is empty, too long, or begins where it ends past the page."""
    is_odd = choose.random() < 0.02
    length = choose.choice((0, 4095, 4096, 4097, 5000)) if is_odd else choose.choice((1, 2, 3, 8))
    last = 4096 - min(length, 4096)
    offset = last + 1 if is_odd and choose.random() < 0.3 else choose.choice((0, 1, 4000, last))
    if has_kinds and choose.random() < 0.5:
        return Fill(offset, length, choose.randrange(256))
    return Write(offset, choose.randbytes(length))


def record(choose, epoch=None, number=None):
    number = choose.randrange(1, 20) if number is None else number
    back = choose.randrange(0, number + (choose.random() < 0.1))
    block_back = choose.randrange(0, back + 1 + (choose.random() < 0.1))
    has_kinds, many = choose.random() < 0.5, choose.choice((0, 1, 1, 1, 2, 2, 3, 3, 64, 65))
    flags = has_kinds and (choose.choice((2, 255)) if choose.random() < 0.03 else choose.choice((0, 1, 1)))
    patches = tuple(patch(choose, has_kinds) for _ in range(many))
    own = small(choose, 2) if epoch is None else epoch
    return wire.record_bytes(Record(own, number, back, small(choose, 2), block_back, flags, patches), has_kinds, wrong(choose))


def cut(choose, epoch=None):
    lo = choose.randrange(0, 9)
    return Cut(small(choose, 2) if epoch is None else epoch, lo, lo + choose.randrange(-1 if lo and choose.random() < 0.1 else 0, 9))


def advance(choose):
    named = choose.choice((0, 1, 2, 3, 14, 15, 16, 255)) if choose.random() < 0.3 else choose.randrange(2, 16)
    has_reader = choose.random() < 0.5
    return bytes([5 if has_reader else 3]) + wire.wait_bytes(Advance(small(choose, 2), named, small(choose, 6)), has_reader)


# Messages


def points_of(choose, of_pieces=False):
    """The points of one reader, or of several; most pieces but heads are of one."""
    roster = choose.choice((1, 1, 1, 2, 2, 3, 15)) if not of_pieces or choose.random() < 0.1 else 1
    return [7] if roster == 1 else [choose.randrange(6, 9) for _ in range(roster)]


def book(choose, points):
    """Truncations, points and waiting advances, which mostly are above an epoch and rise by epoch, reader and point."""
    many, roster = choose.randrange(0, 4), len(points)
    cuts = [cut(choose, epoch) for epoch in numbers(choose, many, many + choose.randrange(0, 3))]
    first = choose.choice((many, many, 1, 0))
    places = [(first + choose.randrange(1, 3), reader(choose, roster), small(choose, 6)) for _ in range(choose.randrange(0, 4))]
    if roster == 1:
        places = [(first + n, 1, point) for n, (_, _, point) in enumerate(places, 1)]
    waits = [Advance(*place) for place in mixed(choose, sorted(places))]
    shown = choose.choice((0, 1, 16, 255)) - roster if choose.random() < 0.03 else 0
    return wire.book_bytes(cuts, points, waits, (wrong(choose), shown, wrong(choose)))


def image(choose, page):
    content = bytes(4096) if choose.random() < 0.05 else bytes([choose.randrange(1, 256)]) * 4096
    return wire.image_bytes(page, content)


def records_of(choose, many, size):
    """Records after their number: by rising numbers, mostly of one epoch."""
    epoch = choose.randrange(0, 3)
    parts = [record(choose, epoch + (choose.random() < 0.1), number) for number in numbers(choose, many, max(many, 99))]
    return wire.listed(parts, size, wrong(choose))


def summary(choose):
    points = points_of(choose)
    keys = [wire.key_bytes(choose.choice((0, 0, 0, 1)), number) for number in numbers(choose, choose.randrange(0, 5), 9)]
    anchor = choose.randrange(0, 9)
    return wire.tag(0x10, points) + book(choose, points) + wire.fields((anchor, 6)) + wire.listed(keys, 4, wrong(choose))


def delta(choose):
    points, pages = points_of(choose), choose.choice((0, 0, 0, 1, 2))
    images = wire.listed([image(choose, page) for page in numbers(choose, pages, 5)], 4, wrong(choose))
    head = wire.tag(0x11, points) + book(choose, points) + wire.fields((choose.randrange(0, 9), 6))
    return head + images + records_of(choose, choose.randrange(0, 4), 4)


def piece(choose):
    kind, total = choose.choice((0, 1, 2)), choose.randrange(0, 5)
    points = points_of(choose, kind != 0)
    index = choose.randrange(0, 5) if choose.random() < 0.3 else int(kind != 0)
    if kind == 0:
        content = book(choose, points) + wire.fields((choose.randrange(0, 9), 6))
    elif kind == 1:
        content = image(choose, small(choose, 2))
    else:
        content = records_of(choose, choose.choice((0, 1, 2, 3, 3, 64, 65)), 1)
    return wire.piece_bytes(points, small(choose, 8), index, total, kind, content)


# Captures

FORMS = (record, record, summary, summary, delta, piece, lambda choose: b"\2" + wire.cut_bytes(cut(choose)), advance)


def value(choose):
    data = bytearray(choose.choice(FORMS)(choose))
    how = choose.random()
    if how < 0.15:
        data[choose.randrange(len(data))] = choose.choice((0, 1, 2, 3, 5, 6, 16, 17, 18, 32, 33, 34, 255))
    elif how < 0.25:
        del data[choose.randrange(len(data)) :]
    elif how < 0.30:
        data += bytes([small(choose, 1)])
    return bytes(data)


def line(choose):
    """A value in digits of either case, at times with a digit or another character more."""
    text = value(choose).hex()
    text = text.upper() if choose.random() < 0.2 else text
    at = choose.randrange(len(text) + 1)
    return (text[:at] + choose.choice("0fgG \r:") + text[at:] if choose.random() < 0.03 else text).encode()
