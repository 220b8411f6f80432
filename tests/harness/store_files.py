"""The bytes of a store's files, as `embedding/src/store/entries.rs` has them."""

from model.wire import fields, framed

POLYNOMIAL = 0x82F63B78
HEADER, HEAD = 36, 20


def crc32c(data):
    left = 0xFFFFFFFF
    for byte in data:
        left ^= byte
        for _ in range(8):
            left = left >> 1 ^ (POLYNOMIAL if left & 1 else 0)
    return left ^ 0xFFFFFFFF


def summed(head):
    return head + fields((crc32c(head), 4))


def log(generation, batches, salt=7):
    """A log with one entry of requests for each batch."""
    text = summed(b"yc log 1" + fields((generation, 8), (salt, 8), (0, 8)))
    for place, batch in enumerate(batches):
        body = framed(batch)
        head = fields((place, 8), (len(body), 4), (crc32c(body), 4))
        text += head + fields((crc32c(fields((salt, 8)) + head), 4)) + body
    return text


def birth(drawn):
    """The file with a node's birth, as `embedding/src/store/birth.rs` has it."""
    return summed(b"yc birth" + fields((drawn, 8)))


def entries(text):
    """Where each entry of a log begins, and where the last one ends."""
    places, at = [], HEADER
    while at < len(text):
        places.append(at)
        at += HEAD + int.from_bytes(text[at + 8 : at + 12], "big")
    return [*places, at]
