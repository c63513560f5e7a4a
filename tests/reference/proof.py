"""The proof in a certificate, by docs/FORMATS.md, "Proofs": its fields, or the first fault with its offset there."""

from typing import NamedTuple

from .fault import Fault

LABEL, HASH = b"mtc-subtree/v1\n\0", 32


class Proof(NamedTuple):
    """The interval, the inclusion path, and each signature with the id of its cosigner."""

    start: int
    end: int
    path: list
    signatures: list


class Cursor:
    """Bytes that are read from the left."""

    def __init__(self, text, place, end):
        self.text, self.place, self.end = text, place, end

    def bytes(self, count, begin=None):
        """So many bytes; where they don't fit, the form that began at this offset is reported."""
        if self.place + count > self.end:
            raise Fault("Short", self.place if begin is None else begin)
        self.place += count
        return self.text[self.place - count:self.place]

    def number(self, width, begin=None):
        return int.from_bytes(self.bytes(width, begin), "big")

    def vector(self, width):
        """Bytes after their length, of so many bytes."""
        begin = self.place
        return self.bytes(self.number(width, begin), begin)


def vector(text):
    """Bytes after their length, of two bytes."""
    return len(text).to_bytes(2, "big") + text


def path_in(cursor):
    """The hashes of the inclusion path."""
    text = cursor.vector(2)
    if len(text) % HASH:
        raise Fault("HashLength")
    return [text[at:at + HASH] for at in range(0, len(text), HASH)]


def signatures_in(cursor):
    """The ids of cosigners and their signatures, up to the end."""
    found = []
    while cursor.place < cursor.end:
        begin = cursor.place
        cosigner = cursor.vector(1)
        if not cosigner:
            raise Fault("EmptyId", begin)
        found.append((cosigner, cursor.vector(2)))
    return found


def read(text):
    """The proof that these bytes are."""
    cursor = Cursor(text, 0, len(text))
    start, end, path = cursor.number(8), cursor.number(8), path_in(cursor)
    size = len(cursor.vector(2))
    signatures = signatures_in(Cursor(text, cursor.place - size, cursor.place))
    if cursor.place < cursor.end:
        raise Fault("Trailing")
    return Proof(start, end, path, signatures)


def written(start, end, path, signatures):
    """The bytes of a proof."""
    return start.to_bytes(8, "big") + end.to_bytes(8, "big") + vector(b"".join(path)) + vector(signatures)


def signed_bytes(cosigner, log, start, end, node):
    """What a cosigner signs for a subtree of a log."""
    ids = bytes([len(cosigner)]) + cosigner + bytes([len(log)]) + log
    return LABEL + ids + start.to_bytes(8, "big") + end.to_bytes(8, "big") + node
