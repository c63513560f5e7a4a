"""DER elements (X.690), by the table and the order of faults of docs/FORMATS.md, "DER".

The numbers of the steps are those of that page.
"""

from typing import NamedTuple

from .fault import Fault

BOOLEAN, INTEGER, BIT_STRING, OCTET_STRING, IDENTIFIER = 0x01, 0x02, 0x03, 0x04, 0x06
UTF8_STRING, SEQUENCE, SET = 0x0C, 0x30, 0x31


def encoded(tag, contents):
    """An element with these contents."""
    size = len(contents)
    octets = size.to_bytes(max(size.bit_length() + 7, 8) // 8, "big")
    return bytes([tag]) + (octets if size < 0x80 else bytes([0x80 | len(octets)]) + octets) + contents


class Element(NamedTuple):
    """An element of a text: where it begins, where its contents do, and where it ends."""

    text: bytes
    place: int
    inside: int
    end: int

    @property
    def tag(self):
        return self.text[self.place]

    @property
    def whole(self):
        return self.text[self.place:self.end]

    @property
    def contents(self):
        return self.text[self.inside:self.end]

    def fields(self):
        """The elements that stand in its contents."""
        return Fields(self.text, self.inside, self.end)


def size_at(text, place, end):
    """Where the contents of the element at this place begin, and how many bytes they have: steps 4 and 5."""
    if place + 1 >= end:
        raise Fault("Truncated", place)
    first = text[place + 1]
    if first < 0x80:
        return place + 2, first
    if not 0x81 <= first <= 0x83:
        raise Fault("LongForm", place)
    inside = place + 2 + first - 0x80
    if inside > end:
        raise Fault("Truncated", place)
    size = int.from_bytes(text[place + 2:inside], "big")
    if size < (0x80, 0x100, 0x10000)[first - 0x81]:
        raise Fault("LongForm", place)
    return inside, size


class Fields:
    """Elements one after the other, read from the left."""

    def __init__(self, text, place, end):
        self.text, self.place, self.end = text, place, end

    def tag(self):
        """The tag that stands next; none at the end."""
        return self.text[self.place] if self.place < self.end else None

    def next(self, wanted=None):
        """The next element, of the wanted tag or of any: steps 1 to 6."""
        place, tag = self.place, self.tag()
        if tag is None:
            raise Fault("WrongTag", place)
        if tag & 0x1F == 0x1F:
            raise Fault("HighTag", place)
        if wanted not in (None, tag):
            raise Fault("WrongTag", place)
        inside, size = size_at(self.text, place, self.end)
        if inside + size > self.end:
            raise Fault("Truncated", place)
        self.place = inside + size
        return Element(self.text, place, inside, self.place)

    def close(self):
        """Nothing stands after the last field: step 8."""
        if self.place < self.end:
            raise Fault("Trailing", self.place)


def integer(element):
    """The number of an INTEGER (X.690, 8.3)."""
    contents = element.contents
    prefix = int.from_bytes(contents[:2], "big") >> 7
    if not contents or len(contents) > 1 and prefix in (0, 0x1FF):
        raise Fault("BadInteger", element.place)
    return int.from_bytes(contents, "big", signed=True)


def boolean(element):
    """The value of a BOOLEAN (X.690, 8.2 and 11.1)."""
    if element.contents not in (b"\0", b"\xFF"):
        raise Fault("BadBool", element.place)
    return element.contents == b"\xFF"


def identifier(element):
    """The contents of an OBJECT IDENTIFIER, of which each arc is in the fewest bytes and ends (X.690, 8.19)."""
    contents = element.contents
    starts = [0] + [at + 1 for at, byte in enumerate(contents[:-1]) if byte < 0x80]
    if not contents or contents[-1] >= 0x80 or any(contents[at] == 0x80 for at in starts):
        raise Fault("BadOid", element.place)
    return contents


def bits(element):
    """How many bits at the end of a BIT STRING are unused, and its bytes (X.690, 8.6 and 11.2)."""
    unused, following = element.contents[:1], element.contents[1:]
    last = following[-1] if following else 0xFF
    if not unused or unused[0] > 7 or last & (1 << unused[0]) - 1:
        raise Fault("BadBits", element.place)
    return unused[0], following


def risen(element):
    """The elements of a SET OF don't fall, by tag and length alone (X.690, 11.6)."""
    fields, before = element.fields(), b""
    while fields.tag() is not None:
        one = fields.next().whole
        if one < before:
            raise Fault("SetOrder", element.place)
        before = one
