"""Changes of one thing in a DER element, or in the tree of a TOML file."""

import json

from reference.der import BIT_STRING, OCTET_STRING, SEQUENCE, Fields, encoded
from reference.fault import Fault

NULL, NOTHING, CONSTRUCTED = b"\x05\0", b"\0\0", 0x20
TAGS = bytes.fromhex("0102030405060c1718303182a0a1a2a31fbf")
# The largest number of TOML.
MOST = 2**63 - 1
VALUES = [1, True, 1.5, "x", "32473.01", [], ["x"], {}, {"x": 1}]


def pieces(text):
    """The elements within an element; none where its contents are no elements."""
    element, found = Fields(text, 0, len(text)).next(), []
    fields = element.fields()
    try:
        while element.tag & CONSTRUCTED or element.tag == OCTET_STRING:
            found.append(fields.next().whole)
    except Fault:
        pass
    return found if b"".join(found) == element.contents else []


def with_proof(cert, proof):
    """The certificate with another proof."""
    return encoded(SEQUENCE, b"".join([*pieces(cert)[:2], encoded(BIT_STRING, b"\0" + proof)]))


def changes(text):
    """Other bytes in place of an element."""
    element = Fields(text, 0, len(text)).next()
    tag, contents = element.tag, element.contents
    yield from (b"", text + text, NULL + text, text + NULL)
    yield from (encoded(one, contents) for one in TAGS)
    for other in (b"", b"\5", contents[1:], contents[:-1], b"\0" + contents, b"\x80" + contents, contents + b"\0",
                  contents + contents, contents + bytes(128), contents + bytes(256), contents + bytes(65536)):
        yield encoded(tag, other)
    size = len(contents).to_bytes(3, "big")
    yield from (bytes([tag, 0x80 | count]) + size[3 - count:] + contents for count in (1, 2, 3))
    yield from (bytes([tag, 0x80]) + contents + NOTHING, bytes([tag, 0x84, 0]) + size + contents)


def variants(text):
    """The element with a change in one place, in itself or in an element within it."""
    yield from changes(text)
    within = pieces(text)
    for at, piece in enumerate(within):
        prefix, following = within[:at], within[at + 1:]
        yield from (encoded(text[0], b"".join([*prefix, other, *following])) for other in variants(piece))
        yield encoded(text[0], b"".join([*prefix, *following, piece]))


def toml(value):
    """A value of a store as TOML."""
    if isinstance(value, dict):
        return "{" + ", ".join(f"{key} = {toml(one)}" for key, one in value.items()) + "}"
    return f"[{', '.join(map(toml, value))}]" if isinstance(value, list) else json.dumps(value)


def others(value):
    """Values in place of one of a store."""
    yield from VALUES
    if isinstance(value, str):
        yield from ("", value + "0", value[:-1], value.upper(), " " + value, value[:-1] + "!", "0" + value, value + ".")
    elif isinstance(value, int):
        yield from (min(value + 1, MOST), value - 1, -1, 0, MOST)
    elif isinstance(value, list):
        yield from ([*value, one] for one in value)
        yield from ([*value[:at], *value[at + 1:]] for at in range(len(value)))
        yield from ([*value[:at], one, *value[at + 1:]] for at in range(len(value)) for one in others(value[at]))
    elif isinstance(value, dict):
        yield from other_tables(value)


def other_tables(table):
    """Tables in place of one: of which a key is missing, has another value, or isn't known."""
    yield {**table, "x": 1}
    for key in table:
        yield {one: value for one, value in table.items() if one != key}
        yield from ({**table, key: value} for value in others(table[key]))
