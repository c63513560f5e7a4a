"""Journals, by docs/FORMATS.md, "Journals": the bodies of their records, or the first fault with its offset."""

from .fault import Fault

HEADER, MOST = b"mtc-journal/v1\n\0", 131_072
CLOSED, OPEN = 0, 1


def bodies(text):
    """The bodies of the records, of which each may be tested before the next one is read."""
    place = len(HEADER)
    if not text.startswith(HEADER):
        raise Fault("NotJournal")
    while place < len(text):
        if text[place] == CLOSED:
            return
        length = text[place + 1:place + 5]
        size = int.from_bytes(length, "big")
        if len(length) == 4 and not 1 <= size <= MOST:
            raise Fault("BadLength", place)
        body = text[place + 5:place + 5 + size]
        if len(length) < 4 or len(body) < size:
            break
        yield body
        place += 5 + size
    raise Fault("CutShort", place)


def written(records):
    """The journal of these records."""
    return HEADER + b"".join(bytes([OPEN]) + len(body).to_bytes(4, "big") + body for body in records) + bytes([CLOSED])


def end_of(text):
    """The offset of the closed commit byte that ends the records."""
    return len(HEADER) + sum(5 + len(body) for body in bodies(text))


def appended(text, body):
    """The file of a journal after an append: the commit byte that ended it is open. What stood after it is cut off, and if the file
    is longer, zeros follow the record."""
    record = bytes([OPEN]) + len(body).to_bytes(4, "big") + body + bytes([CLOSED])
    return (text[:end_of(text)] + record).ljust(len(text), b"\0")
