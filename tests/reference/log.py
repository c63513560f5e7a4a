"""The records of a log's journal, by docs/FORMATS.md, "The journal of a log": its entries, or the first record that breaks the
rules."""

from functools import lru_cache
from typing import NamedTuple

from . import entry
from .cosigner import folded, id_at
from .fault import Fault

LOG, ENTRY, LANDMARK, TILES, SWITCH, BATCH = 1, 2, 3, 4, 5, 6
MOST_ACTIVE, MOST_ENTRIES, TILE = 10_000, 1 << 24, 256
NULL = bytes(2)


class State(NamedTuple):
    """The id of a log, how many landmarks may be active, the limit of its entries, these with their keys, the sizes at its
    landmarks, the last size of its tiles, and from where on its entries name algorithms."""

    id: bytes
    active: int
    limit: int
    items: list
    marks: list
    tiled: int
    switched: int | None

    @property
    def size(self):
        return len(self.items)

    @property
    def form(self):
        """The form of the next entry."""
        return 1 if self.switched is None else 2


def started(cursor):
    """The log of a first record."""
    if cursor.number(1) != LOG:
        raise Fault("WrongTag")
    id, active, limit = id_at(cursor), cursor.number(4), cursor.number(4)
    if not 1 <= active <= MOST_ACTIVE or not 2 <= limit <= MOST_ENTRIES:
        raise Fault("BadSettings")
    return State(id, active, limit, [(NULL, b"")], [], 0, None)


def with_item(state, cursor):
    """The log with the item that is read next: an entry and its key."""
    text, key = cursor.vector(2), cursor.vector(2)
    if state.size == state.limit or not entry.has_form(text, state.form) or not entry.fits(text, key):
        raise Fault("BreaksTheRules")
    return state._replace(items=[*state.items, (text, key)])


def following(state, cursor):
    """The log after a later record."""
    tag = cursor.number(1)
    if tag in (ENTRY, BATCH):
        count = 1 if tag == ENTRY else cursor.number(2)
        fits, after = count > 0, state
        for _ in range(count):
            after = with_item(after, cursor)
    elif tag in (LANDMARK, TILES):
        size = cursor.number(8)
        is_next = size == state.size > max(state.marks, default=0), size % TILE == 0 and state.tiled < size <= state.size
        fits = is_next[tag - LANDMARK]
        after = state._replace(marks=[*state.marks, size]) if tag == LANDMARK else state._replace(tiled=size)
    elif tag == SWITCH:
        size = cursor.number(8)
        fits = state.switched is None and size == state.size
        after = state._replace(switched=size)
    else:
        fits = False
    if not fits:
        raise Fault("BreaksTheRules")
    return after


@lru_cache(maxsize=64)
def opened(text):
    """The log of a journal."""
    return folded(text, started, following)


def short(text):
    return bytes([len(text)]) + text


def log_body(id, active, limit):
    """The body of the first record."""
    return bytes([LOG]) + short(id) + active.to_bytes(4, "big") + limit.to_bytes(4, "big")


def entry_body(text, key):
    """The body of the record of an entry."""
    return bytes([ENTRY]) + b"".join(len(part).to_bytes(2, "big") + part for part in (text, key))


def batch_body(items):
    """The body of the record of several entries with their keys."""
    return bytes([BATCH]) + len(items).to_bytes(2, "big") + b"".join(entry_body(*item)[1:] for item in items)


def switch_body(size):
    """The body of the record of a switch."""
    return bytes([SWITCH]) + size.to_bytes(8, "big")


def landmark_body(size):
    """The body of the record of a landmark."""
    return bytes([LANDMARK]) + size.to_bytes(8, "big")


def tiles_body(size):
    """The body of the record of a size of tiles."""
    return bytes([TILES]) + size.to_bytes(8, "big")
