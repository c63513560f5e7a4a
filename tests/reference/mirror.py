"""The records of a mirror's journal, by docs/FORMATS.md, "The journal of a mirror", and what its commands do over its items, by
docs/COMMANDS.md."""

from functools import lru_cache
from typing import NamedTuple

from . import entry, journal, merkle
from .cosigner import Advance, Refusal, Sign, folded, has_key, id_at
from .fault import Fault
from .log import TILE, TILES, batch_body as log_batch, short, tiles_body

MIRROR, BATCH = 0x21, 0x22
MOST_ITEM, MOST_ITEMS = 65_535, 1 << 32


class State(NamedTuple):
    """The id of the log, the items, each an entry and its key, and the last size of the tiles."""

    id: bytes
    items: list
    tiled: int

    @property
    def size(self):
        return len(self.items)


def is_large(item):
    return sum(map(len, item)) > MOST_ITEM


def started(cursor):
    """The mirror of a first record."""
    if cursor.number(1) != MIRROR:
        raise Fault("WrongTag")
    return State(id_at(cursor), [], 0)


def following(state, cursor):
    """The mirror after a later record."""
    tag = cursor.number(1)
    if tag == BATCH:
        items = [(cursor.vector(2), cursor.vector(2)) for _ in range(cursor.number(2))]
        fits = items and not any(is_large(item) or not entry.fits(*item) for item in items)
        after = state._replace(items=[*state.items, *items])
        fits = fits and after.size < MOST_ITEMS
    elif tag == TILES:
        size = cursor.number(8)
        fits, after = size % TILE == 0 and state.tiled < size <= state.size, state._replace(tiled=size)
    else:
        fits = False
    if not fits:
        raise Fault("BreaksTheRules")
    return after


@lru_cache(maxsize=64)
def opened(text):
    """The mirror of a journal."""
    return folded(text, started, following)


def mirror_body(id):
    """The body of the first record."""
    return bytes([MIRROR]) + short(id)


def batch_body(items):
    """The body of the record of items."""
    return bytes([BATCH]) + log_batch(items)[1:]


def new_items(held, items):
    """The items of a list that aren't there yet; else why none is taken."""
    for number, (one, other) in enumerate(zip(held.items, items)):
        if one != other:
            raise Refusal("Differs", number)
    if len(items) <= held.size:
        raise Refusal("NothingNew")
    return items[held.size:]


def fitting(items):
    """How many of the first items one record holds, none of which is large."""
    for count, item in enumerate(items):
        if is_large(item) or len(batch_body(items[:count + 1])) > journal.MOST:
            return count
    return len(items)


def taken(held, items):
    """The items of a list that the next record adds; else why none is taken."""
    new = new_items(held, items)
    count = fitting(new)
    if count == 0:
        raise Refusal("TooLarge", held.size)
    return new[:count]


def own_list(held, state):
    """The list of the items' entries; where a cosigner with this state doesn't hold its first entries, that is refused."""
    log, mine = merkle.of(held.items), min(state.size, held.size)
    own = log.hash(0, mine) if mine else merkle.NO_ENTRIES
    if state.size > held.size or own != state.root:
        raise Refusal("NotMine", f"{state.root.hex()} {own.hex()}")
    return log


def advance(held, signer, size):
    """The step of a cosigner to the first items, with its proof; else the first refusal of both."""
    if size > held.size:
        raise Refusal("Beyond", held.size)
    log, state = own_list(held, signer.state), signer.state
    if signer.log != held.id:
        raise Refusal("WrongLog")
    if size <= state.size:
        raise Refusal("NotNewer", state.size)
    return Advance(size, log.hash(0, size), log.proof(0, state.size, 0, size) if state.size else [])


def sign(held, signer, start, end):
    """The next signature of a cosigner, of a subtree of the items, with its proof; else the first refusal of both."""
    log, state = own_list(held, signer.state), signer.state
    if not merkle.is_subtree(start, end):
        raise Refusal("BadSubtree")
    if end > state.size:
        raise Refusal("Beyond", state.size)
    if signer.log != held.id:
        raise Refusal("WrongLog")
    has_key(signer)
    return Sign(state.signed, start, end, log.hash(start, end), log.proof(start, end, 0, state.size))
