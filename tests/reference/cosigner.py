"""Requests to a cosigner, the records of its journal, and its export, by the sections of docs/FORMATS.md on them."""

from functools import lru_cache
from typing import NamedTuple

from . import journal, merkle
from .fault import Fault
from .hss import LMOTS, LMS, is_hss_key, number_at
from .proof import HASH, Cursor, path_in
from .store import is_anchor_id

COSIGNER, ADVANCE, SIGN, CHILD, COSIGNER_2, SECRET = 0x11, 0x12, 0x13, 0x14, 0x15, 48
# A cosigner's key has one level or two, each of one of these heights.
HEIGHTS, MOST_LEVELS = (5, 10), 2


class Advance(NamedTuple):
    """What a cosigner held from then on, or is asked to hold."""

    size: int
    root: bytes
    proof: list


class Sign(NamedTuple):
    """What a cosigner signed, with the number of the one-time key, or is asked to sign, with no number."""

    number: int
    start: int
    end: int
    node: bytes
    proof: list


class Child(NamedTuple):
    """A further lower tree of a cosigner's key, with the typecode of its height."""

    number: int
    lms: int


class Key(NamedTuple):
    """The levels of a cosigner's key, and the height of its tree, which is the upper one of two."""

    levels: int
    height: int


class State(NamedTuple):
    """The size and the root that a cosigner holds, how often it has signed, how many lower trees there are, and their height,
    if it is known."""

    size: int
    root: bytes
    signed: int
    children: int
    lower: int | None


class Opened(NamedTuple):
    """The log of a cosigner, its key, the state that its records lead to, its own id, and of what its private key is made: the
    heights of its trees, the typecode of its one-time signatures, and the secret."""

    log: bytes
    key: Key
    state: State
    id: bytes
    heights: tuple
    ots: int
    secret: bytes


class Export(NamedTuple):
    """The ids of a cosigner and of its log, its public key, its steps, the state after them, and what the key says of trees."""

    cosigner: bytes
    log: bytes
    key: bytes
    steps: list
    state: State
    trees: Key


class Refusal(Fault):
    """Why what a file asks for isn't done, where the file is in its form."""


NEW = State(0, merkle.NO_ENTRIES, 0, 0, None)


def close(cursor):
    if cursor.place < cursor.end:
        raise Fault("Trailing")


def advance_at(cursor):
    """The fields that a request to advance and a record of one share."""
    return Advance(cursor.number(8), cursor.bytes(HASH), path_in(cursor))


def sign_at(cursor, number):
    """The fields that a request to sign and a record of a signature share."""
    return Sign(number, cursor.number(8), cursor.number(8), cursor.bytes(HASH), path_in(cursor))


def request(text, read):
    """The id of the log of a request, and its fields as `read` reads them."""
    cursor = Cursor(text, 0, len(text))
    log = cursor.vector(1)
    if not log:
        raise Fault("EmptyId")
    fields = read(cursor)
    close(cursor)
    return log, fields


def advance_request(text):
    """What a request asks a cosigner to hold."""
    return request(text, advance_at)


def sign_request(text):
    """What a request asks a cosigner to sign, which has no number of a one-time key."""
    return request(text, lambda cursor: sign_at(cursor, None))


def step(body):
    """The step of a record's body."""
    cursor = Cursor(body, 0, len(body))
    tag = cursor.number(1)
    if tag == ADVANCE:
        found = advance_at(cursor)
    elif tag == SIGN:
        found = sign_at(cursor, cursor.number(4))
    elif tag == CHILD:
        found = Child(cursor.number(4), cursor.number(4))
    else:
        raise Fault("WrongTag")
    close(cursor)
    return found


def leads_to(state, asked):
    """Whether what is held is a prefix of a larger list, by its proof; there is none from size 0."""
    if state.size == 0:
        return not asked.proof
    return merkle.is_consistent(0, state.size, state.root, asked.size, asked.root, asked.proof)


def is_part(state, asked):
    """Whether a subtree is one of what is held, by its proof."""
    return merkle.is_consistent(asked.start, asked.end, asked.node, state.size, state.root, asked.proof)


def one_time_keys(key, state):
    """How many one-time keys of a cosigner may sign: those of its tree, or of the lower trees that there are."""
    if key.levels == 1:
        return 1 << key.height
    return state.children << state.lower if state.children else 0


def with_child(state, key, found):
    """The state after a further lower tree, which follows when all keys of the others have signed."""
    lower = LMS.get(found.lms)
    fits = key.levels == 2 and found.number == state.children < 1 << key.height
    fits = fits and lower in HEIGHTS and state.lower in (None, lower) and state.signed == one_time_keys(key, state)
    return state._replace(children=state.children + 1, lower=lower) if fits else None


def following(state, key, found):
    """The state after a step of a cosigner with this key; none where the step breaks the rules."""
    if isinstance(found, Advance):
        fits = state.size < found.size and leads_to(state, found)
        return state._replace(size=found.size, root=found.root) if fits else None
    if isinstance(found, Child):
        return with_child(state, key, found)
    fits = found.number == state.signed < one_time_keys(key, state) and is_part(state, found)
    return state._replace(signed=state.signed + 1) if fits else None


def id_at(cursor):
    """An anchor id after its length."""
    id = cursor.vector(1)
    if not is_anchor_id(id):
        raise Fault("BadId")
    return id


def key_at(cursor):
    """The public key after its length, and what it says of the trees."""
    key = cursor.vector(2)
    if not is_hss_key(key) or number_at(key, 0) > MOST_LEVELS or LMS[number_at(key, 4)] not in HEIGHTS:
        raise Fault("BadKey")
    return key, Key(number_at(key, 0), LMS[number_at(key, 4)])


def record(body, state, key, place):
    """The step of a record, and the state after it."""
    try:
        found = step(body)
        after = following(state, key, found)
    except Fault:
        after = None
    if after is None:
        raise Fault("BadRecord", place)
    return found, after


def export(text):
    """The export that these bytes are; none of no bytes."""
    if not text:
        return None
    cursor, steps, state = Cursor(text, 0, len(text)), [], NEW
    cosigner, log = id_at(cursor), id_at(cursor)
    key, trees = key_at(cursor)
    while cursor.place < cursor.end:
        found, state = record(cursor.vector(4), state, trees, len(steps) + 1)
        steps.append(found)
    return Export(cosigner, log, key, steps, state, trees)


def advance_body(asked):
    """The body of the record of an Advance."""
    hashes = b"".join(asked.proof)
    return bytes([ADVANCE]) + asked.size.to_bytes(8, "big") + asked.root + len(hashes).to_bytes(2, "big") + hashes


def sign_body(asked):
    """The body of the record of a Sign."""
    hashes, place = b"".join(asked.proof), asked.start.to_bytes(8, "big") + asked.end.to_bytes(8, "big")
    return bytes([SIGN]) + asked.number.to_bytes(4, "big") + place + asked.node + len(hashes).to_bytes(2, "big") + hashes


def type_of(height):
    """The typecode of a tree of this height."""
    return next(code for code, known in LMS.items() if known == height)


def child_body(number, lower):
    """The body of the record of a lower tree of this height."""
    return bytes([CHILD]) + number.to_bytes(4, "big") + type_of(lower).to_bytes(4, "big")


def settings_body(id, log, heights, ots, secret):
    """The body of the first record, of a key with a level for each of these heights."""
    types = b"".join(code.to_bytes(4, "big") for code in (*map(type_of, heights), ots))
    ids = b"".join(bytes([len(one)]) + one for one in (id, log))
    return bytes([COSIGNER if len(heights) == 1 else COSIGNER_2]) + ids + types + secret


def exported(held, key, steps):
    """The export of a cosigner with this public key and the bodies of these records."""
    ids = b"".join(bytes([len(one)]) + one for one in (held.id, held.log))
    return ids + len(key).to_bytes(2, "big") + key + b"".join(len(body).to_bytes(4, "big") + body for body in steps)


def settings(body):
    """The cosigner of the first record of a journal."""
    cursor = Cursor(body, 0, len(body))
    tag = cursor.number(1)
    if tag not in (COSIGNER, COSIGNER_2):
        raise Fault("WrongTag")
    id, log = id_at(cursor), id_at(cursor)
    types = [cursor.number(4) for _ in range(1 if tag == COSIGNER else 2)]
    ots = cursor.number(4)
    secret = cursor.bytes(SECRET)
    close(cursor)
    heights = tuple(LMS.get(lms) for lms in types)
    if any(height not in HEIGHTS for height in heights) or ots not in LMOTS:
        raise Fault("BadType")
    lower = heights[1] if len(heights) == 2 else None
    return Opened(log, Key(len(heights), heights[0]), NEW._replace(lower=lower), id, heights, ots, secret)


def folded(text, started, following):
    """What the records of a journal make: `started` reads the first of them, and `following` each later one; else the number of
    the first that breaks the rules."""
    state, count = None, 0
    for body in journal.bodies(text):
        cursor = Cursor(body, 0, len(body))
        try:
            state = started(cursor) if state is None else following(state, cursor)
            close(cursor)
        except Fault:
            raise Fault("BadRecord", count) from None
        count += 1
    if state is None:
        raise Fault("BadRecord", 0)
    return state


@lru_cache(maxsize=64)
def opened(text):
    """The cosigner of a journal."""
    found, count = None, 0
    for body in journal.bodies(text):
        try:
            if found is None:
                found = settings(body)
            else:
                found = found._replace(state=record(body, found.state, found.key, count)[1])
        except Fault:
            raise Fault("BadRecord", count) from None
        count += 1
    if found is None:
        raise Fault("BadRecord", 0)
    return found


def advanced(held, asked_log, asked):
    """That a cosigner may hold what it is asked to; else the refusal of its state."""
    if asked_log != held.log:
        raise Refusal("WrongLog")
    if asked.size <= held.state.size:
        raise Refusal("NotNewer", held.state.size)
    if not leads_to(held.state, asked):
        raise Refusal("BadProof")


def has_key(held):
    """That a one-time key of a cosigner is left that may sign; else the refusal of its state."""
    if held.state.signed == one_time_keys(held.key, held.state):
        is_last = held.key.levels == 1 or held.state.children == 1 << held.key.height
        raise Refusal("Exhausted" if is_last else "NeedsChild")


def signed(held, asked_log, asked):
    """That a cosigner may sign what it is asked to; else the refusal of its state."""
    if asked_log != held.log:
        raise Refusal("WrongLog")
    if not merkle.is_subtree(asked.start, asked.end):
        raise Refusal("BadSubtree")
    if asked.end > held.state.size:
        raise Refusal("Beyond", held.state.size)
    if not is_part(held.state, asked):
        raise Refusal("BadProof")
    has_key(held)


def next_child(held):
    """That a cosigner's key may have a further lower tree; else the refusal of its state."""
    if held.key.levels == 1:
        raise Refusal("OneLevel")
    left = one_time_keys(held.key, held.state) - held.state.signed
    if left:
        raise Refusal("ChildLeft", left)
    if held.state.children == 1 << held.key.height:
        raise Refusal("Exhausted")
