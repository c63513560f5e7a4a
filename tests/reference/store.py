"""What a relying party holds of one log, by docs/FORMATS.md, "Store file", and docs/COMMANDS.md, "verify"."""

import base64
import re
import tomllib
from typing import NamedTuple

from .der import IDENTIFIER, SEQUENCE, SET, UTF8_STRING, Fields, encoded
from .fault import Fault
from .hss import is_hss_key
from .merkle import is_subtree

LOG_NAME = bytes.fromhex("060a2b0601040182da4b2f01")
MOST_COSIGNERS, MOST_ID = 64, 255
ROOT_KEYS = ("log", "cosigner", "rule", "subtree", "revoked")


class Store(NamedTuple):
    """The log's id and name, from where on its entries name algorithms, ids and keys of cosigners, rules over their
    places, trusted subtrees, revoked ranges."""

    log: bytes
    name: bytes
    algorithm_from: int | None
    cosigners: list
    rules: list
    subtrees: list
    revoked: list

    def form_at(self, index):
        """The form of the entry at an index."""
        return 1 if self.algorithm_from is None or index < self.algorithm_from else 2


def anchor_id(text):
    """An id from its text, each arc in the fewest bytes of seven bits (X.690, 8.20); none from another text."""
    arc = "(0|[1-9][0-9]{0,19})"
    if not isinstance(text, str) or not re.fullmatch(rf"{arc}(\.{arc})*", text, re.ASCII):
        return None
    found, arcs = b"", [int(one) for one in text.split(".")]
    for one in arcs:
        digits = [one >> shift & 0x7F for shift in range(63, -1, -7) if one >> shift or shift == 0]
        found += bytes([0x80 | digit for digit in digits[:-1]] + digits[-1:])
    return found if max(arcs) < 1 << 64 and len(found) <= MOST_ID else None


def is_anchor_id(octets):
    """Whether bytes are an anchor id: each arc ends, is in the fewest bytes and below 2^64."""
    arc, begins = 0, True
    for byte in octets:
        if begins and byte == 0x80:
            return False
        arc, begins = (0 if begins else arc) << 7 | byte & 0x7F, byte < 0x80
        if arc >> 64:
            return False
    return begins and 1 <= len(octets) <= MOST_ID


def id_text(octets):
    """The text of an id, if it is an anchor id."""
    arcs, arc = [], 0
    for byte in octets:
        arc = arc << 7 | byte & 0x7F
        if byte < 0x80:
            arcs, arc = [*arcs, str(arc)], 0
    return ".".join(arcs) if is_anchor_id(octets) else None


def log_name(text):
    """The name of the log whose id has this text ("The name of a log")."""
    name = LOG_NAME + encoded(UTF8_STRING, text.encode())
    for tag in (SEQUENCE, SET, SEQUENCE):
        name = encoded(tag, name)
    return name


def log_of(name):
    """The text of the id of the log whose name this is; none of another name."""
    fields = Fields(name, 0, len(name))
    try:
        for tag in (SEQUENCE, SET, SEQUENCE):
            fields = fields.next(tag).fields()
        fields.next(IDENTIFIER)
        text = fields.next(UTF8_STRING).contents.decode()
    except (Fault, UnicodeDecodeError):
        return None
    return text if anchor_id(text) and log_name(text) == name else None


def public_key(text):
    """The HSS public key that stands in base64; none from another value."""
    if not isinstance(text, str) or not re.fullmatch("[A-Za-z0-9+/]{80}", text):
        return None
    key = base64.b64decode(text)
    return key if is_hss_key(key) else None


def number(value):
    """A number from 0 on; none from another value."""
    return value if type(value) is int and value >= 0 else None


def tree_hash(value):
    """A hash in hexadecimal; none from another value."""
    fits = isinstance(value, str) and re.fullmatch("[0-9a-fA-F]{64}", value)
    return bytes.fromhex(value) if fits else None


def checked(table, *keys):
    """The table, which is one and has no other keys."""
    if not isinstance(table, dict):
        raise Fault("BadValue", "Table")
    if not set(table) <= set(keys):
        raise Fault("UnknownKey")
    return table


def field(table, key, name, read):
    """What a key of a table says; a bad value is read as none."""
    if key not in table:
        raise Fault("Missing", name)
    value = read(table[key])
    if value is None:
        raise Fault("BadValue", name)
    return value


def items(root, key):
    """The items of an array that may be missing."""
    value = root.get(key, [])
    if not isinstance(value, list):
        raise Fault("BadValue", "Table")
    return value


def cosigner(table, place):
    """The id and the key of a cosigner; there are not too many."""
    checked(table, "id", "key")
    id = field(table, "id", "CosignerId", lambda text: anchor_id(text) if place < MOST_COSIGNERS else None)
    return id, field(table, "key", "CosignerKey", public_key)


def rule(table, ids):
    """The places of different cosigners, and how many of them have to have signed."""
    def places(texts):
        named = [anchor_id(text) for text in texts] if isinstance(texts, list) else [None]
        fits = all(one in ids for one in named) and len(set(named)) == len(named)
        return [ids.index(one) for one in named] if fits else None

    checked(table, "cosigners", "count")
    found = field(table, "cosigners", "Cosigners", places)
    return found, field(table, "count", "Count", lambda one: one if number(one) and one <= len(found) else None)


def interval(table):
    return field(table, "start", "Start", number), field(table, "end", "End", number)


def subtree(table):
    """A trusted subtree."""
    start, end = interval(checked(table, "start", "end", "hash"))
    return start, end, field(table, "hash", "Hash", tree_hash)


def older(found):
    """The escape of TOML 1.0 for one that 1.1 has added; all others are as they were."""
    word = found[1]
    return "\\u001b" if word == "e" else "\\u00" + word[1:] if len(word) == 3 else found[0]


def parsed(text):
    """The tree of a text of TOML 1.1, as far as that differs from 1.0 within a line (docs/DECISIONS.md)."""
    try:
        return tomllib.loads(re.sub(r"\\(x[0-9A-Fa-f]{2}|.)", older, text.decode().removeprefix("\ufeff")))
    except ValueError:
        raise Fault("NotToml") from None


def read(text):
    """The store that these bytes are."""
    root = checked(parsed(text), *ROOT_KEYS)
    log = checked(root.get("log", {}), "id", "algorithm_from")
    id = field(log, "id", "LogId", lambda one: anchor_id(one) and one)
    algorithm_from = field(log, "algorithm_from", "AlgorithmFrom", number) if "algorithm_from" in log else None
    cosigners = [cosigner(one, place) for place, one in enumerate(items(root, "cosigner"))]
    ids = [one for one, _ in cosigners]
    rules = [rule(one, ids) for one in items(root, "rule")]
    subtrees = [subtree(one) for one in items(root, "subtree")]
    revoked = [interval(checked(one, "start", "end")) for one in items(root, "revoked")]
    if len(set(ids)) < len(ids):
        raise Fault("RepeatedId")
    if len({(start, end) for start, end, _ in subtrees}) < len(subtrees):
        raise Fault("RepeatedSubtree")
    if not all(is_subtree(start, end) for start, end, _ in subtrees) or any(start >= end for start, end in revoked):
        raise Fault("BadRange")
    return Store(anchor_id(id), log_name(id), algorithm_from, cosigners, rules, subtrees, revoked)
