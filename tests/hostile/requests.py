"""Requests that are changed, and what `issue` has to say of them and to add to a log."""

import base64
from itertools import product

from reference import request
from reference.der import encoded
from reference.fault import Fault

from .changes import other_tables, variants
from .files import LOG, text_of

# The journal of docs/FORMATS.md, "A journal byte by byte".
JOURNAL = b"mtc-journal/v1\n\0" + bytes.fromhex("01 0000000e 01 0481fd5901 00000002 00000040 00")
KEY = bytes.fromhex("302a300506032b6570032100") + bytes(32)
ROOT = {"not_before": "2026-01-01T00:00:00Z", "not_after": "2026-01-08T00:00:00Z", "dns": ["a.example", "*.b.example"],
        "common_name": "a", "key": base64.b64encode(KEY).decode()}
HOSTS = ["*", "*.a", "a.*", "**.a", "*a.b", "-a", "a-", "a-b", "a..b", ".a", "a.", ".", "A.B", "a_b", "\u00e4.b", "a b",
         "1", "a\u0660", "xn--a-0", *("a" * count for count in (63, 64)),
         *(".".join(["a" * 63] * 3 + ["a" * count]) for count in (61, 62))]
COMMON_NAMES = ["a" * 64, "a" * 65, "\u00e9" * 32, "\u00e9" * 33, "\0", "a\nb", "\U0001f600" * 16]
DATES = ["1949-12-31T23:59:59Z", "1950-01-01T00:00:00Z", "2049-12-31T23:59:59Z", "2050-01-01T00:00:00Z",
         "9999-12-31T23:59:59Z", "2026-02-29T00:00:00Z", "2024-02-29T00:00:00Z", "2026-01-01T24:00:00Z",
         "2026-01-01T00:00:60Z", "2026-01-01t00:00:00Z", "2026-01-01T00:00:00", "2026-01-01T00:00:00.0Z",
         "2026-01-01 00:00:00Z", "2026-01-01T00:00:00+00:00", "2026-1-01T00:00:00Z", "0000-01-01T00:00:00Z",
         "2026-01-01T00:00:0\u0661Z"]


def requests():
    """one value of a request is another, missing, doubled or not known"""
    empty = {key: value for key, value in ROOT.items() if key != "common_name"}
    roots = [ROOT, empty, *other_tables(ROOT), *other_tables({**empty, "dns": []})]
    roots += [{**empty, "dns": [name]} for name in HOSTS]
    roots += [{**empty, "dns": ["a"] * count} for count in (0, 99, 100, 101)]
    roots += [{**ROOT, "common_name": name} for name in COMMON_NAMES]
    roots += [{**ROOT, "not_before": first, "not_after": last} for first, last in product(DATES, repeat=2)]
    keys = [base64.b64encode(key).decode() for key in (KEY, *variants(KEY), KEY + b"\0", encoded(0x30, KEY))]
    keys += [keys[0][:-1], keys[0] + "=", keys[0][:-2] + "B=", keys[0][:4] + "\n" + keys[0][4:], keys[0][:-4] + "_AA="]
    yield from ((text_of(root),) for root in [*roots, *({**ROOT, "key": key} for key in keys if len(key) < 1 << 16)])
    yield from ((text,) for text in (b"", b"\xff", b"dns = [", b"not_before = 2026-01-01T00:00:00Z\n"))


def items(*pairs):
    """An entries file of entries and keys."""
    return b"".join(len(text).to_bytes(2, "big") + text for pair in pairs for text in pair)


def wanted(text):
    """The status and the two texts of `issue`, and what `entries` then writes of two entries, if there are two."""
    try:
        asked = request.read(text)
    except Fault as fault:
        return [(2, b"", f"mtc: issue: r: {fault}\n".encode()), (4, b"", b"mtc: entries: Beyond 1\n")]
    return [(0, b"issued 1\n", b""), (0, items((bytes(2), b""), (request.entry(asked, LOG, 1), asked.key)), b"")]


def said(run, text):
    """What the program says; `run` writes files and runs it."""
    return [run({"r": text, "j": JOURNAL}, ["issue", "j", "r"]), run({}, ["entries", "j", "2"])]


KINDS = [(requests, wanted, said)]
