"""Files that are refused, an output that fails and a file that can't be read: what the commands on them have to say."""

from itertools import product
from typing import NamedTuple

from reference import commands, entry, journal, mirror

from .files import LOG, asked
from .scenes import HELD, LARGER, NOW, advance_request, advanced, cosigned, entries, export, grown_log, issue_request, items
from .scenes import large_item, longer_list, mirror_bodies, mirrored, misfits, new_log, ruled, trusting

# So many bytes a call an output takes that takes all.
ALL = 1000


class Row(NamedTuple):
    """A run: its words, its files, the file of which the first call fails, and what the output takes a call before it fails."""

    label: str
    words: list
    files: dict
    failing: str = None
    takes: int = ALL
    call: int = None
    reported: tuple = ()


# The changes of single bytes of a certificate, each with its label.
CERTIFICATES = {
    "another-tag": {0: 0x31}, "a-length-of-no-form": {1: 0x80}, "version-2": {10: 0x01}, "serial-0": {13: 0x00},
    "a-serial-below-0": {13: 0x80}, "month-13": {61: 0x31, 62: 0x33}, "not-critical": {146: 0x00}, "a-truth-of-01": {146: 0x01},
    "two-algorithms": {175: 0x01}, "an-unused-bit": {178: 0x01}, "a-path-of-31-bytes": {196: 0x1F},
    "a-path-that-is-cut": {196: 0x40}, "a-signature-that-is-cut": {230: 0x01}, "an-empty-interval": {194: 0x00},
    "an-interval-before-the-entry": {194: 0x01}, "an-interval-of-three": {194: 0x03},
}
HEAD = f'[log]\nid = "{LOG}"\n'.encode()
STORES = {
    "empty": b"", "no-toml": b"[log", "no-table": b"log = 1", "another-key": b"x = 1",
    "a-leading-zero": b'[log]\nid = "32473.01"\n', "an-interval-twice": trusting() + trusting().removeprefix(HEAD),
    "nothing-revoked": HEAD + b"[[revoked]]\nstart = 5\nend = 5\n",
}


def changed(text, places):
    """The bytes with others at these places."""
    return bytes(places.get(at, byte) for at, byte in enumerate(text))


def verify_words():
    return ["verify", "c", "store", str(NOW)]


def audit_words():
    return ["audit", "c", "store", str(NOW), "e", "x"]


def requests(text):
    """Requests to advance from a good one."""
    return {"good": text, "a-byte-less": text[:-1], "a-byte-more": text + bytes(1), "another-log": changed(text, {4: 2}),
            "as-large-as-held": changed(text, {12: HELD}), "another-proof": changed(text, {len(text) - 1: text[-1] ^ 1}),
            "no-id": bytes(1) + text[5:], "hashes-of-31-bytes": changed(text, {46: 0x1F})}


def logs():
    """Journals of a log: a good one of a new log, others made of it, and the one of a longer log."""
    text, size = new_log(), len(journal.HEADER)
    return {"new": text, "a-closed-commit-byte": changed(text, {size: 0x00}),
            "another-open-commit-byte": changed(text, {size: 0x80}), "no-last-commit-byte": text[:-1],
            "a-record-that-is-cut": text[:30], "a-record-of-no-bytes": text[:size + 1] + bytes(4) + text[size + 5:],
            "a-header-that-is-cut": text[:size - 1], "longer": grown_log()}


def mirrors():
    """Journals of a mirror: a good one, and others whose last record is another or is cut, or that are none."""
    *first, last = mirror_bodies()
    other = {"an-item-less": last[:2] + b"\1" + last[3:], "no-item": last[:1] + bytes(2), "a-byte-less": last[:-1],
             "a-key-less": mirror.batch_body([(items()[2][0], b"")]), "a-key-more": mirror.batch_body([(bytes(2), items()[2][1])]),
             "tiles-of-three": mirror.tiles_body(3), "a-second-mirror": first[0], "a-batch-of-a-log": b"\6" + last[1:]}
    return {"good": mirrored(), "fewer": journal.written(first), "none": journal.written([]), "without-a-mirror": journal.written([last]),
            "a-log": grown_log(), "a-cosigner": advanced(), "a-record-that-is-cut": mirrored()[:-2],
            **{label: journal.written([*first, body]) for label, body in other.items()}}


def mirror_rows():
    """What a mirror takes, what it writes, and what it has a cosigner hold."""
    lists = {"good": longer_list(), "as-many": longer_list()[:-6], "fewer": entries(2), "no-item": b"", "another-item": entries(LARGER),
             "another-first-item": b"\0\1\7\0\0" + longer_list(), "an-item-that-is-cut": longer_list()[:-1]}
    # What follows the items that the mirror has: one that no list has, and such as fill a record, or are too large for one.
    more = {label: [item] for label, item in misfits().items()}
    more |= {f"{size}-bytes": [large_item(size)] for size in (mirror.MOST_ITEM - 1, mirror.MOST_ITEM, mirror.MOST_ITEM + 1)}
    more |= {"one-and-too-many-bytes": [(bytes(2), b""), large_item(mirror.MOST_ITEM + 1)], "three-of-two-records": [large_item(60_000)] * 3}
    lists |= {label: lists["as-many"] + entry.written(found) for label, found in more.items()}
    for label, text in lists.items():
        yield Row(f"mirror-take:{label}", "mirror-take m e".split(), {"m": mirrored(), "e": text}, reported=("m", "m.tiles"))
    for label, text in mirrors().items():
        yield Row(f"mirror-entries:{label}", "mirror-entries m 4".split(), {"m": text}, reported=("m", "m.tiles"))
    for label, signer, text in (("good", advanced(), mirrored()), ("fewer", advanced(), mirrors()["fewer"]),
                                ("another-list", advanced(LARGER), mirrored()), ("another-log", advanced(), changed(mirrored(), {26: 2})),
                                ("two-cosigners", advanced(), advanced()), ("two-mirrors", mirrored(), mirrored())):
        yield Row(f"mirror-advance:{label}", "mirror-advance s m 4".split(), {"s": signer, "m": text}, reported=("s", "m", "m.tiles"))


def log_words():
    """The commands on such a journal, by their names."""
    return {words.split()[0]: words.split() for words in ("checkpoint j", "issue j r", "cert j 1 0 2 e")}


def rows():
    """Each row with its label."""
    cert, files = asked()["small"], {"c": asked()["small"], "store": trusting()}
    yield Row("cert:good", verify_words(), files)
    for label, places in CERTIFICATES.items():
        yield Row(f"cert:{label}", verify_words(), {**files, "c": changed(cert, places)})
    for label, text in STORES.items():
        yield Row(f"store:{label}", verify_words(), {**files, "store": text})
    audited = {"c": cosigned(), "store": ruled(), "e": entries(5), "x": export()}
    yield Row("audit:good", audit_words(), audited)
    yield Row("entries:an-empty-entry-alone", audit_words(), {**audited, "e": bytes(2)})
    yield Row("export:a-length-alone", audit_words(), {**audited, "x": b"\4"})
    asked_for = {"s": advanced(), "r": advance_request()}
    for label, text in requests(asked_for["r"]).items():
        yield Row(f"request:{label}", ["advance", "s", "r"], {**asked_for, "r": text}, reported=("s",))
    for (name, words), (label, text) in product(log_words().items(), logs().items()):
        given = {"j": text, "r": issue_request(), "e": b""}
        yield Row(f"{name}:{label}", words, {file: given[file] for file in words if file in given}, reported=("j", "j.tiles"))
    yield from mirror_rows()
    yield Row("show:good", ["show", "c"], files)
    yield Row("show:the-output-fails", ["show", "c"], files, takes=1, call=7)
    yield Row("verify:the-store-fails", verify_words(), files, failing="store")
    yield Row("mirror-take:the-list-fails", "mirror-take m e".split(), {"m": mirrored(), "e": b""}, failing="e", reported=("m",))
    yield Row("mirror-entries:the-output-fails", "mirror-entries m 4".split(), {"m": mirrored()}, takes=1, call=300)


def answer(row):
    """The status and the two texts of a run, and what the files hold then that are reported."""
    name, files = row.words[0], dict(row.files)
    if row.failing:
        found = 5, b"", f"mtc: {name}: {row.failing}: Failed\n".encode()
    else:
        found = commands.answer(row.words, files)
    taken = len(found[1]) if row.call is None else row.takes * row.call
    if taken < len(found[1]):
        found = 6, found[1][:taken], f"mtc: {name}: OutputFailed\n".encode()
    return [found, *map(files.get, row.reported)]


def tables():
    """a file is refused, the output fails or a file can't be read"""
    yield from ((row,) for row in rows())


def said(run, row):
    """What the program says over real files."""
    files = {name: None if name == row.failing else text for name, text in row.files.items()}
    found = run(files, row.words, None if row.call is None else row.takes * row.call)
    return [found, *map(run.left, row.reported)]


KINDS = [(tables, answer, said)]
