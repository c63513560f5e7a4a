"""Each byte of a file set to one value after the other, and what the commands on it have to say."""

import os
from functools import cache
from itertools import product

from reference import commands, journal

from .files import asked
from .rows import audit_words, changed, log_words, verify_words
from .scenes import LARGER, advance_request, advanced, batched_log, childless, cosigned, entries, export, grown_log, issue_request
from .scenes import longer_list, lower_cosigned, lower_export, lower_ruled, mirrored, ruled, trusting, used_up, with_child

# Sixteen values of a byte of DER and of other bytes, of records, and of TOML: small numbers, lengths and tags, signs and digits.
BYTES = bytes.fromhex("00 01 02 03 04 12 13 1f 20 30 31 40 7f 80 81 ff")
RECORDS = bytes.fromhex("00 01 02 03 04 05 06 07 11 12 13 14 15 20 80 ff")
MIRRORED = bytes.fromhex("00 01 02 03 04 05 06 0b 20 21 22 23 30 7f 80 ff")
SIGNS = b"\0\n \"#,-.02=[\\]e\x80"
EACH = bytes(range(256))
IS_WHOLE = os.environ.get("MTC_ALL") == "1"


@cache
def scenes():
    """The words and the files of a run, with the file of which the bytes are set and their values, by its label."""
    small = {"c": asked()["small"], "store": trusting()}
    ruled_by, held = {"c": cosigned(), "store": ruled()}, {"j": grown_log()}
    lower, asked_for = {"c": lower_cosigned(), "store": lower_ruled()}, {"r": advance_request()}
    words, mirroring = log_words(), {"m": mirrored(), "e": longer_list()}
    return {
        "certificate": (verify_words(), small, "c", BYTES),
        "store": (verify_words(), ruled_by, "store", SIGNS),
        "export": (audit_words(), {**ruled_by, "e": entries(LARGER), "x": export()}, "x", BYTES),
        "entries": (audit_words(), {**small, "e": entries(2), "x": b""}, "e", BYTES),
        "journal": (["advance", "s", "r"], {"s": advanced(), **asked_for}, "s", BYTES),
        "request": (["advance", "s", "r"], {"s": advanced(), **asked_for}, "r", BYTES),
        "export-of-two": (audit_words(), {**lower, "e": entries(LARGER), "x": lower_export()}, "x", RECORDS),
        "journal-of-two": (["advance", "s", "r"], {"s": with_child(), **asked_for}, "s", RECORDS),
        "child": (["child", "s"], {"s": childless()}, "s", RECORDS),
        "next-child": (["child", "s"], {"s": journal.written(used_up())}, "s", RECORDS),
        "log": (words["checkpoint"], held, "j", BYTES),
        "issue": (words["issue"], {**held, "r": issue_request()}, "j", BYTES),
        "cert": (words["cert"], {**held, "e": b""}, "j", BYTES),
        "batches": (words["checkpoint"], {"j": batched_log()}, "j", RECORDS),
        "certs": ("certs j 1 4 0 4 e".split(), {"j": batched_log(), "e": b""}, "j", RECORDS),
        "mirror": ("mirror-entries m 4".split(), {"m": mirrored()}, "m", MIRRORED),
        "mirror-take": ("mirror-take m e".split(), mirroring, "m", MIRRORED),
        "mirror-list": ("mirror-take m e".split(), mirroring, "e", BYTES),
        "mirror-advance": ("mirror-advance s m 4".split(), {"s": advanced(), "m": mirrored()}, "m", MIRRORED),
        "mirror-cosigner": ("mirror-advance s m 4".split(), {"s": advanced(), "m": mirrored()}, "s", BYTES),
    }


# What is compared of what a command leaves: the journals, and their tile files.
LEFT = ("s", "j", "m", "j.tiles", "m.tiles")


def answered(label, text):
    """What the readers say where the file that is tried is this one, and the files that are to be left."""
    words, files, name, _ = scenes()[label]
    left = {**files, name: text}
    return [commands.answer(words, left), *map(left.get, LEFT)]


def found(run, label, text):
    """What the program says, and what it leaves."""
    words, files, name, _ = scenes()[label]
    return [run({**files, name: text}, words), *map(run.left, LEFT)]


def cases(label):
    _, files, name, values = scenes()[label]
    tried = EACH if IS_WHOLE else values
    yield from ((label, *case) for case in product(range(len(files[name])), tried))


def with_byte(label, place, value):
    """The file that is tried with a byte in place of another."""
    _, files, name, _ = scenes()[label]
    return changed(files[name], {place: value})


def wanted(label, *change):
    return answered(label, with_byte(label, *change))


def said(run, label, *change):
    return found(run, label, with_byte(label, *change))


def of_file(label, says):
    """The kind of case of one file, with what its line says."""
    def kind():
        return cases(label)

    kind.__doc__ = says
    return kind


SAYS = {
    "certificate": "each byte of a certificate is each of sixteen values, or of all with MTC_ALL=1",
    "store": "the same of a store",
    "export": "the same of an export",
    "entries": "the same of an entries file",
    "journal": "the same of the journal of a cosigner that is to advance",
    "request": "the same of a request to advance, with the journal that is left",
    "log": "the same of the journal of a log, with the files that are left",
    "batches": "the same of the journal of a log with several entries in one record",
    "export-of-two": "the same of an export of a key of two levels",
    "journal-of-two": "the same of the journal of its cosigner, which is to advance",
    "child": "the same of its journal when it is to make its first lower tree",
    "mirror": "the same of the journal of a mirror of which entries are asked",
    "mirror-take": "the same when it is to take one more",
    "mirror-list": "the same of the list from which it takes it",
    "mirror-advance": "the same of its journal when a cosigner is to advance by it",
    "mirror-cosigner": "the same of the journal of that cosigner",
}
KINDS = [(of_file(label, says), wanted, said) for label, says in SAYS.items()]
