#!/usr/bin/env python3
"""Sets landmarks in a log, and compares its lists and its certificates without signatures, what relying parties say of
them, and what audits say, with what is made again from the entries. So are the path of each entry in each subtree of the log, and the
proof of each subtree in each of its beginnings.

Over real files.
Usage: tests/landmarked_log.py [PROGRAM]
"""

import base64
import re
import sys

from cosigned_log import COSIGNERS, LOG, CosignedLog, leaves_of, p256_keys
from harness import Check, Folder, checks_of, program_of, run
from hostile.changes import pieces
from reference import certificate, proof
from reference.der import BIT_STRING, encoded
from reference.merkle import NO_ENTRIES, is_subtree

# The sizes at the landmarks, how many of these are active, and the size of the log.
SIZES, ACTIVE, SIZE = [1, 5, 9, 22, 40], 3, 43
# The index of the certificate that is audited.
AUDITED = 25
LOG_ID = bytes.fromhex("0481fd5901")


def cover(start, end):
    """The subtrees that cover an interval."""
    if end - start == 1:
        return [(start, end)]
    last = end - 1
    mask = (1 << ((start ^ last).bit_length() - 1)) - 1
    middle = last & ~mask
    return [(start & ~((1 << (~start & mask).bit_length()) - 1), middle), (middle, end)]


def active_subtrees():
    """The subtrees of the active landmarks, from the oldest."""
    sizes = [0, *SIZES]
    return [span for number in range(len(SIZES) - ACTIVE, len(SIZES)) for span in cover(sizes[number], sizes[number + 1])]


def covering(index):
    """The subtree of the first landmark above an index, where that landmark is active."""
    for number, size in enumerate(SIZES):
        if index < size:
            spans = cover([0, *SIZES][number], size)
            return next((span for span in spans if span[0] <= index < span[1] and number >= len(SIZES) - ACTIVE), None)
    return None


def subtrees(size):
    """All subtrees of the first entries, by their starts and ends."""
    return [(start, end) for start in range(size) for end in range(start + 1, size + 1) if is_subtree(start, end)]


class LandmarkedLog(CosignedLog):
    """A log with landmarks."""

    def __init__(self, program):
        Folder.__init__(self, program)
        self.size, self.reported = SIZE, []
        self.run("init-log", "j", LOG, ACTIVE, SIZE)
        keys = p256_keys()
        for size in range(1, SIZE + 1):
            if size > 1:
                self.issue(size - 1, next(keys))
            if size in SIZES:
                self.reported.append(self.run("landmark j").decode())
        self.text = self.run("entries", "j", SIZE, into="entries")
        self.leaves = leaves_of(self.text)
        self.run("landmarks j", into="list")

    def tables(self, changed=None):
        """The tables of a store for the active landmarks; the hash of one may have another last digit."""
        text = ""
        for span in active_subtrees():
            digits = self.leaves.hash(*span).hex()
            digits = digits[:-1] + "10"[digits[-1] == "1"] if span == changed else digits
            text += f'[[subtree]]\nstart = {span[0]}\nend = {span[1]}\nhash = "{digits}"\n\n'
        return text

    def trusting(self, changed=None):
        return f'[log]\nid = "{LOG}"\n{self.tables(changed)}'

    def part(self, text, start, end):
        """The tree hash of a part of an entries file, which may be empty, in hexadecimal."""
        leaves, end = leaves_of(text), min(end, len(leaves_of(text).rows[0]))
        return (leaves.hash(start, end) if start < end else NO_ENTRIES).hex()


class Landmarked(Check):
    @classmethod
    def setUpClass(cls):
        cls.log = LandmarkedLog(PROGRAM)
        cls.addClassCleanup(cls.log.close)

    def test_lists(self):
        """the list of the active landmarks, and the tables that are made of it"""
        log = self.log
        self.assertEqual(log.reported, [f"landmark {number} {size}\n" for number, size in enumerate(SIZES, 1)])
        wanted = f"{len(SIZES)} {ACTIVE}\n" + "".join(f"{size}\n" for size in [*reversed(SIZES)][:ACTIVE + 1])
        self.assertEqual(log.read("list").decode(), wanted)
        self.assertEqual(log.run("trust-landmarks", "list", ACTIVE, "entries").decode(), log.tables())
        found = log.ended("trust-landmarks", "list", ACTIVE - 1, "entries")
        self.assertEqual(found, (2, b"", "mtc: trust-landmarks: list: TooManyActive\n"))
        log.run("entries", "j", SIZES[-1] - 1, into="few")
        found = log.ended("trust-landmarks", "list", ACTIVE, "few")
        self.assertEqual(found, (2, b"", "mtc: trust-landmarks: list: BeyondLog\n"))

    def test_certificates(self):
        """each certificate without signatures, by a store that trusts the landmarks"""
        for index in range(1, SIZE):
            span = covering(index)
            if span is None:
                found = self.log.ended("light-cert", "j", index)
                self.assertEqual(found, (4, b"", "mtc: light-cert: NotCovered\n"), index)
                continue
            cert = self.log.run("light-cert", "j", index)
            wanted = proof.written(*span, self.log.leaves.path(index, *span), b"")
            self.assertEqual(pieces(cert)[2], encoded(BIT_STRING, b"\0" + wanted), index)
            self.assertEqual(self.log.judged(cert, self.log.trusting()), f"0 accepted {index}")
            self.assertEqual(self.log.judged(cert, self.log.trusting(span)), "3 refused LandmarkDiffers", index)

    def test_subtrees(self):
        """the hash of each subtree, its proof in each beginning of the log, and the path in it of each entry"""
        leaves, count = self.log.leaves, 0
        self.log.write("none", b"")
        for start, end in subtrees(SIZE):
            for size in range(end, SIZE + 1):
                wanted = LOG_ID + start.to_bytes(8, "big") + end.to_bytes(8, "big") + leaves.hash(start, end)
                hashes = b"".join(leaves.proof(start, end, 0, size))
                found = self.log.run("subtree", "j", start, end, size)
                self.assertEqual(found, wanted + proof.vector(hashes), (start, end, size))
                count += 1
            first = max(start, 1)
            text = self.log.run("certs", "j", first, end, start, end, "none").decode() if first < end else ""
            found = re.findall("-----BEGIN CERTIFICATE-----\n(.*?)-----END", text, re.S)
            self.assertEqual([certificate.read(base64.b64decode(one)).proof for one in found],
                             [proof.written(start, end, leaves.path(index, start, end), b"") for index in range(first, end)])
        self.notes = [f"{len(subtrees(SIZE))} subtrees, {count} proofs"]

    def test_landmark_audits(self):
        """audits of a certificate that is accepted by a landmark"""
        log, (start, end) = self.log, covering(AUDITED)
        store, cert, wanted = log.trusting(), log.run("light-cert", "j", AUDITED), log.leaves.hash(start, end).hex()
        other = log.text.replace(f"n{AUDITED}.".encode(), f"m{AUDITED}.".encode())
        for name, text, count in (("a changed entry", other, SIZE), ("an item too few", None, end - 1),
                                  ("none of the interval", None, start - 1)):
            text = text or log.run("entries", "j", count)
            self.assertEqual(log.audited(cert, store, text), f"3 foreign {wanted} {log.part(text, start, end)}", name)
        self.assertEqual(log.audited(cert, store, log.text), f"0 stands {AUDITED}")
        self.assertEqual(log.audited(cert, log.trusting((start, end)), log.text), "3 refused LandmarkDiffers")

    def test_cosigner_audits(self):
        """audits of a certificate that is accepted by signatures, one of them in the export"""
        log, span = self.log, covering(AUDITED)
        log.cosign(*span)
        cert = log.cert(AUDITED, b"".join(log.signatures), *span)
        store, own = log.store(2), log.run("export", COSIGNERS[0])
        self.assertEqual(log.audited(cert, store, log.text, own), f"0 stands {AUDITED}")
        self.assertEqual(log.judged(cert, log.trusting(span)), "3 refused LandmarkDiffers")
        short, wanted = log.run("entries", "j", SIZE - 1), log.leaves.hash(0, SIZE).hex()
        self.assertEqual(log.audited(cert, store, short, own), f"3 foreign {wanted} {log.part(short, 0, SIZE)}")


if __name__ == "__main__":
    PROGRAM = program_of(sys.argv[1:])
    sys.exit(run(checks_of(Landmarked)))
