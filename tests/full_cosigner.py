#!/usr/bin/env python3
"""Makes journals of cosigners whose one-time keys have all signed, and compares what is said of them.

The log has 1,024 entries, and each key of one tree of height 10, or of 32 lower trees of height 5, has signed one of them alone.
What `export` writes is made here from the records. `quarrel` finds that the signatures agree; where one is changed so that it
would be in conflict, its record is refused. `cosign` has no key left, and `child` makes no lower tree. Over real files.
Usage: tests/full_cosigner.py [PROGRAM]
"""

import base64
import hashlib
import struct
import sys

from cosignatures import COSIGNER, COSIGNER_ID, LOG, LOG_ID
from harness import Check, Folder, checks_of, program_of, run
from reference import journal, merkle
from reference.cosigner import Advance, Sign, advance_body, child_body, sign_body
from reference.log import short
from reference.proof import vector

KEYS = 1024
# LMS_SHA256_M32_H10, or H5 of both levels, and LMOTS_SHA256_N32_W4 (RFC 8554, sections 4.1 and 5.1), after the record's tag.
ONE_TREE, LOWER_TREES = (0x11, 6, 3), (0x15, 5, 5, 3)
LOWER_KEYS, H5 = 32, 5
SECRET = hashlib.sha384(b"full").digest()
IDS = short(COSIGNER_ID) + short(LOG_ID)


def sign(tree, number, index, node=None):
    """The record of a Sign of one entry by the one-time key of this number."""
    return sign_body(Sign(number, index, index + 1, node or tree.hash(index, index + 1), tree.path(index, 0, KEYS)))


def with_children(records):
    """An Advance and the records of signatures, with that of a lower tree before the first signature of each."""
    held, *signs = records
    at = range(0, len(signs), LOWER_KEYS)
    return [held, *(one for first in at for one in (child_body(first // LOWER_KEYS, H5), *signs[first:first + LOWER_KEYS]))]


def journal_of(secret, records, kind=ONE_TREE):
    """A journal of these records."""
    tag, *types = kind
    return journal.written([bytes([tag]) + IDS + struct.pack(f">{len(types)}I", *types) + secret, *records])


def export_of(key, records):
    """What `export` writes of these records, with this public key."""
    return IDS + vector(key) + b"".join(struct.pack(">I", len(one)) + one for one in records)


class Full(Check):
    @classmethod
    def setUpClass(cls):
        cls.folder = Folder(PROGRAM)
        cls.addClassCleanup(cls.folder.close)
        cls.tree = merkle.List(struct.pack(">Q", at) for at in range(KEYS))
        held = advance_body(Advance(KEYS, cls.tree.hash(0, KEYS), []))
        cls.records = [held] + [sign(cls.tree, at, at) for at in range(KEYS)]
        cls.folder.write("full", journal_of(SECRET, cls.records))
        cls.folder.write("secret", SECRET)
        cls.key = base64.b64decode(cls.folder.run("keygen 10 4 secret"))
        cls.lower_key = base64.b64decode(cls.folder.run("init-cosigner2", "new", COSIGNER, LOG, 5, 5, 4, "secret"))
        cls.folder.write("lower", journal_of(SECRET, with_children(cls.records), LOWER_TREES))
        # The fields of a record of a signature, but for its tag and the number of the key, after the id of the log.
        cls.folder.write("request", short(LOG_ID) + sign(cls.tree, 0, 5)[5:])

    def quarrels(self, records, key=None):
        """What `quarrel` answers to the export of these records: status, output and line."""
        self.folder.write("export", export_of(key or self.key, records))
        return self.folder.ended("quarrel export")

    def refused(self, place):
        return 2, b"", f"mtc: quarrel: export: BadRecord {place}\n"

    def test_export(self):
        """the export of the journal, and its signatures, which agree"""
        self.assertEqual(self.folder.run("export full"), export_of(self.key, self.records))
        self.assertEqual(self.quarrels(self.records), (0, b"agree\n", ""))

    def test_conflicts(self):
        """signatures of one interval: with one hash they agree, and another hash has no proof"""
        held = self.records[:1]
        same = [sign(self.tree, number, 5) for number in range(KEYS)]
        self.assertEqual(self.quarrels(held + same), (0, b"agree\n", ""))
        other = sign(self.tree, KEYS - 1, 5, self.tree.hash(6, 7))
        self.assertEqual(self.quarrels([*held, *same[:-1], other]), self.refused(KEYS + 1))

    def test_keys(self):
        """no key is left, and no record has the number of one more"""
        before = self.folder.read("full")
        self.assertEqual(self.folder.ended("cosign full request"), (4, b"", "mtc: cosign: Exhausted\n"))
        self.assertEqual(self.folder.read("full"), before)
        self.assertEqual(self.quarrels([*self.records, sign(self.tree, KEYS, 5)]), self.refused(KEYS + 2))

    def test_lower_trees(self):
        """the same of a key of two levels; no lower tree follows the last one, or comes before the last signature of the one before it"""
        records, before = with_children(self.records), self.folder.read("lower")
        self.assertEqual(self.folder.run("export lower"), export_of(self.lower_key, records))
        self.assertEqual(self.quarrels(records, self.lower_key), (0, b"agree\n", ""))
        self.assertEqual(self.folder.ended("cosign lower request"), (4, b"", "mtc: cosign: Exhausted\n"))
        self.assertEqual(self.folder.ended("child lower"), (4, b"", "mtc: child: Exhausted\n"))
        self.assertEqual(self.folder.read("lower"), before)
        for more in (sign(self.tree, KEYS, 5), child_body(KEYS // LOWER_KEYS, H5)):
            self.assertEqual(self.quarrels([*records, more], self.lower_key), self.refused(len(records) + 1))
        early = [*records[:LOWER_KEYS + 1], child_body(1, H5)]
        self.assertEqual(self.quarrels(early, self.lower_key), self.refused(LOWER_KEYS + 2))


if __name__ == "__main__":
    PROGRAM = program_of(sys.argv[1:])
    sys.exit(run(checks_of(Full)))
