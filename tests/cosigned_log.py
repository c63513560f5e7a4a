#!/usr/bin/env python3
"""Has three cosigners sign a log, and compares what `verify` and `audit` say of its certificates.

The keys of the entries are points of P-256, and each entry has two names. Over real files.
Usage: tests/cosigned_log.py [ENTRIES [PROGRAM]]   a power of two from 32 on; the gate takes 1,024. From 256 on the log is tiled at the end
"""

import base64
import hashlib
import sys

from harness import DATES, Check, Folder, checks_of, expect, program_of, run
from hostile.changes import pieces, with_proof
from reference import entry, proof
from reference.der import BIT_STRING, INTEGER, SEQUENCE, encoded
from reference.merkle import List
from reference.proof import vector

LOG = "32473.1"
COSIGNERS = ["32473.2", "32473.3", "32473.4"]
FIRST, LAST = 1767225600, 1767830400
# The bytes that `cosign` writes with a key of height 10 and width 4, and the most of a certificate.
COSIGNATURE, MOST = 2519, 65535
# The size that the gate takes, and the bytes of a proof there with three cosignatures.
SIZE, PROOF = 1024, 7897
# So many entries are added one by one, the others in lists of at most so many.
SINGLE, LISTED = 32, 256

# The field and the generator of P-256, and what its keys begin with (RFC 5480).
PRIME = 2**256 - 2**224 + 2**192 + 2**96 - 1
GENERATOR = (0x6B17D1F2E12C4247F8BCE6E563A440F277037D812DEB33A0F4A13945D898C296,
             0x4FE342E2FE1A7F9B8EE7EB4A7C0F9E162BCE33576B315ECECBB6406837BF51F5)
KEY_HEAD = bytes.fromhex("3059301306072a8648ce3d020106082a8648ce3d03010703420004")


def added(one, other):
    """The sum of two points of P-256 that are no inverses."""
    (x, y), (u, v) = one, other
    rise, run = (3 * x * x - 3, 2 * y) if one == other else (v - y, u - x)
    slope = rise * pow(run, -1, PRIME)
    w = (slope * slope - x - u) % PRIME
    return w, (slope * (x - w) - y) % PRIME


def p256_keys():
    """The public keys of the secrets 1, 2 and so on."""
    point = GENERATOR
    while True:
        yield KEY_HEAD + point[0].to_bytes(32, "big") + point[1].to_bytes(32, "big")
        point = added(point, GENERATOR)


def with_serial(cert, serial):
    """The certificate with another serial number."""
    body, *following = pieces(cert)
    version, _, *fields = pieces(body)
    number = encoded(INTEGER, serial.to_bytes(serial.bit_length() // 8 + 1, "big"))
    changed = encoded(SEQUENCE, b"".join([version, number, *fields]))
    return encoded(SEQUENCE, b"".join([changed, *following]))


def request(number, key):
    """The request for the entry of this number."""
    names = f'dns = ["n{number}.example", "www.n{number}.example"]\n'
    return f'{DATES}{names}key = "{base64.b64encode(key).decode()}"\n'


def secret_of(cosigner):
    return hashlib.sha384(cosigner.encode()).digest()


def leaves_of(text):
    """The list of the entries of an entries file."""
    return List([one for one, _ in entry.items(text)])


class CosignedLog(Folder):
    """A log with its cosigners, and what they have signed of the whole of it."""

    def __init__(self, program, size):
        super().__init__(program)
        self.size = size
        self.run("init-log", "j", LOG, "2", size)
        keys = p256_keys()
        for number in range(1, SINGLE):
            self.issue(number, next(keys))
        for first in range(SINGLE, size, LISTED):
            self.issue_list(range(first, min(first + LISTED, size)), keys)
        self.text = self.run("entries", "j", size)
        self.leaves = leaves_of(self.text)
        self.cosign(0, size)

    def issue(self, number, key):
        self.write("request", request(number, key))
        expect(f"issue {number}", self.run("issue j request"), f"issued {number}\n".encode())

    def issue_list(self, numbers, keys):
        self.write("requests", "".join(f"[[request]]\n{request(number, next(keys))}" for number in numbers))
        wanted = "".join(f"issued {number}\n" for number in numbers)
        expect(f"issue-list from {numbers[0]} on", self.run("issue-list j requests"), wanted.encode())

    def cosign(self, start, end):
        """Has new cosigners hold the log and sign a subtree of it."""
        self.run("consist", "j", 0, self.size, into="advance")
        self.run("subtree", "j", start, end, self.size, into="subtree")
        self.keys, self.signatures = zip(*map(self.cosigned, COSIGNERS))

    def advanced(self, cosigner, journal):
        """The public key of a new cosigner, which holds the log."""
        self.write("secret", secret_of(cosigner))
        key = self.run("init-cosigner", journal, cosigner, LOG, 10, 4, "secret").decode().strip()
        self.run("advance", journal, "advance")
        return key

    def cosigned(self, cosigner):
        """The public key of a new cosigner, and its signature as `cosign` writes it."""
        return self.advanced(cosigner, cosigner), self.run("cosign", cosigner, "subtree")

    def unsigned_export(self):
        """What the first cosigner would export had it signed nothing."""
        self.advanced(COSIGNERS[0], "unsigned")
        return self.run("export unsigned")

    def cert(self, index, signatures, start=0, end=None):
        """The certificate of an entry with these signatures, in a subtree or in all of the log."""
        self.write("signatures", signatures)
        return self.run("cert", "j", index, start, end or self.size, "signatures")

    def store(self, count, more=""):
        """A store of the three cosigners, of which so many have to sign."""
        tables = "".join(f'[[cosigner]]\nid = "{one}"\nkey = "{key}"\n' for one, key in zip(COSIGNERS, self.keys))
        return f'[log]\nid = "{LOG}"\n{tables}[[rule]]\ncosigners = {COSIGNERS}\ncount = {count}\n{more}'

    def said(self, *words, **files):
        """The status of a command over these files, and the line that it writes."""
        for name, text in files.items():
            self.write(name, text)
        status, out, err = self.ended(*words)
        return f"{status} {out.decode()}{err}".strip()

    def judged(self, cert, store, unix_time=FIRST):
        return self.said("verify", "c", "store", unix_time, c=cert, store=store)

    def audited(self, cert, store, text, export=b""):
        return self.said("audit", "c", "store", FIRST, "items", "export", c=cert, store=store, items=text, export=export)

    def proof(self, index, signatures):
        """The bytes of a proof in all of the log."""
        return proof.written(0, self.size, self.leaves.path(index, 0, self.size), signatures)


class Cosigned(Check):
    @classmethod
    def setUpClass(cls):
        cls.log = CosignedLog(PROGRAM, GIVEN_SIZE)
        cls.addClassCleanup(cls.log.close)
        cls.index, cls.all = GIVEN_SIZE - 24, b"".join(cls.log.signatures)
        cls.whole = cls.log.cert(cls.index, cls.all)

    def test_lengths(self):
        """how long signatures and proof are; the proof is made again from the entries"""
        for cosigner, signature in zip(COSIGNERS, self.log.signatures):
            self.assertEqual(len(signature), COSIGNATURE, cosigner)
        wanted, levels = self.log.proof(self.index, self.all), self.log.size.bit_length() - 1
        self.assertEqual(len(wanted), PROOF if self.log.size == SIZE else 20 + 32 * levels + 3 * COSIGNATURE)
        self.assertEqual(pieces(self.whole)[2], encoded(BIT_STRING, b"\0" + wanted))

    def test_signatures(self):
        """certificates by the signatures that they have"""
        accepted, few = f"0 accepted {self.index}", "3 refused TooFewCosigners 1"
        first, second, third = self.log.signatures
        for name, signatures, count, wanted in (
                ("all, two wanted", first + second + third, 2, accepted),
                ("all, three wanted", first + second + third, 3, accepted),
                ("two, three wanted", first + third, 3, few),
                ("two, two wanted", second + third, 2, accepted),
                ("one twice, two wanted", second + second, 2, few),
                ("one twice, one wanted", second + second, 1, accepted),
                ("none, one wanted", b"", 1, few)):
            with self.subTest(name):
                self.assertEqual(self.log.judged(self.log.cert(self.index, signatures), self.log.store(count)), wanted)

    def test_certificates(self):
        """a certificate that is changed, at its times, and by what is revoked"""
        index, whole, accepted = self.index, self.whole, f"0 accepted {self.index}"
        path = self.log.leaves.path(index, 0, self.log.size)
        longer = with_proof(whole, proof.written(0, self.log.size, [*path, path[0]], self.all))
        other, store = with_serial(whole, index + 1), self.log.store(2)
        revoked = "[[revoked]]\nstart = {}\nend = {}\n"
        this, before = revoked.format(index, index + 1), revoked.format(index - 1, index)
        for name, cert, known, unix_time, wanted in (
                ("serial 0", with_serial(whole, 0), store, FIRST, "2 mtc: verify: c: BadSerial"),
                ("the next serial", other, store, FIRST, "3 refused TooFewCosigners 1"),
                ("one hash more", longer, store, FIRST, "3 refused ProofShape WrongLength"),
                ("no proof", with_proof(whole, b""), store, FIRST, "2 mtc: verify: c: Short 0"),
                ("a second early", whole, store, FIRST - 1, "3 refused NotYet"),
                ("the last second", whole, store, LAST, accepted),
                ("a second late", whole, store, LAST + 1, "3 refused Expired"),
                ("revoked", whole, self.log.store(2, this), FIRST, "3 refused Revoked"),
                ("revoked, and no proof", with_proof(whole, b""), self.log.store(2, this), FIRST, "3 refused Revoked"),
                ("the one before is revoked", whole, self.log.store(2, before), FIRST, accepted)):
            with self.subTest(name):
                self.assertEqual(self.log.judged(cert, known, unix_time), wanted)

    def test_audits(self):
        """audits of the certificate by the export of a cosigner, and by what lacks its signature"""
        log, store, own = self.log, self.log.store(2), self.log.run("export", COSIGNERS[0])
        short = log.run("entries", "j", log.size - 1)
        hashes = f"{log.leaves.hash(0, log.size).hex()} {leaves_of(short).hash(0, log.size - 1).hex()}"
        log.cosigned("32473.9")
        for name, entries, export, wanted in (
                ("by the first cosigner", log.text, own, f"0 stands {self.index}"),
                ("the last item is left out", short, own, f"3 foreign {hashes}"),
                ("an empty export", log.text, b"", "3 unrecorded"),
                ("no signature in the export", log.text, log.unsigned_export(), "3 unrecorded"),
                ("a cosigner that the store doesn't know", log.text, log.run("export 32473.9"), "3 unrecorded")):
            with self.subTest(name):
                self.assertEqual(log.audited(self.whole, store, entries, export), wanted)

    def test_most(self):
        """the most signatures that a certificate takes, and a byte more"""
        def filled(size):
            return b"\1a" + vector(bytes(size - 4))

        cert = self.log.cert(self.index, filled(MOST))
        self.assertEqual(self.log.judged(cert, self.log.store(1)), "3 refused TooFewCosigners 1")
        self.log.write("signatures", filled(MOST + 1))
        found = self.log.ended("cert", "j", self.index, 0, self.log.size, "signatures")
        self.assertEqual(found, (9, b"", "mtc: cert: TooManySignatures\n"))

    def test_tiles(self):
        """the same certificate once the log is tiled"""
        full = self.log.size // 256 * 256
        if full:
            self.assertEqual(self.log.run("tile j"), f"tiled {full}\n".encode())
            self.assertEqual(len(self.log.read("j.tiles")), 8192 * (full // 256 + full // 65536))
            self.assertEqual(self.log.cert(self.index, self.all), self.whole)


if __name__ == "__main__":
    GIVEN_SIZE, PROGRAM = int(sys.argv[1]) if sys.argv[1:] else SIZE, program_of(sys.argv[2:])
    sys.exit(run(checks_of(Cosigned)))
