#!/usr/bin/env python3
"""Has OpenSSL and Python's cryptography read certificates whole, and compares each field.

One is of the first entry of a small log, without signatures; one is of a log of 1,024 entries, with
those of three cosigners. Needs both; where one isn't there it says that this is left out, and ends
with status 0.
Usage: tests/certificates.py [PROGRAM]
"""

import base64
import shutil
import subprocess
import sys
from itertools import islice

from cosigned_log import FIRST, LAST, LOG, SIZE, CosignedLog, leaves_of, p256_keys
from harness import DATES, KEY, Check, Folder, LeftOut, checks_of, program_of, run
from hostile.changes import pieces
from reference import proof

ALGORITHM, ISSUER = "1.3.6.1.4.1.44363.47.0", "1.3.6.1.4.1.44363.47.1"
NAMES = "X509v3 Subject Alternative Name"
TIMES = ["notBefore=Jan  1 00:00:00 2026 GMT", "notAfter=Jan  8 00:00:00 2026 GMT"]


class Wanted:
    """What a certificate is to say."""

    def __init__(self, serial, names, key, proof):
        self.serial, self.names, self.key, self.proof = serial, names, key, proof


def small():
    """The certificate of the one entry of a log, and what it is to say."""
    folder = Folder(PROGRAM)
    folder.run("init-log", "j", LOG, 2, 64)
    folder.write("r", f'{DATES}dns = ["a.example"]\nkey = "{KEY}"\n')
    folder.run("issue j r")
    folder.write("empty", b"")
    cert, leaves = folder.run("cert j 1 0 2 empty"), leaves_of(folder.run("entries j 2"))
    folder.close()
    return cert, Wanted(1, ["a.example"], base64.b64decode(KEY), proof.written(0, 2, leaves.path(1, 0, 2), b""))


def large(index=1000):
    """A certificate with signatures of three cosigners, and what it is to say."""
    log = CosignedLog(PROGRAM, SIZE)
    signatures = b"".join(log.signatures)
    cert = log.cert(index, signatures)
    [key] = islice(p256_keys(), index - 1, index)
    log.close()
    return cert, Wanted(index, [f"n{index}.example", f"www.n{index}.example"], key, log.proof(index, signatures))


def by_cryptography(cert, wanted):
    """Each field as Python's cryptography reads it, and as it is to be."""
    from cryptography import x509
    from cryptography.hazmat.primitives.serialization import Encoding, PublicFormat

    read = x509.load_der_x509_certificate(cert)
    [names] = read.extensions
    spki = Encoding.DER, PublicFormat.SubjectPublicKeyInfo
    hosts = names.value.get_values_for_type(x509.DNSName)
    yield "bytes", read.public_bytes(Encoding.DER), cert
    yield "signed part", read.tbs_certificate_bytes, pieces(cert)[0]
    yield "version", read.version, x509.Version.v3
    yield "serial", read.serial_number, wanted.serial
    yield "issuer", [(one.oid.dotted_string, one.value) for one in read.issuer], [(ISSUER, LOG)]
    yield "subject", [*read.subject], []
    yield "begin", read.not_valid_before_utc.timestamp(), FIRST
    yield "end", read.not_valid_after_utc.timestamp(), LAST
    yield "key", read.public_key().public_bytes(*spki), wanted.key
    yield "names", (names.critical, hosts), (True, wanted.names)
    yield "algorithm", read.signature_algorithm_oid.dotted_string, ALGORITHM
    yield "signature", read.signature, wanted.proof


def by_openssl(cert, wanted):
    """Each field as OpenSSL reads it, and as it is to be."""
    def read(*words):
        words = ["openssl", "x509", "-inform", "DER", *words]
        return subprocess.run(words, input=cert, capture_output=True, check=True).stdout

    def lines(*words):
        return [line.strip() for line in read("-noout", *words).decode().splitlines() if line]

    serial = wanted.serial.to_bytes(wanted.serial.bit_length() // 8 + 1, "big").hex().upper()
    fields = ["-serial", "-issuer", "-subject", "-startdate", "-enddate", "-nameopt", "oid"]
    hosts = ", ".join(f"DNS:{name}" for name in wanted.names)
    key = "".join(lines("-pubkey")[1:-1])
    text = lines("-text", "-certopt", "ca_default,no_header")
    signature = "".join(text[text.index("Signature Value:") + 1:])
    yield "bytes", read("-outform", "DER"), cert
    names = [f"serial={serial}", f"issuer={ISSUER}={LOG}", "subject="]
    yield "fields", lines(*fields), [*names, *TIMES]
    yield "names", lines("-ext", "subjectAltName"), [f"{NAMES}: critical", hosts]
    yield "key", base64.b64decode(key), wanted.key
    yield "algorithms", text.count(f"Signature Algorithm: {ALGORITHM}"), 2
    yield "signature", bytes.fromhex(signature.replace(":", "")), wanted.proof


class Certificates(Check):
    @classmethod
    def setUpClass(cls):
        try:
            import cryptography
        except ImportError:
            cryptography = None
        if not (cryptography and shutil.which("openssl")):
            raise LeftOut("OpenSSL or Python's cryptography isn't here")

    def read_whole(self, cert, wanted):
        self.notes = [f"{len(cert)} bytes"]
        for reader in (by_cryptography, by_openssl):
            for name, found, asked in reader(cert, wanted):
                with self.subTest(f"{reader.__name__}: {name}"):
                    self.assertEqual(found, asked)

    def test_small(self):
        """a certificate without signatures is read"""
        self.read_whole(*small())

    def test_large(self):
        """one with three cosignatures is read"""
        self.read_whole(*large())


if __name__ == "__main__":
    PROGRAM = program_of(sys.argv[1:])
    sys.exit(run(checks_of(Certificates)))
