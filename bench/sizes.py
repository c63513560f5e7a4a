"""Computes how many bytes certificates have, by the forms of docs/FORMATS.md and by the standards that are named beside each number.

A certificate of a log, with its path alone and with 1 and 3 cosignatures, in a subtree of 2^10, 2^20 and 2^24 entries; beside it
the chain of X.509 for the same server, that is its certificate and the one intermediate certificate that is sent with it. The
server's name, key and validity are those of examples/www.cert in all of them. Then what a relying party fetches a day. Nothing is
run or timed. The certificates of examples/ have to have the bytes that are computed of them.
bench/figures.py has the table in docs/SPEED.md.
"""

from dataclasses import dataclass
from pathlib import Path

EXAMPLES = Path(__file__).resolve().parent.parent / "examples"
LEVELS = (10, 20, 24)
HEIGHT, WIDTH = 10, 8  # of the cosigners' keys


def element(contents):
    """Bytes of a DER element whose contents have so many: a tag, a length and these (X.690, sections 8.1 and 10.1)."""
    length = 1 if contents < 128 else 2 if contents < 256 else 3 if contents < 65536 else 4
    return 1 + length + contents


def integer(number):
    return element(number.bit_length() // 8 + 1)


def octets(count):
    """A BIT STRING of whole octets."""
    return element(1 + count)


# ---- what the certificate of a server has, whoever vouches for it (RFC 5280, section 4.1)

VERSION = element(integer(2))
VALIDITY = element(2 * element(13))  # two UTCTimes
NO_NAME = element(0)
ED25519 = element(element(3))  # RFC 8410, section 3
SERVER_KEY = element(ED25519 + octets(32))  # RFC 8410, section 4


def name(identifier, text):
    """A name of one attribute: its identifier and its text have so many bytes."""
    return element(element(element(element(identifier) + element(text))))


def extension(value, critical=False, identifier=3):
    return element(element(identifier) + 3 * critical + element(value))


def extensions(*each):
    return element(element(sum(each)))


def alternative_names(*hosts):
    return element(sum(element(host) for host in hosts))


# ---- a certificate of a log (docs/FORMATS.md, "Certificates" and "Proofs")

LOG_ALGORITHM = element(element(10))
LOG_NAME = name(10, len("32473.1"))


def hss_signature(height, width):
    """One level: u32, the number of the key, the one-time signature, u32, the path (RFC 8554, sections 4.5, 5.4 and 6.2)."""
    chains = {1: 265, 2: 133, 4: 67, 8: 34}[width]  # RFC 8554, table 1
    return 4 + 4 + (4 + 32 + 32 * chains) + 4 + 32 * height


COSIGNER_ID = 4  # bytes of the id 32473.2


def proof(hashes, cosignatures):
    return 8 + 8 + 2 + 32 * hashes + 2 + cosignatures * (1 + COSIGNER_ID + 2 + hss_signature(HEIGHT, WIDTH))


def log_certificate(index, hashes, cosignatures, hosts=(11,), subject=NO_NAME):
    critical = subject == NO_NAME
    body = element(VERSION + integer(index) + LOG_ALGORITHM + LOG_NAME + VALIDITY + subject + SERVER_KEY
                   + extensions(extension(alternative_names(*hosts), critical)))
    return element(body + LOG_ALGORITHM + octets(proof(hashes, cosignatures)))


def entry_with_key(hosts=(11,)):
    """An item of an entries file."""
    entry = 2 + VERSION + LOG_NAME + VALIDITY + NO_NAME + element(32) + extensions(extension(alternative_names(*hosts), True))
    return 2 + entry + 2 + SERVER_KEY


# ---- X.509 as RFC 5280 asks for it: key identifiers of 20 bytes (4.2.1.1, 4.2.1.2), serial numbers of 16 bytes (4.1.2.2), and
# for the intermediate basicConstraints and keyUsage (4.2.1.9, 4.2.1.3). Both issuers have one commonName of 16 bytes.

ISSUER = name(3, 16)
SERIAL = element(16)
SCT = 1 + 32 + 8 + 2 + 2 + 2 + 72  # RFC 6962, section 3.2, with a P-256 signature


@dataclass
class Algorithm:
    shown: str
    identifier: int
    key: int
    signature: int
    source: str

    def certificate(self, subject, key, *each):
        body = element(VERSION + SERIAL + self.identifier + ISSUER + VALIDITY + subject + key + extensions(*each))
        return element(body + self.identifier + octets(self.signature))

    def chain(self, scts=0):
        authority, subject = extension(element(element(20))), extension(element(20))
        timestamps = extension(element(2 + scts * (2 + SCT)), identifier=10) if scts else 0  # RFC 6962, section 3.3
        server = self.certificate(NO_NAME, SERVER_KEY, extension(alternative_names(11), True), authority, timestamps)
        constraints = extension(element(element(1)), True), extension(octets(1), True)
        return server + self.certificate(ISSUER, self.key, authority, subject, *constraints)


NIST = element(element(9))  # 2.16.840.1.101.3.4.3 and an arc
ALGORITHMS = [
    Algorithm("Ed25519", ED25519, SERVER_KEY, 64, "RFC 8032, section 5.1.6"),
    Algorithm("P-256", element(element(8)), element(element(element(7) + element(8)) + octets(65)),
              element(2 * element(33)), "RFC 5480, section 2.2, and RFC 3279, section 2.2.3; at most"),
    Algorithm("ML-DSA-44", NIST, element(NIST + octets(1312)), 2420, "FIPS 204, table 2"),
    Algorithm("SLH-DSA-SHA2-128s", NIST, element(NIST + octets(32)), 7856, "FIPS 205, table 2"),
]


# ---- what a relying party fetches

def table(end):
    """A subtree's table of a store, as `trust-landmarks` prints it."""
    return len(f'[[subtree]]\nstart = {end}\nend = {end}\nhash = "{"0" * 64}"\n\n')


def rows():
    def shown(*counts):
        return " | ".join(f"{count:,}" for count in counts)

    def logs(cosignatures):
        return shown(*(log_certificate(2 ** level - 1, level, cosignatures) for level in LEVELS))

    key = f"HSS of height {HEIGHT} and width {WIDTH}: RFC 8554, sections 4.5, 5.4, 6.2"
    yield "| Bytes of | 2^10 entries | 2^20 | 2^24 | By |"
    yield "|---|---|---|---|---|"
    yield f"| a certificate without signatures | {logs(0)} | [FORMATS](FORMATS.md#certificates) |"
    yield f"| a certificate with 1 cosignature | {logs(1)} | {key} |"
    yield f"| a certificate with 3 cosignatures | {logs(3)} | the same |"
    for algorithm in ALGORITHMS:
        yield f"| X.509 with {algorithm.shown}, and its intermediate | {shown(*[algorithm.chain()] * 3)} | {algorithm.source} |"
    yield f"| two SCTs in X.509, more | {shown(*[ALGORITHMS[0].chain(2) - ALGORITHMS[0].chain()] * 3)} | RFC 6962, sections 3.2 and 3.3, with P-256; at most |"
    days = [shown(*(count * 2 * table(2 ** level - 1) for level in LEVELS)) for count in (1, 24)]
    yield f"| the tables of a store that a relying party fetches a day, of one landmark | {days[0]} | [FORMATS](FORMATS.md#store-file) |"
    yield f"| the same of a landmark an hour | {days[1]} | the same |"
    yield f"| all entries, before `switch`, with keys, which a monitor fetches once | {shown(*(2 ** level * entry_with_key() for level in LEVELS))} | [FORMATS](FORMATS.md#entries) |"


def faults():
    """The certificates of examples/ that have other bytes than are computed of them."""
    wanted = {"first": log_certificate(1, 1, 0, (9,)), "www": log_certificate(1, 2, 0),
              "mail": log_certificate(2, 2, 0, (12, 14), name(3, 4))}
    for file, count in wanted.items():
        found = (EXAMPLES / f"{file}.cert").stat().st_size
        if found != count:
            yield f"examples/{file}.cert has {found} bytes, and {count} were computed"
