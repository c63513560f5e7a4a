"""Certificates of the most bytes that the C library reads, and of one more."""

from hostile.files import FIRST, rebuilt, root_of, text_of
from reference import certificate, entry, judging, merkle
from reference.der import SEQUENCE, encoded

OBJECT_IDENTIFIER, OCTET_STRING = 0x06, 0x04


def extension(identifier, octets=b""):
    return encoded(SEQUENCE, encoded(OBJECT_IDENTIFIER, identifier) + encoded(OCTET_STRING, octets))


def trusting(extensions):
    """A certificate with these extensions more, and a store that trusts the subtree of its entry alone."""
    read = certificate.read(rebuilt(judging.MTC_PROOF, extensions, b""))
    known = {"start": read.serial, "end": read.serial + 1, "hash": merkle.leaf(entry.of_certificate(read, 1)).hex()}
    signature = b"".join(known[name].to_bytes(8, "big") for name in ("start", "end")) + bytes(4)
    return rebuilt(judging.MTC_PROOF, extensions, signature), text_of(root_of(subtree=[known])), FIRST


def identifiers():
    """Identifiers of one byte and then of two, each another one."""
    yield from (bytes([one]) for one in range(128))
    yield from (bytes([one, two]) for one in range(128) for two in range(128))


def longest(extensions, most):
    """As many of these extensions, of which each has at most eight bytes, as a certificate of so many bytes has room for."""
    beside = len(rebuilt(judging.MTC_PROOF, b"".join(extensions), bytes(20))) - sum(map(len, extensions))
    room, taken = most - beside, []
    for each in extensions:
        if room < len(each):
            break
        room -= len(each)
        taken.append(each)
    return b"".join(taken)


def rows(most):
    """One of just so many bytes, which is accepted, and one of a byte more; and one of as many extensions as there can be: each with
    another identifier, which is accepted, or all with one, which isn't."""
    size = most - len(trusting(extension(b"\1", bytes(most // 2)))[0]) + most // 2
    yield from (trusting(extension(b"\1", bytes(each))) for each in (size, size + 1))
    yield trusting(longest([extension(each) for each in identifiers()], most))
    repeated = longest([extension(b"\1")] * (most // 7), most)
    yield rebuilt(judging.MTC_PROOF, repeated, bytes(20)), text_of(root_of()), FIRST
