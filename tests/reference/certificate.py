"""Certificates (RFC 5280), by docs/FORMATS.md, "Certificates": the fields, or the first fault from the left."""

from typing import NamedTuple

from . import der, times
from .der import Fields
from .fault import Fault

VERSION, EXTENSIONS, UNIQUE_IDS = 0xA0, 0xA3, (0x81, 0x82, 0xA1, 0xA2)
DNS_NAME, GENERAL_NAMES = 0x82, (0x81, 0x82, 0x86, 0x87, 0x88, 0xA0, 0xA3, 0xA4, 0xA5)
ALT_NAME = bytes.fromhex("551d11")


class Extension(NamedTuple):
    """An extension, with the dNSNames of a subjectAltName."""

    identifier: bytes
    critical: bool
    names: list


class Certificate(NamedTuple):
    """The fields of a certificate; those that are bytes are whole elements, but for the proof."""

    version: bytes
    serial: int
    algorithm: bytes
    issuer: bytes
    validity: bytes
    unix_times: list
    subject: bytes
    key: bytes
    extensions: bytes
    extension_list: list
    proof: bytes


def version(body):
    """The version field, which has to be there and to say 2."""
    if body.tag() != VERSION:
        raise Fault("BadVersion")
    element = body.next(VERSION)
    fields = element.fields()
    if der.integer(fields.next(der.INTEGER)) != 2:
        raise Fault("BadVersion")
    fields.close()
    return element.whole


def serial(body):
    """The serial number, from 1 to 2^64 - 1."""
    number = der.integer(body.next(der.INTEGER))
    if not 1 <= number < 1 << 64:
        raise Fault("BadSerial")
    return number


def algorithm(body):
    """An algorithm: its identifier, and any element or none as parameters."""
    element = body.next(der.SEQUENCE)
    fields = element.fields()
    der.identifier(fields.next(der.IDENTIFIER))
    if fields.tag() is not None:
        fields.next()
    fields.close()
    return element.whole


def attribute(fields):
    """One attribute of a name: its identifier and any element."""
    inside = fields.next(der.SEQUENCE).fields()
    der.identifier(inside.next(der.IDENTIFIER))
    inside.next()
    inside.close()


def name(body):
    """A name: sets of attributes. A set isn't empty, then its elements rise, then each is read."""
    element = body.next(der.SEQUENCE)
    sets = element.fields()
    while sets.tag() is not None:
        one = sets.next(der.SET)
        if not one.contents:
            raise Fault("BadName")
        der.risen(one)
        fields = one.fields()
        while fields.tag() is not None:
            attribute(fields)
    return element.whole


def validity(body):
    """The validity, and the two times of it."""
    element = body.next(der.SEQUENCE)
    fields, unix_times = element.fields(), []
    for _ in range(2):
        tag = times.GENERALIZED_TIME if fields.tag() == times.GENERALIZED_TIME else times.UTC_TIME
        unix_times.append(times.unix_time(tag, fields.next(tag).contents))
        if unix_times[-1] is None:
            raise Fault("BadTime")
    fields.close()
    return element.whole, unix_times


def public_key(body):
    """The subjectPublicKeyInfo: an algorithm and a BIT STRING."""
    element = body.next(der.SEQUENCE)
    fields = element.fields()
    algorithm(fields)
    der.bits(fields.next(der.BIT_STRING))
    fields.close()
    return element.whole


def key_algorithm(key):
    """The element of its algorithm, with which a subjectPublicKeyInfo begins."""
    return algorithm(Fields(key, 0, len(key)).next(der.SEQUENCE).fields())


def alt_names(octets):
    """The dNSNames in the octets of a subjectAltName; whatever is wrong in them is one fault."""
    try:
        outer, names = Fields(octets, 0, len(octets)), []
        fields = outer.next(der.SEQUENCE).fields()
        while fields.tag() is not None or not names:
            names.append((fields.tag(), fields.next().contents))
        outer.close()
    except Fault:
        raise Fault("BadExtension") from None
    found = [text for tag, text in names if tag == DNS_NAME]
    if any(tag not in GENERAL_NAMES for tag, _ in names) or not all(text.isascii() for text in found):
        raise Fault("BadExtension")
    return found


def extension(fields, before):
    """One extension, none of those before it with its identifier."""
    inside = fields.next(der.SEQUENCE).fields()
    identifier = der.identifier(inside.next(der.IDENTIFIER))
    if any(identifier == one.identifier for one in before):
        raise Fault("RepeatedExtension")
    critical = inside.tag() == der.BOOLEAN
    if critical and not der.boolean(inside.next(der.BOOLEAN)):
        raise Fault("BadExtension")
    octets = inside.next(der.OCTET_STRING).contents
    names = alt_names(octets) if identifier == ALT_NAME else []
    inside.close()
    return Extension(identifier, critical, names)


def extensions(body):
    """The extensions field, and what stands in it; none where it is missing."""
    if body.tag() in UNIQUE_IDS:
        raise Fault("UniqueId")
    if body.tag() != EXTENSIONS:
        return b"", []
    element = body.next(EXTENSIONS)
    outer, found = element.fields(), []
    fields = outer.next(der.SEQUENCE).fields()
    if fields.tag() is None:
        raise Fault("BadExtension")
    while fields.tag() is not None:
        found.append(extension(fields, found))
    outer.close()
    return element.whole, found


def signature(fields):
    """The bytes of the signature, which leaves no bits unused."""
    element = fields.next(der.BIT_STRING)
    unused, proof = der.bits(element)
    if unused:
        raise Fault("BadBits", element.place)
    return proof


def read(text):
    """The certificate that these bytes are."""
    outer = Fields(text, 0, len(text))
    fields = outer.next(der.SEQUENCE).fields()
    body = fields.next(der.SEQUENCE).fields()
    head = [version(body), serial(body), algorithm(body), name(body), *validity(body), name(body)]
    tail = [public_key(body), *extensions(body)]
    body.close()
    if fields.next(der.SEQUENCE).whole != head[2]:
        raise Fault("AlgorithmsDiffer")
    proof = signature(fields)
    fields.close()
    outer.close()
    return Certificate(*head, *tail, proof)
