"""Entries of a log and the files of them, by docs/FORMATS.md, "Entries"."""

import hashlib
from functools import lru_cache

from . import certificate
from .der import BIT_STRING, INTEGER, OCTET_STRING, SEQUENCE, Fields, encoded
from .fault import Fault
from .proof import HASH, Cursor


def of_certificate(read, form):
    """The entry from which a certificate was made: in the form 2 it names the algorithm of the key."""
    key_hash = b"\x04\x20" + hashlib.sha256(read.key).digest()
    named = certificate.key_algorithm(read.key) if form == 2 else b""
    return b"\0\1" + read.version + read.issuer + read.validity + read.subject + named + key_hash + read.extensions


def certificate_of(index, text, key, algorithm, proof):
    """The certificate of an entry with this index and key, by docs/FORMATS.md, "Certificates"."""
    fields = Fields(text, 2, len(text))
    version, *prefix = (fields.next().whole for _ in range(4))
    if fields.tag() == SEQUENCE:
        fields.next()
    fields.next(OCTET_STRING)
    serial = encoded(INTEGER, index.to_bytes(index.bit_length() // 8 + 1, "big"))
    body = encoded(SEQUENCE, b"".join([version, serial, algorithm, *prefix, key, text[fields.place:]]))
    return encoded(SEQUENCE, body + algorithm + encoded(BIT_STRING, b"\0" + proof))


def fields_of(text):
    """Reads the fields after the type of an entry of type 1: the algorithm of its key, if it has it, the key's hash, and its
    names."""
    fields = Fields(text, 2, len(text))
    for read in (certificate.version, certificate.name, certificate.validity, certificate.name):
        read(fields)
    named = certificate.algorithm(fields) if fields.tag() == SEQUENCE else b""
    key_hash = fields.next(OCTET_STRING).contents
    if len(key_hash) != HASH:
        raise Fault("BadHashLength")
    _, found = certificate.extensions(fields)
    fields.close()
    return named, key_hash, [name for one in found for name in one.names]


@lru_cache(maxsize=4096)
def key_in(text):
    """What an entry of type 1 has of its key; none where the bytes are no such entry."""
    try:
        return fields_of(text) if text[:2] == b"\0\1" else None
    except Fault:
        return None


def has_form(text, form):
    """Whether an entry of type 1 has this form."""
    found = key_in(text)
    return found is not None and (found[0] != b"") == (form == 2)


def is_public_key(text):
    """Whether the bytes are one subjectPublicKeyInfo."""
    fields = Fields(text, 0, len(text))
    try:
        certificate.public_key(fields)
        fields.close()
    except Fault:
        return False
    return True


@lru_cache(maxsize=4096)
def fits(text, key):
    """Whether this key may stand beside an entry: its own beside one of type 1, and none beside all others."""
    wanted = key_in(text)
    if wanted is None:
        return not key
    named, key_hash, _ = wanted
    if not is_public_key(key) or hashlib.sha256(key).digest() != key_hash:
        return False
    return named in (b"", certificate.key_algorithm(key))


def items(text):
    """The entries of an entries file, each with its key."""
    cursor, found = Cursor(text, 0, len(text)), []
    while cursor.place < cursor.end:
        item = cursor.vector(2), cursor.vector(2)
        if not fits(*item):
            raise Fault("BadItem", len(found))
        found.append(item)
    return found


def written(items):
    """The entries file of these items."""
    return b"".join(len(part).to_bytes(2, "big") + part for item in items for part in item)
