"""Writes a file of entries of at most SIZE bytes, each with 65 extensions of nine bytes and with identifiers of their own, in an
order that is mixed up, beside its key. Usage: make_entries.py SIZE FILE"""
import hashlib
import sys

from make_certificate import KEY, VALIDITY, element, identifiers


def vector(text):
    """A text after its length of two bytes."""
    return len(text).to_bytes(2, "big") + text


extensions = b"".join(b"\x30\x07\x06\x03" + identifier + b"\x04\x00" for identifier in identifiers(65))
entry = (bytes.fromhex("0001a003020102") + b"\x30\x00" + VALIDITY + b"\x30\x00" + b"\x04\x20" + hashlib.sha256(KEY).digest()
         + element(0xA3, element(0x30, extensions)))
item = vector(entry) + vector(KEY)
with open(sys.argv[2], "wb") as out:
    out.write(item * (int(sys.argv[1]) // len(item)))
