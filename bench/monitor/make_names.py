"""Writes a file of entries of at most SIZE bytes, each with as many names of three bytes as it can have, beside its key.
Usage: make_names.py SIZE FILE"""
import hashlib
import sys
from pathlib import Path

sys.path.insert(0, str(Path(__file__).resolve().parent.parent / "extensions"))
from make_certificate import KEY, VALIDITY, element  # noqa: E402


def vector(text):
    """A text after its length of two bytes."""
    return len(text).to_bytes(2, "big") + text


def entry_of(count):
    """An entry with so many names."""
    names = element(0x30, b"\x82\x03a.b" * count)
    extension = element(0x30, bytes.fromhex("0603551d110101ff") + element(0x04, names))
    return (bytes.fromhex("0001a003020102") + b"\x30\x00" + VALIDITY + b"\x30\x00" + b"\x04\x20" + hashlib.sha256(KEY).digest()
            + element(0xA3, element(0x30, extension)))


item = vector(entry_of(13080)) + vector(KEY)
with open(sys.argv[2], "wb") as out:
    out.write(item * (int(sys.argv[1]) // len(item)))
