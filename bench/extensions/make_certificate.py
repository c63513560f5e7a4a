"""Writes a certificate of at most SIZE bytes with as many extensions as it holds, each of nine bytes and with an identifier of
its own, in an order that is mixed up. Usage: make_certificate.py SIZE FILE"""
import random
import sys


def element(tag, contents):
    """An element with its length in the fewest bytes."""
    size = len(contents)
    if size < 0x80:
        return bytes([tag, size]) + contents
    octets = size.to_bytes((size.bit_length() + 7) // 8, "big")
    return bytes([tag, 0x80 + len(octets)]) + octets + contents


def identifiers(count):
    """So many different object identifiers of three bytes."""
    found = []
    for first in range(0x80):
        for second in range(0x100):
            if second == 0x80:
                continue
            found.extend(bytes([first, second, third]) for third in range(0x80))
            if len(found) >= count:
                random.Random(1).shuffle(found)
                return found[:count]
    raise SystemExit("too many extensions")


ALGORITHM = bytes.fromhex("300506032b6570")
KEY = element(0x30, ALGORITHM + element(0x03, bytes(33)))
VALIDITY = element(0x30, element(0x17, b"260101000000Z") + element(0x17, b"260108000000Z"))


def certificate(count):
    """A certificate with so many extensions."""
    extensions = b"".join(b"\x30\x07\x06\x03" + identifier + b"\x04\x00" for identifier in identifiers(count))
    fields = (bytes.fromhex("a003020102020101") + ALGORITHM + b"\x30\x00" + VALIDITY + b"\x30\x00" + KEY
              + element(0xA3, element(0x30, extensions)))
    return element(0x30, element(0x30, fields) + ALGORITHM + element(0x03, bytes(2)))


def main():
    """Takes the largest number of extensions that fits."""
    size = int(sys.argv[1])
    spare = len(certificate(1)) + 20
    with open(sys.argv[2], "wb") as out:
        out.write(certificate((size - spare) // 9))


if __name__ == "__main__":
    main()
