#!/usr/bin/env python3
"""Prints what is in a log as certificates in PEM, so that `openssl`, linters and every other tool show names, dates and keys.

It reads what `mtc entries` or `mtc entries-from` writes. The signed part of each certificate is byte for byte that of `mtc cert` and
`mtc light-cert`: the entry, with its index as serial number and the key beside it. The signature has no bytes, and above each block
stands `entry INDEX, unsigned`: no one accepts such a certificate, and `mtc show` says `proof none` of it. The null entry has none.

It is tested, and not proved. It compares each key with the hash in its entry, and not the entries with a root: `mtc root` does that.

Usage: tools/entries_to_certs.py [--first FIRST] ENTRIES [INDEX ..]
       FIRST is the index of the first entry, as it was given to `entries-from`, and else 0. Without INDEX all are printed.
Status: 0 done, 1 arguments, 2 ENTRIES isn't in its form, or a key isn't the one of its entry, 3 an entry isn't in the form of one and
       was left out, 4 there is no such entry, or it is the null entry, 5 the system failed, 6 standard output failed.
Example: mtc entries log 100 >entries && tools/entries_to_certs.py entries 5 | openssl x509 -noout -text
"""

import argparse
import base64
import hashlib
import os
import sys

ALGORITHM = bytes.fromhex("300c060a2b0601040182da4b2f00")
UNSIGNED = bytes.fromhex("030100")  # a BIT STRING without a bit
NULL, KEY_HASH = b"\0\0", b"\x04\x20"
VERSION, SEQUENCE, OCTETS, EXTENSIONS = 0xA0, 0x30, 0x04, 0xA3
FIRST = [VERSION, SEQUENCE, SEQUENCE, SEQUENCE]
FORMS = ([*FIRST, OCTETS], [*FIRST, OCTETS, EXTENSIONS])
NAMED = ([*FIRST, SEQUENCE, OCTETS], [*FIRST, SEQUENCE, OCTETS, EXTENSIONS])  # those that name the algorithm of the key


class NotInForm(Exception):
    """What isn't in its form."""


def items_of(path):
    """The entries of an entries file with their keys."""
    with open(path, "rb") as file:
        def part():
            begin = file.read(2)
            data = file.read(int.from_bytes(begin, "big")) if len(begin) == 2 else b""
            if begin and (len(begin) < 2 or len(data) < int.from_bytes(begin, "big")):
                raise NotInForm(f"{path}: it is cut")
            return data if begin else None

        while (entry := part()) is not None:
            if (key := part()) is None:
                raise NotInForm(f"{path}: it is cut")
            yield entry, key


def elements_of(data):
    """The elements of DER that follow one another; nothing where the last one is cut."""
    found, at = [], 0
    while at < len(data):
        first = data[at + 1] if at + 1 < len(data) else 128
        count = max(first - 128, 0)
        end = at + 2 + count + (int.from_bytes(data[at + 2:at + 2 + count], "big") if count else first)
        if first == 128 or count > 3 or end > len(data):
            return []
        found.append(data[at:end])
        at = end
    return found


def wrapped(tag, contents):
    """An element of DER."""
    size = len(contents)
    coded = bytes([size]) if size < 128 else b""
    if not coded:
        length = size.to_bytes((size.bit_length() + 7) // 8, "big")
        coded = bytes([128 + len(length)]) + length
    return bytes([tag]) + coded + contents


def algorithm_of(key):
    """The algorithm with which a key begins."""
    outer = elements_of(key)
    inner = elements_of(outer[0][2 + max(outer[0][1] - 128, 0):]) if len(outer) == 1 else []
    return inner[0] if inner else b""


def certificate_of(index, entry, key):
    """The certificate of an entry, without a signature; nothing where the entry isn't in the form of one."""
    fields = elements_of(entry[2:]) if entry[:2] == b"\0\1" else []
    algorithm = fields.pop(4) if [field[0] for field in fields] in NAMED else None
    if [field[0] for field in fields] not in FORMS or fields[4][:2] != KEY_HASH:
        return None
    if fields[4][2:] != hashlib.sha256(key).digest() or algorithm not in (None, algorithm_of(key)):
        raise NotInForm(f"entry {index}: the key isn't the one of the entry")
    serial = wrapped(0x02, index.to_bytes(index.bit_length() // 8 + 1, "big"))
    signed = wrapped(SEQUENCE, b"".join([fields[0], serial, ALGORITHM, *fields[1:4], key, *fields[5:]]))
    return wrapped(SEQUENCE, signed + ALGORITHM + UNSIGNED)


def pem(index, cert):
    text = base64.b64encode(cert).decode()
    lines = "\n".join(text[at:at + 64] for at in range(0, len(text), 64))
    return f"entry {index}, unsigned\n-----BEGIN CERTIFICATE-----\n{lines}\n-----END CERTIFICATE-----\n"


def print_all(path, first, wanted):
    """Prints the certificates of these entries, or of all, and answers the status."""
    status = 0
    for index, (entry, key) in enumerate(items_of(path), first):
        if wanted is not None and index not in wanted or wanted is None and entry == NULL:
            continue
        cert = certificate_of(index, entry, key) if entry != NULL else None
        if cert:
            sys.stdout.write(pem(index, cert))
        elif entry == NULL:
            print(f"entries_to_certs: entry {index} is the null entry", file=sys.stderr)
            status = 4
        else:
            print(f"entries_to_certs: entry {index} isn't in the form of one", file=sys.stderr)
            status = status or 3
        if wanted is not None:
            wanted.discard(index)
    for index in sorted(wanted or ()):
        print(f"entries_to_certs: there is no entry {index}", file=sys.stderr)
        status = 4
    return status


def number(text):
    if not (text.isascii() and text.isdigit()):
        raise ValueError("a number from 0 on is wanted")
    return int(text)


class Arguments(argparse.ArgumentParser):
    def error(self, message):
        self.exit(1, f"{self.prog}: {message}\n")


def main(words):
    parser = Arguments(prog="entries_to_certs", description=__doc__, formatter_class=argparse.RawDescriptionHelpFormatter)
    parser.add_argument("entries")
    parser.add_argument("index", nargs="*", type=number)
    parser.add_argument("--first", type=number, default=0)
    given = parser.parse_args(words)
    try:
        status = print_all(given.entries, given.first, set(given.index) or None)
        sys.stdout.flush()
        return status
    except NotInForm as why:
        print(f"entries_to_certs: {why}", file=sys.stderr)
        return 2
    except BrokenPipeError:
        os.dup2(os.open(os.devnull, os.O_WRONLY), sys.stdout.fileno())
        return 6
    except OSError as why:
        print(f"entries_to_certs: {why}", file=sys.stderr)
        return 5


if __name__ == "__main__":
    sys.exit(main(sys.argv[1:]))
