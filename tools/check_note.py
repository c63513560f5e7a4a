#!/usr/bin/env python3
"""Compares a request to a cosigner with the checkpoint that its log signed, so that no other one can send it requests.

CHECKPOINT is a signed note (C2SP signed-note, tlog-checkpoint), as publish.py writes it. VERIFIER has the line that `publish.py verifier`
prints, taken from the log itself. REQUEST is what `mtc consist` or `mtc subtree` wrote (docs/FORMATS.md, "Requests to a cosigner"): one to
advance has to have the note's size and root. One to sign a subtree may not end beyond that size, and if its subtree is the whole log, its
hash has to be the note's root; that another subtree is of this list is shown by the proof in it, which `mtc cosign` checks.

Without REQUEST it prints the size and the root, as `mtc checkpoint` does. It writes nothing, reads no file above its limit, and needs the
program `openssl`, version 3, for Ed25519. It is tested, and not proved.

Usage: tools/check_note.py CHECKPOINT VERIFIER            prints the checkpoint
       tools/check_note.py CHECKPOINT VERIFIER REQUEST    compares, and prints `advance SIZE` or `subtree START END`
Status: 0 done, 1 arguments, 2 a file isn't in its form (TooLong, NoFile, BadVerifier, BadNote, BadRequest), 3 the note isn't signed by
       this verifier (NoSignature, BadSignature, OtherOrigin), 4 the request isn't of this checkpoint (SizeDiffers, RootDiffers, Beyond),
       5 the system failed. The line on standard error is `check_note: FILE: NAME ..`.
"""

import base64
import binascii
import hashlib
import os
import re
import stat
import subprocess
import sys
import tempfile
from pathlib import Path

HASH = 32
MOST = {"CHECKPOINT": 65536, "VERIFIER": 1024, "REQUEST": 16384}
MOST_SIGNATURES = 100
VERIFIER = re.compile(r"([!-*,-~]{1,200})\+([0-9a-f]{8})\+([A-Za-z0-9+/]{44})\n?")
SIGNATURE = re.compile("\u2014 ([!-*,-\U0010ffff]+) ([A-Za-z0-9+/]+={0,2})")
SIZE = re.compile(r"0|[1-9]\d{0,18}")
ED25519 = b"\1"
PUBLIC_KEY = bytes.fromhex("302a300506032b6570032100")  # SubjectPublicKeyInfo (RFC 8410) before the 32 bytes of a key


class Refused(Exception):
    """Why, with the status."""

    def __init__(self, status, file, why):
        super().__init__(f"{file}: {why}")
        self.status = status


def read(file, what):
    """The bytes of a plain file, which has no more than its limit."""
    number = os.open(file, os.O_RDONLY | os.O_NONBLOCK | os.O_NOCTTY | os.O_CLOEXEC)
    with os.fdopen(number, "rb") as opened:
        if not stat.S_ISREG(os.fstat(number).st_mode):
            raise Refused(2, file, "NoFile")
        data = opened.read(MOST[what] + 1)
    if len(data) > MOST[what]:
        raise Refused(2, file, f"TooLong {MOST[what]}")
    return data


# ---- the note

def verifier_of(file):
    """Name, number and Ed25519 key of a verifier's line."""
    match = VERIFIER.fullmatch(read(file, "VERIFIER").decode("ascii", "replace"))
    if not match:
        raise Refused(2, file, "BadVerifier")
    name, number, key = match[1], bytes.fromhex(match[2]), base64.b64decode(match[3])
    if key[:1] != ED25519 or hashlib.sha256(name.encode() + b"\n" + key).digest()[:4] != number:
        raise Refused(2, file, "BadVerifier")
    return name, number, key[1:]


def is_signed(text, signature, key):
    """Whether OpenSSL verifies an Ed25519 signature."""
    with tempfile.TemporaryDirectory() as folder:
        files = {name: Path(folder, name) for name in ("text", "signature", "key")}
        for name, data in (("text", text), ("signature", signature), ("key", PUBLIC_KEY + key)):
            files[name].write_bytes(data)
        ended = subprocess.run(["openssl", "pkeyutl", "-verify", "-pubin", "-keyform", "DER", "-inkey", files["key"], "-rawin",
                                "-in", files["text"], "-sigfile", files["signature"]],
                               stdin=subprocess.DEVNULL, capture_output=True, timeout=60)
    if ended.returncode not in (0, 1):
        raise OSError(f"openssl ended with status {ended.returncode}")
    return ended.returncode == 0


def parted(file):
    """The text of a note with its last newline, and its signatures: (name, number and signature)."""
    try:
        note = read(file, "CHECKPOINT").decode("utf-8")
    except UnicodeDecodeError:
        raise Refused(2, file, "BadNote") from None
    text, gap, signed = note.rpartition("\n\n")
    lines = signed.split("\n")
    if not gap or lines.pop() != "" or not 1 <= len(lines) <= MOST_SIGNATURES or re.search(r"[\0-\x09\x0b-\x1f\x7f]", note):
        raise Refused(2, file, "BadNote")
    signatures = []
    for line in lines:
        match = SIGNATURE.fullmatch(line)
        try:
            data = base64.b64decode(match[2], validate=True) if match else b""
        except binascii.Error:
            data = b""
        if len(data) < 5:
            raise Refused(2, file, "BadNote")
        signatures.append((match[1], data))
    return text + "\n", signatures


def checkpoint_of(file, verifier):
    """Size and root of a note that the verifier's key signed."""
    name, number, key = verifier_of(verifier)
    text, signatures = parted(file)
    mine = [data[4:] for whose, data in signatures if (whose, data[:4]) == (name, number)]
    if not mine:
        raise Refused(3, file, f"NoSignature {name}+{number.hex()}")
    if len(mine[0]) != 64 or not is_signed(text.encode(), mine[0], key):
        raise Refused(3, file, f"BadSignature {name}+{number.hex()}")
    lines = text.split("\n")
    if lines[0] != name:
        raise Refused(3, file, f"OtherOrigin {ascii(lines[0][:200])}")
    try:
        root = base64.b64decode(lines[2], validate=True)
    except (IndexError, ValueError):
        root = b""
    if len(root) != HASH or not SIZE.fullmatch(lines[1]):
        raise Refused(2, file, "BadNote")
    return int(lines[1]), root


# ---- the request

def request_of(file):
    """The numbers of a request and its hash: of one to advance the size, of one to sign start and end."""
    data = read(file, "REQUEST")
    at = 1 + data[0] if data else 0
    for count in (1, 2):
        end = at + 8 * count + HASH  # where the length of the proof's hashes stands
        proof = int.from_bytes(data[end:end + 2], "big")
        if at > 1 and len(data) == end + 2 + proof and proof % HASH == 0:
            numbers = [int.from_bytes(data[place:place + 8], "big") for place in range(at, end - HASH, 8)]
            return numbers, data[end - HASH:end]
    raise Refused(2, file, "BadRequest")


def compare(file, size, root):
    """What a request asks for, which has to be of this checkpoint."""
    numbers, found = request_of(file)
    if len(numbers) == 2 and numbers[1] > size:
        raise Refused(4, file, f"Beyond {size}")
    if len(numbers) == 1 and numbers[0] != size:
        raise Refused(4, file, f"SizeDiffers {size} {numbers[0]}")
    if numbers in ([size], [0, size]) and found != root:
        raise Refused(4, file, f"RootDiffers {root.hex()} {found.hex()}")
    return ("advance" if len(numbers) == 1 else "subtree") + "".join(f" {number}" for number in numbers)


def main(words):
    if len(words) not in (2, 3):
        print("usage: check_note.py CHECKPOINT VERIFIER [REQUEST]", file=sys.stderr)
        return 1
    try:
        size, root = checkpoint_of(words[0], words[1])
        print(compare(words[2], size, root) if len(words) == 3 else f"size {size}\nroot {root.hex()}")
        sys.stdout.flush()
    except Refused as why:
        print(f"check_note: {why}", file=sys.stderr)
        return why.status
    except (OSError, subprocess.TimeoutExpired) as why:
        print(f"check_note: {why}", file=sys.stderr)
        return 5
    return 0


if __name__ == "__main__":
    sys.exit(main(sys.argv[1:]))
