#!/usr/bin/env python3
"""Has cosigners of all widths, with keys of one level and of two, sign subtrees of a log, and compares their keys and signatures with
those that tests/reference makes of the same secrets; BouncyCastle verifies them too.

The signed bytes are made here from the log's entries. The keys are those of the cosigners' exports, which have to be those
that `init-cosigner` and `init-cosigner2` printed, and in which the secrets may not stand. A key of two levels gets each lower
tree by `child` as soon as `cosign` wants it. A key of height 10 signs by its last one-time key too, after the records of all others.
BouncyCastle needs java and its jar (BCPROV names it, or /usr/share/java has it); where they aren't there, that part is left out.
Usage: tests/cosignatures.py [PROGRAM]
"""

import base64
import hashlib
import os
import shutil
import subprocess
import sys
from functools import cache
from pathlib import Path

from harness import DATES, KEY, ROOT, Check, Folder, checks_of, expect, program_of, run
from reference import cosigner, entry, hss, journal, merkle, proof
from reference.keys import Key
from reference.log import short
from reference.proof import vector

JAR = Path(os.environ.get("BCPROV", "/usr/share/java/bcprov.jar"))
LOG, LOG_ID = "32473.1", bytes.fromhex("81fd5901")
COSIGNER, COSIGNER_ID = "32473.2", bytes.fromhex("81fd5902")
SIZE = 9
SUBTREES = [(0, 9), (0, 8), (4, 8), (8, 9), (2, 4), (7, 8)]
# The heights of a key's trees, its width, and how many signatures it makes.
KEYS = [((5,), 1, 6), ((5,), 2, 6), ((5,), 4, 32), ((5,), 8, 6), ((10,), 1, 0), ((10,), 2, 0), ((10,), 4, 2),
        ((5, 5), 1, 1), ((5, 5), 2, 1), ((5, 5), 4, 34), ((5, 5), 8, 2), ((10, 5), 4, 2), ((5, 10), 4, 2)]
# The dearest key, which takes as long as all others: only with MTC_ALL=1.
DEAREST, IS_WHOLE = ((10,), 8, 0), os.environ.get("MTC_ALL") == "1"
# The typecodes of heights and widths (RFC 8554, sections 4.1 and 5.1).
HEIGHTS = {height: code for code, height in hss.LMS.items()}
WIDTHS = {width: code for code, (width, _, _) in hss.LMOTS.items()}


def new_log(folder):
    """A log, and the list of its entries."""
    folder.run("init-log", "j", LOG, "2", "64")
    for number in range(1, SIZE):
        folder.write("r", f'{DATES}dns = ["{number}.example"]\nkey = "{KEY}"\n')
        folder.run("issue j r")
    folder.run("consist", "j", 0, SIZE, into="a")
    for start, end in SUBTREES:
        folder.run("subtree", "j", start, end, SIZE, into=f"{start}-{end}")
    return merkle.List([text for text, _ in entry.items(folder.run("entries", "j", SIZE))])


def check_export(folder, name, key, secret):
    """An export has the key, and nothing that no one else may have of it and of its lower trees. The first 16 bytes of a secret are
    its identifier, which is public."""
    text = folder.run("export", name)
    expect(f"the key in the export of {name}", cosigner.export(text).key, key.public)
    seeds = [secret[16:], *(tree.seed for tree in key.lower.values())]
    expect(f"a secret in the export of {name}", [seed for seed in seeds for place in range(25) if seed[place:place + 8] in text], [])


def next_signature(folder, name, number, tree, request):
    """What `cosign` writes by the key of this number. Where lower trees sign so many messages each, the next one is made when it wants
    it."""
    if tree and number % tree == 0:
        expect("cosign", folder.ended("cosign", name, request), (4, b"", "mtc: cosign: NeedsChild\n"))
        expect("child", folder.run("child", name), b"child %d\n" % (number // tree))
        expect("child again", folder.ended("child", name), (4, b"", f"mtc: child: ChildLeft {tree}\n"))
    return folder.run("cosign", name, request)


def all_but_one(folder, name, leaves):
    """Adds the records of a signature by each of the one-time keys but the last and those that have signed."""
    start, end = SUBTREES[0]
    bodies = list(journal.bodies(folder.read(name)))
    step = cosigner.Sign(0, start, end, leaves.hash(start, end), leaves.proof(start, end, 0, SIZE))
    bodies += [cosigner.sign_body(step._replace(number=number)) for number in range(len(bodies) - 2, 1023)]
    folder.write(name, journal.written(bodies))


def cosigned(folder, leaves, heights, width, count):
    """(key, signed bytes, signature) of so many signatures of a new cosigner."""
    name = ".".join(map(str, ("s", *heights, width)))
    secret = hashlib.sha384(name.encode()).digest()
    key = Key(secret, [HEIGHTS[height] for height in heights], WIDTHS[width])
    folder.write("secret", secret)
    printed = folder.run(["init-cosigner", "init-cosigner2"][len(heights) - 1], name, COSIGNER, LOG, *heights, width, "secret")
    expect(f"the key of {name}", base64.b64decode(printed), key.public)
    folder.run("advance", name, "a")
    tree, last = 1 << heights[1] if len(heights) == 2 else None, [1023] if heights == (10,) else []
    for number in [*range(count), *last]:
        if number in last:
            all_but_one(folder, name, leaves)
        start, end = SUBTREES[number % len(SUBTREES)]
        message = proof.signed_bytes(COSIGNER_ID, LOG_ID, start, end, leaves.hash(start, end))
        signature = key.signature(number, message)
        found = next_signature(folder, name, number, tree, f"{start}-{end}")
        expect(f"signature {number} of {name}", found, short(COSIGNER_ID) + vector(signature))
        expect(f"what is said of signature {number} of {name}", hss.hss_answer(key.public, message, signature), "Ok")
        yield key.public, message, signature
    check_export(folder, name, key, secret)


@cache
def signatures():
    """The cases of all keys, and the folder with their cosigners."""
    folder = Folder(PROGRAM)
    leaves = new_log(folder)
    return folder, [case for heights, width, count in [*KEYS, *[DEAREST] * IS_WHOLE] for case in cosigned(folder, leaves, heights, width, count)]


def verified(folder, cases):
    """Which of these BouncyCastle verifies."""
    folder.write("cases", "".join(" ".join(field.hex() for field in case) + "\n" for case in cases))
    subprocess.run(["javac", "-d", folder.path, "-cp", JAR, ROOT / "tests/cosignatures/Verify.java"], check=True)
    words = ["java", "-cp", f"{JAR}:{folder.path}", "Verify", folder.path / "cases"]
    return subprocess.run(words, check=True, capture_output=True, text=True).stdout.split()


class Cosignatures(Check):
    def test_signatures(self):
        """keys and signatures of each width and of two levels are those that follow from the secrets"""
        folder, cases = signatures()
        self.notes = [f"{len(cases)} signatures"]
        self.assertEqual(folder.ended("cosign s.5.4 0-9"), (4, b"", "mtc: cosign: Exhausted\n"))
        self.assertEqual(folder.ended("cosign s.10.4 0-9"), (4, b"", "mtc: cosign: Exhausted\n"))
        self.assertEqual(folder.ended("child s.5.4"), (4, b"", "mtc: child: OneLevel\n"))

    def test_bouncycastle(self):
        """BouncyCastle verifies each, and none over other bytes"""
        if not (shutil.which("javac") and shutil.which("java") and JAR.exists()):
            self.skipTest("javac, java or BouncyCastle's jar isn't here")
        folder, cases = signatures()
        changed = [(key, message[:-1] + bytes([message[-1] ^ 1]), signature) for key, message, signature in cases]
        self.assertEqual(verified(folder, cases), ["good"] * len(cases))
        self.assertEqual(verified(folder, changed), ["bad"] * len(cases))


if __name__ == "__main__":
    PROGRAM = program_of(sys.argv[1:])
    status = run(checks_of(Cosignatures))
    if not IS_WHOLE:
        print("left out: cosignatures: the key of height 10 and width 8")
    signatures()[0].close()
    sys.exit(status)
