"""Makes the journal of a cosigner of two levels: make_journal.py SIGNATURES JOURNAL [SUBTREE].

Its trees have height 10 and width 4. It holds a log of 1,048,576 entries that are all alike, so that each level of its tree has one
hash, and signed as many subtrees of one entry, whose proofs have 20 hashes. With SUBTREE the next request goes into that file.
"""

import hashlib
import os
import struct
import sys

LEVELS = 20
COSIGNER, LOG = bytes.fromhex("0481fd5902"), bytes.fromhex("0481fd5901")
LMS_10, OTS_4 = 6, 3


def main(count, path, request=None):
    nodes = [hashlib.sha256(b"\0entry").digest()]
    for _ in range(LEVELS):
        nodes.append(hashlib.sha256(b"\1" + nodes[-1] + nodes[-1]).digest())
    root, proof = nodes[LEVELS], struct.pack(">H", 32 * LEVELS) + b"".join(nodes[:LEVELS])
    with open(path, "wb") as journal:
        def record(body):
            journal.write(b"\1" + struct.pack(">I", len(body)) + body)
        journal.write(b"mtc-journal/v1\n\0")
        record(b"\x15" + COSIGNER + LOG + struct.pack(">III", LMS_10, LMS_10, OTS_4) + bytes(48))
        record(b"\x12" + struct.pack(">Q", 1 << LEVELS) + root + bytes(2))
        for number in range(count):
            if number % 1024 == 0:
                record(b"\x14" + struct.pack(">II", number // 1024, LMS_10))
            record(b"\x13" + struct.pack(">IQQ", number, number, number + 1) + nodes[0] + proof)
        journal.write(b"\0")
    os.chmod(path, 0o600)
    if request:
        with open(request, "wb") as file:
            file.write(LOG + struct.pack(">QQ", count, count + 1) + nodes[0] + proof)


main(int(sys.argv[1]), *sys.argv[2:])
