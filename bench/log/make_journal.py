"""Makes the journal of a log: make_journal.py ENTRIES JOURNAL [STEP].

With STEP it has a record of tiles after each so many entries, as a log that is tiled as it grows.
"""

import hashlib, struct, sys

count, path = int(sys.argv[1]), sys.argv[2]
step = int(sys.argv[3]) if len(sys.argv) > 3 else count + 1
name = bytes.fromhex("301931173015060a2b0601040182da4b2f010c0733323437332e31")
fields = bytes.fromhex("301e170d3236303130313030303030305a170d3236303130383030303030305a3000")
names = bytes.fromhex("a31b301930170603551d110101ff040d300b8209612e6578616d706c65")
with open(path, "wb") as journal:
    def record(body):
        journal.write(b"\1" + struct.pack(">I", len(body)) + body)
    journal.write(b"mtc-journal/v1\n\0")
    record(bytes.fromhex("010481fd5901") + struct.pack(">II", 2, 1048576 if count <= 1048576 else 16777216))
    for number in range(1, count):
        key = bytes.fromhex("302a300506032b6570032100") + number.to_bytes(32, "big")
        entry = b"\0\1" + bytes.fromhex("a003020102") + name + fields + b"\4\x20" + hashlib.sha256(key).digest() + names
        record(b"\2" + struct.pack(">H", len(entry)) + entry + struct.pack(">H", len(key)) + key)
        if (number + 1) % step == 0:
            record(b"\4" + struct.pack(">Q", number + 1))
    journal.write(b"\0")
