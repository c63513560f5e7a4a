"""Makes the journal of a cosigner whose one-time keys have all signed: make_journal.py JOURNAL.

Each key of height 10 has signed one entry of a log of 1,048,576, by a proof of 20 hashes. No journal of one
cosigner has an export with more bytes of signatures.
"""

import struct
import sys
from pathlib import Path

sys.path.insert(0, str(Path(__file__).resolve().parents[2] / "tests"))
from full_cosigner import KEYS, SECRET, journal_of  # noqa: E402
from reference.cosigner import Advance, Sign, advance_body, sign_body  # noqa: E402
from reference.merkle import List  # noqa: E402

ENTRIES = 1 << 20


def main(path):
    log = List(struct.pack(">Q", at) for at in range(ENTRIES))
    places = range(0, ENTRIES, ENTRIES // KEYS)
    signs = [Sign(number, at, at + 1, log.hash(at, at + 1), log.path(at, 0, ENTRIES)) for number, at in enumerate(places)]
    path.write_bytes(journal_of(SECRET, [advance_body(Advance(ENTRIES, log.hash(0, ENTRIES), [])), *map(sign_body, signs)]))
    path.chmod(0o600)


if __name__ == "__main__":
    main(Path(sys.argv[1]))
