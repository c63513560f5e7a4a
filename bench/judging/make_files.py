"""Makes the files of bench/judging.sh in a folder: make_files.py PROGRAM FOLDER.

A log of 1,024 entries, signed by three cosigners; the line that main.rattle reads; and the journal
of a cosigner that has signed each entry of the log alone, so that no one-time key is left.
"""

import base64
import hashlib
import shutil
import sys
from pathlib import Path

sys.path.insert(0, str(Path(__file__).resolve().parents[2] / "tests"))
from cosigned_log import COSIGNERS, FIRST, CosignedLog, secret_of  # noqa: E402
from full_cosigner import journal_of, sign  # noqa: E402
from reference import entry, hss, proof  # noqa: E402
from reference.cosigner import Advance, advance_body  # noqa: E402

SIZE, INDEX = 1024, 1000
IDS = [bytes.fromhex(f"81fd590{number}") for number in (2, 3, 4)]
LOG_ID = bytes.fromhex("81fd5901")


def blocks(length):
    """How many blocks of 64 bytes SHA-256 takes of so many bytes."""
    return (length + 9 + 63) // 64


def verify_blocks(key, message, cosignature):
    """The blocks of verifying one signature (RFC 8554, 4.6 and 5.4.2), of height 10 and width 4."""
    signature = cosignature[len(IDS[0]) + 1 + 2 + 4:]
    tree = key[12:28]
    number, randomizer = signature[:4], signature[8:40]
    digest = hashlib.sha256(tree + number + b"\x81\x81" + randomizer + message).digest()
    steps = sum(15 - digit for digit in hss.digits(digest, 4, 67, 4))
    return blocks(54 + len(message)) + steps + blocks(22 + 67 * 32) + blocks(54) + 10 * blocks(86)


def judge_blocks(log, keys):
    """The blocks of the judgement: of the signatures, of the key and the entry, and of the path."""
    signed = [proof.signed_bytes(one, LOG_ID, 0, SIZE, log.leaves.hash(0, SIZE)) for one in IDS]
    verified = sum(map(verify_blocks, keys, signed, log.signatures))
    return verified + blocks(91) + blocks(1 + len(entry.items(log.text)[INDEX][0])) + 10 * blocks(65)


def main():
    program, folder = Path(sys.argv[1]).resolve(), Path(sys.argv[2])
    log = CosignedLog(program, SIZE)
    keys = [base64.b64decode(key) for key in log.keys]
    cert, store = log.cert(INDEX, b"".join(log.signatures)), log.store(2)
    (folder / "line").write_text(f"{cert.hex()} {store.encode().hex()} {FIRST} {judge_blocks(log, keys)}\n")
    for name in ("advance", "subtree"):
        shutil.copy(log.path / name, folder / name)
    secret, held = secret_of(COSIGNERS[0]), advance_body(Advance(SIZE, log.leaves.hash(0, SIZE), []))
    full = journal_of(secret, [held, *(sign(log.leaves, number, number) for number in range(SIZE))])
    for name, text in (("c", cert), ("store", store.encode()), ("secret", secret), ("full", full)):
        (folder / name).write_bytes(text)
        (folder / name).chmod(0o600)
    log.close()


if __name__ == "__main__":
    main()
