#!/usr/bin/env python3
"""Prints the least and the most seconds of some rounds of what `advance` or `cosign` asks of a disk beside reading, once
the journal is locked and its folder is synced: a sync, a record and a sync, and its commit byte and a sync.
The file lies in the folder that is named.
Usage: bench/cosigners/syncs.py FOLDER
"""

import os
import sys
import time
from pathlib import Path

ROUNDS, RECORD = 25, 60


def seconds(file):
    """The time of one round."""
    begun = time.perf_counter()
    os.fsync(file)
    os.pwrite(file, b"\0" * RECORD, 137)
    os.fsync(file)
    os.pwrite(file, b"\1", 136)
    os.fsync(file)
    return time.perf_counter() - begun


def main():
    path = Path(sys.argv[1]) / "synced"
    file = os.open(path, os.O_RDWR | os.O_CREAT, 0o600)
    os.pwrite(file, b"\0" * 137, 0)
    os.fsync(file)
    rounds = [seconds(file) for _ in range(ROUNDS)]
    os.close(file)
    path.unlink()
    print(f"{min(rounds):.3f} to {max(rounds):.3f}")


if __name__ == "__main__":
    main()
