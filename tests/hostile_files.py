#!/usr/bin/env python3
"""Changes certificates, proofs, signatures, stores, requests, entries, exports and journals, and compares what `verify`,
`audit`, `issue`, `certs`, `advance`, `child` and commands of a mirror say of them with what the readers of tests/reference say;
and what is then in a journal. The keys of cosigners have one level or two, and entries stand in records of their own or several in one.

Where an element of a certificate is changed, dropped, doubled or moved, the lengths around it are fitted: so the change
is met where it stands, and not as a length that doesn't fit. Else one byte is changed at a time, each of a file to each of
sixteen values; with MTC_ALL=1 in the environment to each of all. The readers are written from docs/FORMATS.md, docs/COMMANDS.md and
the standards, and keys and signatures are made from RFC 8554. A line for each kind of change says how many files have which status,
and below it is what is wrong; a kind of which nothing is accepted is wrong too. It needs the built program, and takes a minute.
Usage: tests/hostile_files.py [PROGRAM]
"""

import os
import resource
import signal
import subprocess
import sys
import tempfile
from collections import Counter
from functools import partial
from multiprocessing import Pool
from pathlib import Path

from harness import program_of
from hostile import cuts, judgements, requests, rows, single_bytes

# How much is shown of a file that is judged otherwise.
SHOWN = 2000
KINDS = rows.KINDS + single_bytes.KINDS + cuts.KINDS + judgements.KINDS + requests.KINDS
# A file that can be opened, and of which no byte can be read.
UNREADABLE = "/proc/self/mem"
# Where an output that is to fail begins in its file. No file may be longer than the output's then, and the end of a journal, which
# is much shorter, is written again when it is opened.
BEGINNING = 1 << 20


class Run:
    """Runs the program in a folder."""

    def __init__(self, program, folder):
        self.program, self.folder = program, Path(folder)

    def __call__(self, files, words, most=None):
        """The status and the two texts of a command, over these files; of one without bytes the reading fails.

        With `most` its output takes so many bytes, and then fails.
        """
        for name, text in files.items():
            if text is None:
                (self.folder / name).symlink_to(UNREADABLE)
            else:
                (self.folder / name).write_bytes(text)
        if most is None:
            ended = subprocess.run([self.program, *words], cwd=self.folder, capture_output=True)
            return ended.returncode, ended.stdout, ended.stderr
        with (self.folder / "out").open("w+b") as out:
            out.seek(BEGINNING)
            ended = subprocess.run([self.program, *words], cwd=self.folder, stdout=out, stderr=subprocess.PIPE,
                                   preexec_fn=partial(limited, BEGINNING + most))
            out.seek(BEGINNING)
            return ended.returncode, out.read(), ended.stderr

    def left(self, name):
        """What a file holds; none of no file."""
        place = self.folder / name
        return place.read_bytes() if place.exists() else None


def limited(most):
    """No file takes more bytes, and a write beyond them fails."""
    signal.signal(signal.SIGXFSZ, signal.SIG_IGN)
    resource.setrlimit(resource.RLIMIT_FSIZE, (most, most))


def compared(program, wanted, said, case):
    """The status that a case is to have, and what the program says of it where that is something else."""
    with tempfile.TemporaryDirectory() as folder:
        found, asked = said(Run(program, folder), *case), wanted(*case)
    shown = " ".join(str(one)[:SHOWN] for one in case)
    return asked[0][0], [] if found == asked else [f"{found} in place of {asked}: {shown}"]


def main(words):
    program, status = program_of(words), 0
    # A cosigner's journal is its owner's alone.
    os.umask(0o077)
    with Pool() as pool:
        for kind, wanted, said in KINDS:
            reported = pool.starmap(compared, [(program, wanted, said, case) for case in kind()], 16)
            wrong = [one for _, differences in reported for one in differences]
            counts = sorted(Counter(code for code, _ in reported).items())
            counted = ", ".join(f"{count} of status {code}" for code, count in counts)
            print(f"{'wrong' if wrong or counts[0][0] else 'ok'}: {kind.__doc__}: {counted}", *wrong[:5], sep="\n    ")
            status |= bool(wrong or counts[0][0])
    if not single_bytes.IS_WHOLE:
        print(f"left out: hostile_files: all but {len(single_bytes.BYTES)} of the 256 values of a byte")
    return status


if __name__ == "__main__":
    sys.exit(main(sys.argv[1:]))
