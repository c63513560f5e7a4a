#!/usr/bin/env python3
"""Kills `cosign` at random times over a real file, and checks what the cosigner's journal then has.

After each kill the journal opens, with the records that it had and one more at most. Where a byte of a signature went out,
that one is there, and has the number of the one-time key that signed. No number stands twice. Half of the kills are of cosigners
whose keys have two levels.
Usage: tests/killed_cosigner.py [KILLS]    100 if nothing is said; with less than 60 it may be that no byte goes out, and
       that is wrong too
"""

import random
import sys
import time
from functools import partial

from files.commands import COSIGNER, LOG, numbers_of
from files.folder import Folder, unlike
from files.kills import killed, next_span
from files.locks import number_in
from harness import OfLines, program_of, run

# A key of height 5 has 32 one-time keys, as each lower tree has, and so many kills each cosigner of the test is given.
KILLS = 30
# The upper tree's signature of the first lower tree's key, of height 5 and width 8, and that key (RFC 8554, section 5.4).
UPPER = 4 + 4 + 32 * (1 + 34) + 4 + 32 * 5 + 56


class Cosigned(Folder):
    """A folder with a log, and with requests to a new cosigner: to advance, and to sign a subtree."""

    def __init__(self, program):
        super().__init__(program)
        self.new_log()
        for _ in range(3):
            self.run(["issue", "j", "r"])
        size = self.size()
        self.write("advance", self.said(["consist", "j", "0", str(size)]))
        self.write("subtree", self.said(["subtree", "j", "0", str(size), str(size)]))

    def new_cosigner(self, journal, levels):
        """Its secret comes through a pipe, so that no file but the journal has it."""
        begin = ["init-cosigner", "init-cosigner2"][levels - 1]
        words = [begin, journal, COSIGNER, LOG, *["5"] * levels, "8", "/dev/stdin"]
        status, _, err = self.run(words, before=["sh", "-c", 'head -c 48 /dev/urandom | "$0" "$@"'])
        if status != 0:
            raise RuntimeError(f"{words}: status {status} {err}")
        self.said(["advance", journal, "advance"])
        if levels == 2:
            self.said(["child", journal])

    def numbers(self, journal):
        """The numbers of the Sign records of an export, in its order."""
        return numbers_of(self.said(["export", journal]))


def key_in(signature, levels):
    """The number of the one-time key, where so much of a signature went out. Of two levels it stands after the upper tree's part."""
    head = 1 + signature[0] + 2 + 4
    return number_in(signature[:head] + signature[head + (levels - 1) * UPPER:])


def check_killed(folder, kills, levels):
    """`cosign` is killed at random times"""
    began, sent, unsaid = time.monotonic(), 0, 0
    folder.new_cosigner("first", levels)
    folder.said(["cosign", "first", "subtree"])
    span = time.monotonic() - began
    for kill in range(kills):
        if kill % KILLS == 0:
            journal, before = f"c{kill}", []
            folder.new_cosigner(journal, levels)
        out = killed(folder, ["cosign", journal, "subtree"], random.uniform(0, span)).encode("latin-1")
        numbers = folder.numbers(journal)
        yield from unlike(f"kill {kill}: the numbers", numbers, [*range(len(numbers))])
        if out:
            sent += 1
            yield from unlike(f"kill {kill}: the records", len(numbers), len(before) + 1)
            yield from unlike(f"kill {kill}: the key", key_in(out, levels) in (None, len(before)), True)
        else:
            unsaid += len(numbers) - len(before)
            yield from unlike(f"kill {kill}: a record at most", len(numbers) - len(before) in (0, 1), True)
        span, before = next_span(span, bool(out)), numbers
    yield from unlike(f"a byte went out by a key of {levels} levels", sent > 0, True)
    folder.notes.append(f"by a key of {levels} levels {kills} times: of {sent} a byte went out, the records of {unsaid} others are there")


def main(words):
    kills, make = int(words[0]) if words else 100, partial(Cosigned, program_of([]))
    return run([OfLines(make, check_killed, kills - kills // 2, 1), OfLines(make, check_killed, kills // 2, 2)])


if __name__ == "__main__":
    sys.exit(main(sys.argv[1:]))
