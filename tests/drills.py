#!/usr/bin/env python3
"""Plays drills, and compares what they print with the draws of their numbers, which are counted here again.

What `drill NUMBER` plays: x begins as NUMBER. A draw below m sets x to x * 6364136223846793005 + 1442695040888963407 modulo 2^64. It
gives x / 2^33, without the fraction, modulo m.

The log is 32473.1, with 4 active landmarks and at most 64 entries. The cosigners are 32473.2 to 32473.4, with keys of height 5 and
width 4. The secret of 32473.N is 16 bytes N, and u64 NUMBER four times. The store knows the three with their keys, and wants two of
them. There are sixteen rounds:

1. A draw below 3, and one entry more than it gives. The entry at index N is asked for with the name nN.example, the times 1767225600
   and 1767830400, and an Ed25519 key of 24 bytes 00 and u64 N.
2. Each cosigner in order advances to the log's size.
3. A draw below 3. Where it is 0 the log sets a landmark, and the certificate without signatures of the newest entry is judged at
   1767225600, by a store that trusts the active subtrees and knows no cosigner.
4. A draw below the log's size less one, and the index one above it. Each cosigner in order signs the whole log. The certificate of
   that index with these signatures is judged at 1767225600, by the rule alone. It is held against the log's entries and the export
   of each cosigner, as by `audit`.

Before each call of a round that adds a record a draw below 8 is made. Where it is 0 the call is stopped. A draw below 5 then is the
number of writes and syncs that pass once the journal is opened. A draw below 65,536 chooses the crash state on which it is opened
again. Which one a number chooses is left open, and the number of signatures with it. The call is not made again where it had answered
Ok, nor where it adds no signature and its record is there. In every other case it is made again, without a draw and without a stop.

The number of signatures rests on the crash states too that stops leave, which the draws pick by the rule of `MemDisk::crash`. Each
drill is played twice, and has to print the same bytes. Prints what is wrong, and the longest processor time and the most memory
of a drill. Needs a built program, and GNU time; where that isn't there it says that this is left out, and ends with status 0.
The gate plays eight.
Usage: tests/drills.py [COUNT [FIRST]]      so many drills, 100 if nothing is said, from this number on, 0 if nothing is said;
                                     and that of the largest number
       tests/drills.py --drawn NUMBER ..     plays nothing, and prints of each number what it draws: entries, landmarks,
                                     signatures, stops, the stopped calls that do not answer Ok, and those of an issue, a landmark
                                     or an advance whose record is there, as crates/test_run has them
"""

import subprocess
import sys
from pathlib import Path

from reference.drill import drawn, summary

ROOT = Path(__file__).resolve().parent.parent
TIME = Path("/usr/bin/time")
LAST = 2**63 - 1


def wrong_lines(number, text):
    """What is wrong with the summary of a drill."""
    wanted = "".join(line + "\n" for line in summary(number))
    if text != wanted:
        yield f"drill {number}: {text!r} in place of {wanted!r}"


def played(number):
    """What a drill prints, or what is wrong; its processor time in seconds, and the most memory that it held, in KB."""
    # A process that is made by Python counts Python's own memory as held, so GNU time stands in between.
    words = [TIME, "-q", "-f", "%U %M", ROOT / "crates/mtc_main/out/mtc_main", "drill", str(number)]
    ended = subprocess.run(words, capture_output=True)
    *said, measured = ended.stderr.decode().splitlines()
    seconds, held = measured.split()
    text = f"status {ended.returncode} {said}" if ended.returncode or said else ended.stdout.decode()
    return text, float(seconds), int(held)


def main(words):
    if words[:1] == ["--drawn"]:
        for number in map(int, words[1:]):
            print(number, *drawn(number))
        return 0
    if not TIME.exists():
        print("left out: drills: GNU time isn't here")
        return 0
    count, first = int(words[0]) if words else 100, int(words[1]) if words[1:] else 0
    numbers, wrong, most, longest = [*range(first, first + count), LAST], [], 0, 0.0
    for number in numbers:
        text, seconds, held = played(number)
        again, *_ = played(number)
        wrong += wrong_lines(number, text)
        if again != text:
            wrong.append(f"drill {number}: other bytes the second time")
        most, longest = max(most, held), max(longest, seconds)
    print(*wrong, f"{len(numbers)} drills, {len(wrong)} wrong; at most {longest:.2f} s and {most} KB", sep="\n")
    return bool(wrong)


if __name__ == "__main__":
    sys.exit(main(sys.argv[1:]))
