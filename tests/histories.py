#!/usr/bin/env python3
"""Gives the program sequences of drawn commands of all kinds, and compares each answer (status, standard output, standard error)
and each file, byte for byte, with what the readers of tests/reference say, which are written from the pages.

Each sequence has a folder of its own, with some logs, cosigners and mirrors, and with lists, stores, certificates, requests and
other files. Commands get good arguments and files, and bad and hostile ones: other words, damaged files, files of another kind,
folders, links, pipes, names that can't be, files that another process has locked, and an output that takes nothing. Journals and
tile files are damaged, removed and put back between them. Some commands are stopped at a call of the system: what they printed,
and each file, is one of those that a stop may leave. Then the power may be cut: what isn't synced is torn. Of some a call fails.

Left out are keys of height 10 and width 8, logs of more than some 1,000 entries, journals that others may read, full disks, want
of memory, and pairs of strings with one hash; tests/files, tests/tiled_log.py and tests/allocations.py have most of that. The
stops need strace; if strace isn't there, or may not trace, the script says that they are left out.

A failure prints the command line that plays its sequence again, up to the first command that fails.
Usage: tests/histories.py [SEED [COMMANDS [PROGRAM]]]    drawn from this seed, the number of the day since 1970 in UTC if nothing
                                     is said; 2,000 commands if nothing is said, and 20,000 with MTC_ALL=1 in the environment
       tests/histories.py --sequence NUMBER [COMMANDS [PROGRAM]]    one of its sequences, with a line for each command
"""

import os
import sys
import time
from collections import Counter

from drawn import stops
from drawn.history import History
from drawn.world import Wrong
from harness import program_of
from reference.arguments import WANTED

COMMANDS, LENGTH, DAY = 2000, 250, 24 * 60 * 60


def played(program, number, count, shows):
    """What a sequence counted, and what is wrong in it."""
    history, wrong = History(program, number, stops.can_trace(), shows), []
    try:
        history.play(count)
    except Wrong as why:
        last = history.begun + 1
        wrong.append(f"tests/histories.py --sequence {number} {last}: the last one, {history.line!r:.300}, {why}")
    finally:
        history.world.close()
    return history.counts, wrong


def summary(counts):
    """How the commands ended, and what was done to them and their files."""
    ended = {key[1]: counts[key] for key in sorted(counts, key=str) if key[0] == "status"}
    shown = [f"{count} of status {status}" for status, count in ended.items()]
    shown += [f"{count} {name}" for name, count in sorted(counts.items(), key=str) if isinstance(name, str)]
    return f"{sum(ended.values())} commands: {', '.join(shown)}"


def left_out(counts, seed):
    """What is sampled, and which commands never did their work."""
    idle = [name for name in WANTED if not counts["command", name, 0]]
    return f"all commands but those drawn by {seed}" + f", of which no {', '.join(idle)} did its work" * bool(idle)


def main(words):
    is_one = words[:1] == ["--sequence"]
    words = words[is_one:]
    program = program_of(words[2:])
    # A cosigner's journal is its owner's alone.
    os.umask(0o077)
    is_whole = os.environ.get("MTC_ALL") == "1"
    seed = words[0] if words else str(int(time.time()) // DAY)
    count = int(words[1]) if words[1:] else LENGTH if is_one else COMMANDS * (10 if is_whole else 1)
    lengths = [count] if is_one else [min(LENGTH, count - at) for at in range(0, count, LENGTH)]
    counts, wrong = Counter(), []
    for place, length in enumerate(lengths):
        found, differences = played(program, seed if is_one else f"{seed}.{place}", length, is_one)
        counts += found
        wrong += differences
    print(f"{'wrong' if wrong else 'ok'}: histories: drawn by {seed}, {summary(counts)}", *wrong, sep="\n    ")
    if not stops.can_trace():
        print("left out: histories: stops at a call of the system, and power cuts: strace isn't here, or may not trace")
    if not is_whole and not is_one:
        print(f"left out: histories: {left_out(counts, seed)}")
    return bool(wrong)


if __name__ == "__main__":
    sys.exit(main(sys.argv[1:]))
