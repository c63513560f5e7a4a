#!/usr/bin/env python3
"""Runs the program on real files and streams, and checks what a proof can't see: locks, names, modes, streams that fail,
the order of the system's calls, calls that fail, disks that are full, commands at once, and commands that are killed.

Prints a line for each check, and below it what is wrong. A check for which this machine lacks something is reported as left out.
As root it runs the program as nobody, so that modes count. The checks stand in tests/files, by their subject.
Usage: tests/real_files.py [KILLS [CHECK ..]]      a command is killed so many times, 100 if nothing is said; with
       less than 30 it may be that none is acknowledged, and that is wrong too
"""

import signal
import sys
from functools import partial

from files import commands, disks, faults, kills, limits, locks, names, order, streams
from files.commands import Scene
from files.folder import Folder
from files.streams import Judged
from harness import OfLines, program_of, run

# Each check with the files that it wants.
CHECKS = [
    (Scene, commands.check_listed), (Scene, locks.check_locks), (Folder, names.check_refusals),
    (Scene, names.check_links), (Scene, names.check_linked_folders), (Scene, names.check_hard_links),
    (Scene, names.check_tiles_that_lead_back), (Scene, names.check_tiles_of_others),
    (Scene, names.check_no_journal), (Scene, names.check_long_names), (Folder, locks.check_modes),
    (Scene, locks.check_no_modes), (Scene, locks.check_others), (Scene, locks.check_owners_readers), (Scene, streams.check_streams), (Scene, streams.check_lines),
    (Scene, streams.check_readers), (Judged, streams.check_pipes), (Scene, streams.check_no_files),
    (Scene, order.check_order), (Scene, order.check_readers_write_nothing), (Scene, order.check_frames), (Folder, order.check_tail), (Folder, order.check_replaced),
    (Scene, faults.check_faults), (Scene, faults.check_no_sync), (Scene, faults.check_append), (Scene, faults.check_undoing),
    (Scene, faults.check_first_append), (Scene, faults.check_tiles_anew), (Scene, faults.check_signals),
    (Scene, kills.check_file_limit), (Folder, limits.check_memory), (Judged, limits.check_inputs), (Folder, limits.check_extensions), (Judged, limits.check_long_entries),
    (Judged, limits.check_many_items), (Folder, limits.check_far_items),
    (Scene, disks.check_full), (Scene, disks.check_read_only), (Folder, disks.check_other_disk), (Folder, locks.check_at_once), (Scene, locks.check_readers_at_once),
    (Scene, locks.check_keys_at_once), (Folder, kills.check_kills), (Scene, kills.check_kills_again),
    (Scene, kills.check_first_kills),
]


def main(words):
    # A signal that whoever began this ignores, as a shell does in the background, would be ignored by the program too.
    for one in (signal.SIGHUP, signal.SIGINT, signal.SIGQUIT, signal.SIGTERM):
        signal.signal(one, signal.SIG_DFL)
    killed, program = int(words[0]) if words else 100, program_of([])
    return run([OfLines(partial(kind, program), check, killed) for kind, check in CHECKS], words[1:])


if __name__ == "__main__":
    sys.exit(main(sys.argv[1:]))
