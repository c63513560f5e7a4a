#!/usr/bin/env python3
"""Tries the tools of tools/ that stand beside the program: what they make is given to the program, to OpenSSL and to programs in Go,
and hostile inputs have to be refused with nothing written.

Prints a line for each check, and below it what is wrong. A check for which this machine lacks something is reported as left out. The
checks stand in tests/users, by their tool. tools/guarded_cosign.sh and tools/c_library.sh have tests of their own.
Usage: tests/tools.py [--program FILE] [CHECK ..]    another build of the program
"""

import sys
from functools import partial

from harness import OfLines, program_of, run
from users import (authority, cosigned, cosigners, csr, hours, installed, lists, mirrored, monitors, published, readable, released, stopped_days,
                   stops, tls)
from users.scene import Scene

CHECKS = [csr.check_requests, csr.check_hostile_requests, lists.check_request_lists, published.check_published, published.check_refused_to_publish,
          published.check_proved_by_go, readable.check_entries_to_certs, hours.check_authority_hour,
          *authority.CHECKS, *cosigned.CHECKS, *monitors.CHECKS, *stops.CHECKS, *installed.CHECKS,
          hours.check_cosigner_day, mirrored.check_take_entries,
          cosigners.check_note, cosigners.check_torn_requests, cosigners.check_synced_day, cosigners.check_mirror_day, *stopped_days.CHECKS,
          released.check_units, released.check_container, released.check_machine, released.check_release,
          tls.check_tls]


def main(words):
    program, names = (words[1:2], words[2:]) if words[:1] == ["--program"] else ([], words)
    return run([OfLines(partial(Scene, program_of(program)), check) for check in CHECKS], names)


if __name__ == "__main__":
    sys.exit(main(sys.argv[1:]))
