#!/usr/bin/env python3
"""Cuts an entries file: prints its first N entries with their keys, as `mtc entries` or `mtc mirror-entries` would.

With that a list is compared with what a cosigner holds, which mostly has another size: `--held EXPORT` takes N from `mtc held EXPORT`,
prints nothing, and tells whether `mtc root` of the first N entries is the root that the cosigner holds.

It is tested, and not proved. It reads lengths alone: `mtc` tells whether an entry is in its form.

Usage: tools/first_entries.py ENTRIES N
       tools/first_entries.py --held EXPORT ENTRIES    prints `same N`, or `differs N` and both roots
MTC names the program, and else it is `mtc`.
Status: 0 done, 1 arguments, 2 ENTRIES is cut, 3 the roots differ, 4 ENTRIES has fewer entries, 5 the system failed, 6 standard output
       failed; or that of `mtc`, where it fails.
Example: tools/first_entries.py entries 100 >first && mtc trust-landmarks landmarks 168 first >tables
"""

import os
import re
import shutil
import subprocess
import sys
import tempfile

HELD = re.compile(rb"^size (\d+)\nroot ([0-9a-f]{64})$", re.MULTILINE)


class Failed(Exception):
    """Why nothing is printed, with the status."""

    def __init__(self, status, why):
        super().__init__(why)
        self.status = status


def copy_first(path, count, out):
    """Copies the first entries of a file, each with its key."""
    with open(path, "rb") as file:
        for number in range(2 * count):
            begin = file.read(2)
            if not begin and number % 2 == 0:
                raise Failed(4, f"{path}: it has {number // 2} entries")
            data = file.read(int.from_bytes(begin, "big"))
            if len(begin) < 2 or len(data) < int.from_bytes(begin, "big"):
                raise Failed(2, f"{path}: it is cut in entry {number // 2}")
            out.write(begin + data)
    out.flush()


def root_in(*words):
    """The size and the root that a command of the program prints."""
    ended = subprocess.run([os.environ.get("MTC", "mtc"), *words], stdout=subprocess.PIPE, check=False)
    found = HELD.search(ended.stdout)
    if ended.returncode or not found:
        raise Failed(ended.returncode or 2, f"{' '.join(words)}: no size and root")
    return int(found[1]), found[2].decode()


def compare(export, entries):
    """Whether the first entries of a list are those that a cosigner holds."""
    size, held = root_in("held", export)
    with tempfile.NamedTemporaryFile() as first:
        copy_first(entries, size, first)
        _, root = root_in("root", first.name)
    print(f"same {size}" if root == held else f"differs {size}\nheld {held}\nroot {root}")
    return 0 if root == held else 3


def main(words):
    try:
        if len(words) == 3 and words[0] == "--held":
            status = compare(words[1], words[2])
        elif len(words) == 2 and words[1].isascii() and words[1].isdigit():
            # Nothing is printed of a list that is cut or too short.
            with tempfile.TemporaryFile() as found:
                copy_first(words[0], int(words[1]), found)
                found.seek(0)
                shutil.copyfileobj(found, sys.stdout.buffer)
            status = 0
        else:
            print("usage: first_entries.py ENTRIES N | first_entries.py --held EXPORT ENTRIES", file=sys.stderr)
            return 1
        sys.stdout.flush()
        return status
    except Failed as why:
        print(f"first_entries: {why}", file=sys.stderr)
        return why.status
    except BrokenPipeError:
        os.dup2(os.open(os.devnull, os.O_WRONLY), sys.stdout.fileno())
        return 6
    except OSError as why:
        print(f"first_entries: {why}", file=sys.stderr)
        return 5


if __name__ == "__main__":
    sys.exit(main(sys.argv[1:]))
