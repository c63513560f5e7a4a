#!/usr/bin/env python3
"""Refuses each allocation of each command in turn, over real files; of a drill, which makes many, one in so many.

The command then ends with status 8, one line that says so, nothing on standard output and every
file as it was; or with its outcome, as if nothing had been refused. The lists here are shorter
than what `entries` writes at once, but for that of LONG, of which the first items are out if the
memory for the last one is refused. Of a log or a mirror without a file of tiles an empty one may
be there then, and tiles that are written again may be whole. The allocations are those of the C library, of which a preloaded library refuses one. Needs a
C compiler; where there is none it says that this is left out, and ends with status 0.
Usage: tests/allocations.py [PROGRAM]
"""

import base64
import os
import shutil
import subprocess
import sys
from functools import partial

from harness import DATES, KEY, ROOT, Folder, LeftOut, OfLines, program_of, run

LOG, COSIGNER, NOW = "32473.1", "32473.2", "1767225600"
REQUEST = f'{DATES}dns = ["{{}}.example", "*.b.example"]\ncommon_name = "b"\nkey = "{KEY}"\n'

# The arguments of each command, over the files that `make_files` makes.
COMMANDS = [
    "frob", "member first.member", "member absent", "show cert", "verify cert store " + NOW,
    "verify light trusting " + NOW, "verify cert trusting " + NOW, "init-log new 32473.1 2 32",
    "init-log log 32473.1 2 32", "issue log request", "issue log wrong", "issue-list log requests", "issue-list log wrong", "checkpoint log", "entries log 5", "entries long 3",
    "entries-from log 3 5", "entries-from log 5 5",
    "consist log 3 5", "subtree log 0 4 5", "keygen 5 4 secret", "init-cosigner new 32473.2 32473.1 5 4 secret",
    "init-cosigner2 new 32473.2 32473.1 5 5 4 secret", "child bottomless", "child grown", "child cosigner", "cosign bottomless subtree",
    "cosign grown subtree",
    "advance early advance", "cosign cosigner subtree", "cosign early subtree", "export cosigner", "landmark log",
    "landmarks log", "light-cert log 2", "light-cert log 4", "light-certs log 1 4", "light-certs log 1 5",
    "trust-landmarks list 2 entries", "cert log 2 0 4 signatures", "certs log 1 4 0 4 signatures", "certs log 3 5 0 4 empty", "audit cert store " + NOW + " entries export",
    "audit light trusting " + NOW + " entries empty", "audit light trusting " + NOW + " few empty", "quarrel export", "quarrel empty",
    "quarrel entries", "drill 7", "root entries", "root export", "held export", "held empty", "held entries",
    "monitor-init 32473.1", "monitor state watch advance entries", "monitor state watch advance few", "monitor watch watch advance entries",
    "monitor state state advance entries", "monitor state watch subtree entries", "monitor state watch advance export",
    "switch log", "switch switched", "issue switched request",
    "checkpoint bare", "tile log", "tile full", "cert tiled 2 0 256 empty", "issue tiled request", "tile none.tiles",
    "tile-anew full", "tile-anew tiled", "tile-anew lost",
    "mirror-init new 32473.1", "mirror-init log 32473.1", "mirror-take mirror entries", "mirror-take mirror few",
    "mirror-take mirror differing", "mirror-take mirror export", "mirror-take log entries", "mirror-tile filled",
    "mirror-tile mirror", "mirror-entries fresh 0", "mirror-entries mirror 3", "mirror-entries mirror 4",
    "mirror-advance early mirror 3", "mirror-advance early mirror 4", "mirror-advance early filled 256",
    "mirror-advance cosigner mirror 3", "mirror-advance follower mirror 2", "mirror-advance mirror log 3",
    "mirror-advance follower log 3", "mirror-cosign follower mirror 0 2", "mirror-cosign follower mirror 1 3",
    "mirror-cosign follower mirror 0 4", "mirror-cosign mirrored mirror 0 2", "mirror-cosign mirror mirror 0 2",
    "help", "version", "help x",
]

# The null entry and the first one go out together before the second one is read, whose key is longer.
LONG, KEY_SIZES = "entries long 3", (4_200, 9_000)

# Of the allocations of this command one in so many is refused.
STEPS = {"drill 7": 97}


def make_log(folder):
    """A log of five entries with two landmarks, and what it writes."""
    folder.run("init-log", "log", LOG, "2", "32")
    for number in range(1, 5):
        folder.write("request", REQUEST.format(f"n{number}"))
        folder.run("issue", "log", "request")
        if number in (1, 3):
            folder.run("landmark", "log")
    for name, words in (("entries", "entries log 5"), ("few", "entries log 3"), ("list", "landmarks log"),
                        ("advance", "consist log 0 5"), ("subtree", "subtree log 0 4 5"), ("light", "light-cert log 2")):
        folder.run(*words.split(), into=name)


def key_of(size):
    """A public key of so many bytes, in base64."""
    head = b"\x30\x82" + (size - 4).to_bytes(2, "big") + bytes.fromhex("300506032b65700382")
    return base64.b64encode(head + (size - 15).to_bytes(2, "big") + bytes(size - 15)).decode()


def first_items(text, count):
    """The first items of a list, each of two byte strings after their lengths of two bytes."""
    end = 0
    for _ in range(2 * count):
        end += 2 + int.from_bytes(text[end:end + 2], "big")
    return text[:end]


def make_long_log(folder):
    """A log of entries with long keys."""
    folder.run("init-log", "long", LOG, "2", "32")
    for size in KEY_SIZES:
        folder.write("request", REQUEST.format("long").replace(KEY, key_of(size)))
        folder.run("issue", "long", "request")


def make_files(folder):
    """The files of all commands."""
    make_long_log(folder)
    make_log(folder)
    for name, text in (("empty", b""), ("differing", bytes.fromhex("0001050000")), ("state", b"state 32473.1 0\n"), ("watch", b"b.example\n"), ("secret", bytes(range(48))), ("wrong", REQUEST.format("-a").encode()),
                       ("requests", "".join(f"[[request]]\n{REQUEST.format(name)}" for name in "ab").encode())):
        folder.write(name, text)
    for name in ("member", "cert", "journal"):
        shutil.copy(ROOT / f"examples/first.{name}", folder.path / f"first.{name}")
    folder.run("show", "first.cert")
    folder.run("checkpoint", "first.journal")
    shutil.copy(ROOT / "examples/first.journal", folder.path / "bare")
    folder.run("init-log", "switched", LOG, "2", "32")
    folder.run("switch", "switched")
    for journal in ("full", "tiled"):
        folder.long_log(256, journal)
        folder.run("tile" if journal == "tiled" else "checkpoint", journal)
    shutil.copy(folder.path / "tiled", folder.path / "lost")
    folder.write("lost.tiles", folder.read("tiled.tiles")[:100])
    for journal in ("early", "cosigner"):
        key = folder.run(*f"init-cosigner {journal} {COSIGNER} {LOG} 5 4 secret".split()).decode().strip()
    for journal in ("bottomless", "grown"):
        folder.run(*f"init-cosigner2 {journal} {COSIGNER} {LOG} 5 5 4 secret".split())
        folder.run("advance", journal, "advance")
    folder.run("child", "grown")
    folder.run("advance", "cosigner", "advance")
    folder.run("cosign", "cosigner", "subtree", into="signatures")
    folder.run("export", "cosigner", into="export")
    make_mirrors(folder)
    folder.run(*"cert log 2 0 4 signatures".split(), into="cert")
    tables = folder.run("trust-landmarks", "list", "2", "entries").decode()
    folder.write("trusting", f'[log]\nid = "{LOG}"\n{tables}')
    rule = f'[[cosigner]]\nid = "{COSIGNER}"\nkey = "{key}"\n[[rule]]\ncosigners = ["{COSIGNER}"]\ncount = 1\n'
    folder.write("store", f'[log]\nid = "{LOG}"\n{rule}')


def make_mirrors(folder):
    """Mirrors without entries, with three and with 256, and cosigners that hold what the second one has."""
    folder.write("zeros", bytes(4 * 256))
    for mirror, entries in (("fresh", None), ("mirror", "few"), ("filled", "zeros")):
        folder.run("mirror-init", mirror, LOG)
        if entries:
            folder.run("mirror-take", mirror, entries)
    folder.run(*f"init-cosigner follower {COSIGNER} {LOG} 5 4 secret".split())
    folder.run(*f"init-cosigner2 mirrored {COSIGNER} {LOG} 5 5 4 secret".split())
    for cosigner in ("follower", "mirrored"):
        folder.run("mirror-advance", cosigner, "mirror", "3")


def files_of(path):
    return {file.name: file.read_bytes() for file in path.iterdir()}


def write_files(path, files):
    """Makes the folder hold these files and no others."""
    for name in files_of(path).keys() - files.keys():
        (path / name).unlink()
    for name, text in files.items():
        if not (path / name).exists() or (path / name).read_bytes() != text:
            (path / name).write_bytes(text)


class Refusals:
    """Runs a program whose allocation of some number is refused."""

    def __init__(self, folder, library):
        self.folder, self.library = folder, library
        self.files = files_of(folder.path)

    def ended(self, words, number):
        """Whether that allocation came, and how the command ended over the same files as ever."""
        write_files(self.folder.path, self.files)
        reported, reporting = os.pipe()
        extra = {"LD_PRELOAD": str(self.library), "REFUSED": str(number), "REPORT": str(reporting)}
        ended = subprocess.run([self.folder.program, *words.split()], cwd=self.folder.path, pass_fds=[reporting],
                               env={**os.environ, **extra}, capture_output=True)
        os.close(reporting)
        came = os.read(reported, 1) != b""
        os.close(reported)
        return came, (ended.returncode, ended.stdout, ended.stderr.decode(), files_of(self.folder.path))

    def faults(self, words):
        """How many allocations of the command were refused, and what is wrong where one of them was."""
        wanted, number, wrong, step = self.ended(words, 0)[1], 0, [], STEPS.get(words, 1)
        # The command isn't known before its arguments are copied.
        lines = ["mtc: Memory\n", f"mtc: {words.split()[0]}: Memory\n"]
        made = {"checkpoint bare": {**self.files, "bare.tiles": b""}, "mirror-entries fresh 0": {**self.files, "fresh.tiles": b""},
                "tile-anew lost": wanted[3]}.get(words, self.files)
        outs = {b"", first_items(wanted[1], 2)} if words == LONG else {b""}
        allowed = [wanted, *((8, out, line, files) for out in outs for line in lines for files in (self.files, made))]
        seen = set()
        while True:
            came, found = self.ended(words, number + step)
            if not came:
                # A command copies its arguments, so one that asks for nothing isn't watched.
                same = number > 0 and found == wanted and outs <= seen
                return number // step, wrong if same else [*wrong, f"{words}: {number} allocations, {found[:3]}"]
            number += step
            seen.add(found[1])
            if found not in allowed:
                wrong.append(f"{words}: allocation {number}: {found[:3]}")


def check_refused(folder):
    """each allocation of each command is refused in turn"""
    if not shutil.which("cc"):
        raise LeftOut("there is no C compiler (cc)")
    make_files(folder)
    library = folder.path.with_suffix(".so")
    subprocess.run(["cc", "-O1", "-shared", "-fPIC", "-fno-builtin", "-o", library, ROOT / "tests/allocations/refuse.c"], check=True)
    refusals, count = Refusals(folder, library), 0
    for words in COMMANDS:
        number, faults = refusals.faults(words)
        count += number
        yield from faults
    library.unlink()
    folder.notes.append(f"{count} allocations of {len(COMMANDS)} commands")


if __name__ == "__main__":
    sys.exit(run([OfLines(partial(Folder, program_of(sys.argv[1:])), check_refused)]))
