#!/usr/bin/env python3
"""Packs what a user needs into one file: the program, the pages, the man page with each refusal, the completion, the scripts and
units of `tools`, and the examples, with a VERSION; and with --library the C library, its header and its examples.

VERSION has the commit, the kit's line (`rt version`), the last line of the gate over that commit, and the SHA-256 of each other file.
All but the program and the library is taken as it stands in the commit, which is that of HEAD. The same commit, program, library and
lines give the same bytes, everywhere where zlib is the same: files are sorted, their times are the commit's, their owner is root. OUT
appears whole or not at all. What can only run in a clone isn't packed.

It is tested, and not proved. It can't know that the program and the library were built of that commit, or that the line is the gate's:
whoever packs says so. Whoever fetches a release compares its SHA-256 with one from elsewhere, or builds the commit and compares both.

Usage: tools/release.py OUT.tar.gz LINE [--program FILE] [--library FOLDER] [--kit LINE]
       LINE is the last one of `rt ci`, `.. passed, 0 failed`. FILE is crates/mtc_main/out/mtc_main if it isn't said. FOLDER is what
       `tools/c_library.sh FOLDER` has filled.
Status: 0 done, 1 arguments, or a line of a gate that failed, 2 no program or no library, 5 the system failed, or git or rt isn't there.
Example: tools/release.py mtc.tar.gz "$(grep ' passed, 0 failed' gate.log | tail -n 1)" && sha256sum mtc.tar.gz
"""

import argparse
import gzip
import hashlib
import io
import os
import re
import subprocess
import sys
import tarfile
import tempfile
from pathlib import Path
from typing import NamedTuple

ROOT = Path(__file__).resolve().parent.parent
PROGRAM = ROOT / "crates/mtc_main/out/mtc_main"
PASSED = re.compile(r"[ -~]*\b[1-9]\d* passed, 0 failed[ -~]*")
# Of the commit: what is packed under which name. A folder ends in a slash. Of two that fit the longer one counts.
PACKED = {"tools/": "tools/", "docs/": "docs/", "docs/mtc.1": "mtc.1", "docs/mtc.bash": "mtc.bash", "README.md": "README.md",
          "examples/": "examples/"}
WITH_LIBRARY = {"include/mtc.h": "include/mtc.h", "examples/c/": "examples/c/"}
# These prove, build or pack, which takes a clone.
IN_A_CLONE = ("tools/release.py", "tools/c_library.sh")
# The files of the library, by whose name programs are linked and load it.
ARCHIVE, SHARED, LINK = "libmtc.a", "libmtc.so.1", "libmtc.so"
PKG_CONFIG = """prefix=${pcfiledir}/../..

Name: mtc
Description: Judges certificates that a Merkle tree log has issued
Version: 1
Cflags: -I${prefix}/include
Libs: -L${prefix}/lib -lmtc
"""
READ_FIRST = """mtc: a certification authority for Merkle Tree Certificates, with cosigners, mirrors, relying parties, auditors and monitors.

    ./mtc member examples/first.member     # member 0
    ./mtc version                          # the profile and the draft
    ./mtc help                             # a line for each command
    man ./mtc.1                            # all commands, and each refusal with what to do
    source mtc.bash                        # completes arguments
    sed -n 's/^file //p' VERSION | sha256sum --check --quiet

docs has the pages: EACH_DAY.md and OPERATIONS.md for who runs a log or a cosigner, COMMANDS.md and FORMATS.md to look up. README.md is
that of the repository, which says what is proved.

The program needs Linux on an x86-64 processor of the level x86-64-v2, which those since about 2009 have, and the GNU C library, 2.34 or
newer: Debian 12, Ubuntu 22.04 and RHEL 9 have it, and Debian 11 and Alpine haven't. The scripts want bash, and Python 3.11.
VERSION says of which commit it is, how the gate over it ended, and the SHA-256 of each file.
"""
WITH_LIBRARY_READ = """
The C library needs the same: include/mtc.h is its header, docs/LIBRARY.md its page, examples/c has callers. Here:

    export PKG_CONFIG_PATH=$PWD/lib/pkgconfig
    cc examples/c/judge.c $(pkg-config --cflags --libs mtc) -Wl,-rpath,$PWD/lib -o judge
    ./judge examples/www.cert examples/log.store 1767571200    # accepted 1
"""


class NotOne(Exception):
    """A file isn't what it is given as."""


def said(*words):
    return subprocess.run(words, cwd=ROOT, capture_output=True, check=True).stdout


class File(NamedTuple):
    """A file of the release. A link has the name that it leads to as its data."""
    name: str
    data: bytes
    executable: bool = False
    is_link: bool = False


def packed_files(commit, has_library):
    """What is packed of a commit."""
    packed = PACKED | WITH_LIBRARY if has_library else PACKED
    with tarfile.open(fileobj=io.BytesIO(said("git", "archive", "--format=tar", commit, "--", *packed))) as tree:
        for member in filter(tarfile.TarInfo.isfile, tree):
            path = member.name
            found = max((source for source in packed if path == source or source.endswith("/") and path.startswith(source)), key=len)
            is_left = path in IN_A_CLONE or not has_library and path.startswith(tuple(WITH_LIBRARY))
            if not is_left:
                yield File(packed[found] + path[len(found):], tree.extractfile(member).read(), bool(member.mode & 0o100))


def library_files(folder):
    """The C library, as tools/c_library.sh has put it into a folder."""
    archive, shared = ((folder / name).read_bytes() for name in (ARCHIVE, SHARED))
    if not archive.startswith(b"!<arch>\n") or not shared.startswith(b"\x7fELF"):
        raise NotOne(f"{folder}: no library")
    return [File(f"lib/{ARCHIVE}", archive), File(f"lib/{SHARED}", shared), File(f"lib/{LINK}", SHARED.encode(), is_link=True),
            File("lib/pkgconfig/mtc.pc", PKG_CONFIG.encode())]


def files_of(commit, kit, given):
    """All files of a release, sorted by their names."""
    program = given.program.read_bytes()
    if not program.startswith(b"\x7fELF"):
        raise NotOne(f"{given.program}: no program")
    files = [*packed_files(commit, given.library), File("mtc", program, True)]
    files += library_files(given.library) if given.library else []
    files.append(File("README", (READ_FIRST + (WITH_LIBRARY_READ if given.library else "")).encode()))
    files.sort()
    sums = "".join(f"file {hashlib.sha256(file.data).hexdigest()}  {file.name}\n" for file in files if not file.is_link)
    version = f"commit {commit}\nkit {kit}\ngate {given.line}\n{sums}"
    return sorted([*files, File("VERSION", version.encode())])


def archive(folder, time, files):
    """The bytes of the release."""
    packed = io.BytesIO()
    with gzip.GzipFile(filename="", mode="wb", fileobj=packed, mtime=time) as stream:
        with tarfile.open(fileobj=stream, mode="w", format=tarfile.USTAR_FORMAT) as tar:
            for file in files:
                entry = tarfile.TarInfo(f"{folder}/{file.name}")
                entry.mtime, entry.mode = time, 0o755 if file.executable else 0o644
                entry.uname = entry.gname = "root"
                if file.is_link:
                    entry.type, entry.linkname, entry.mode = tarfile.SYMTYPE, file.data.decode(), 0o777
                else:
                    entry.size = len(file.data)
                tar.addfile(entry, None if file.is_link else io.BytesIO(file.data))
    return packed.getvalue()


def write(path, data):
    """Puts bytes into a file, which appears whole or not at all."""
    number, new = tempfile.mkstemp(prefix=".release-", dir=path.parent)
    try:
        with os.fdopen(number, "wb") as file:
            file.write(data)
            file.flush()
            os.fsync(file.fileno())
        os.chmod(new, 0o644)
        os.replace(new, path)
    except OSError:
        os.unlink(new)
        raise


class Arguments(argparse.ArgumentParser):
    def error(self, message):
        self.exit(1, f"{self.prog}: {message}\n")


def arguments(words):
    parser = Arguments(prog="release", description=__doc__, formatter_class=argparse.RawDescriptionHelpFormatter)
    parser.add_argument("out", type=Path)
    parser.add_argument("line")
    parser.add_argument("--program", type=Path, default=PROGRAM)
    parser.add_argument("--library", type=Path)
    parser.add_argument("--kit")
    given = parser.parse_args(words)
    if not PASSED.fullmatch(given.line) or given.line.count("failed") != 1:
        parser.error("the line isn't one of a gate that passed: `N passed, 0 failed`")
    return given


def main(words):
    given = arguments(words)
    try:
        commit = said("git", "rev-parse", "HEAD").decode().strip()
        time = int(said("git", "show", "-s", "--format=%ct", commit))
        kit = given.kit or said("rt", "version").decode().strip()
        write(given.out, archive(f"mtc-{commit[:12]}", time, files_of(commit, kit, given)))
    except NotOne as why:
        print(f"release: {why}", file=sys.stderr)
        return 2
    except FileNotFoundError as why:
        print(f"release: {why}", file=sys.stderr)
        of_caller = [given.program] + ([given.library / name for name in (ARCHIVE, SHARED)] if given.library else [])
        return 2 if why.filename in map(str, of_caller) else 5
    except (OSError, subprocess.CalledProcessError) as why:
        print(f"release: {why}", file=sys.stderr)
        return 5
    return 0


if __name__ == "__main__":
    sys.exit(main(sys.argv[1:]))
