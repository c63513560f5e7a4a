#!/usr/bin/env python3
"""Runs the program on a disk that refuses writes for a while, so that a sync fails, and checks that what is acknowledged
afterwards is on the disk.

A Linux system takes a page whose sync failed for written, keeps it in memory, and answers the next sync with Ok. On ext4 a
block that was new to its file then keeps its zeros on the disk, whatever is written to it. So after a sync that failed the
program closes a commit byte that it had opened, and cuts the file off behind what is on the disk. The disk here is one in
memory (zram) that refuses while its memory is limited; what a power cut would leave is read from it with no page of the
system's memory in between, and mounted as a copy. Needs root, zram disks, loop devices and strace; where they aren't there it
says that this is left out, and ends with status 0. Not part of the gate. Usage: tests/failed_sync.py [PROGRAM [CHECK ..]]
"""

import mmap
import os
import re
import shutil
import signal
import subprocess
import sys
import tempfile
import time
from pathlib import Path

from files.commands import COSIGNER, LOG, numbers_of, with_wrong_byte
from files.locks import number_in

ROOT = Path(__file__).resolve().parent.parent
ZRAM = Path("/sys/class/zram-control")
KEY = "MCowBQYDK2VwAyEAAAAAAAAAAAAAAAAAAAAAAAAAAAAAAAAAAAAAAAAAAAA="
NEW_LOG = ["init-log", "j", "32473.1", "2", "100000"]
# What makes a file system, and how many bytes it needs.
SYSTEMS = {"ext2": (["mkfs.ext2", "-q"], 32 << 20), "ext4": (["mkfs.ext4", "-q"], 32 << 20),
           "xfs": (["mkfs.xfs", "-q"], 400 << 20)}
# The syncs of a command that adds a record, counted from its last one: that of the commit byte, that of the record, and in a
# `tile` that of the tiles. The last one of a `tile-anew` is that of the tiles.
COMMIT_BYTE, RECORD, TILES, LAST = 0, 1, 2, 0
PAGE = 4096
# A log of so many entries has a journal of some three million bytes.
ENTRIES = 15000
# How many one-time keys a cosigner of height 5 has.
KEYS = 32


def done(*words, **options):
    return subprocess.run([str(word) for word in words], check=True, capture_output=True, **options)


class Disk:
    """A disk in memory with a file system, mounted at `path`, and a copy of it, mounted at `copy`."""

    def __init__(self, folder, system):
        self.number = (ZRAM / "hot_add").read_text().strip()
        self.block, self.device = Path(f"/sys/block/zram{self.number}"), Path(f"/dev/zram{self.number}")
        self.path, self.copy, self.image = folder / "disk", folder / "copy", folder / "image"
        make, size = SYSTEMS[system]
        (self.block / "disksize").write_text(str(size))
        self.path.mkdir(exist_ok=True)
        self.copy.mkdir(exist_ok=True)
        done(*make, self.device)
        done("mount", self.device, self.path)

    def refuse(self, refuses):
        """From now on each write of new bytes fails, or none."""
        (self.block / "mem_limit").write_text("4096" if refuses else "0")

    def cut(self, look):
        """What `look` finds on what a power cut would leave now."""
        done("dd", f"if={self.device}", f"of={self.image}", "bs=1M", "iflag=direct")
        # A file system doesn't let a copy with its own name be mounted beside it.
        options = "loop,nouuid" if shutil.which("mkfs.xfs") and self.is_xfs() else "loop"
        done("mount", "-o", options, self.image, self.copy)
        try:
            return look(self.copy)
        finally:
            done("umount", self.copy)

    def is_xfs(self):
        return self.image.open("rb").read(4) == b"XFSB"

    def remove(self):
        self.refuse(False)
        # A command that was killed may have its files for a moment more.
        for _ in range(50):
            if subprocess.run(["umount", self.path], capture_output=True).returncode == 0:
                break
            time.sleep(0.1)
        (self.block / "reset").write_text("1")
        (ZRAM / "hot_remove").write_text(self.number)


def run(program, folder, *words):
    ended = subprocess.run([program, *words], cwd=folder, capture_output=True)
    return ended.returncode, ended.stdout.decode("latin-1"), ended.stderr.decode()


def request(folder, file, names):
    """A request for so many names, of some 200 bytes each."""
    dates = 'not_before = "2026-01-01T00:00:00Z"\nnot_after = "2026-01-08T00:00:00Z"\n'
    label = "x" * 60
    listed = ", ".join(f'"{file}{number}.{label}.{label}.{label}.example"' for number in range(names))
    (folder / file).write_text(f'{dates}dns = [{listed}]\nkey = "{KEY}"\n')


def size(program, folder):
    """How many entries the log has, or what is wrong."""
    status, out, err = run(program, folder, "checkpoint", "j")
    found = re.match(r"size (\d+)\n", out)
    return int(found[1]) if status == 0 and found else f"checkpoint: {status} {out}{err}"


def syncs(program, disk, words):
    """How many syncs the command makes over a copy of the disk's files."""
    copy, trace = disk.path.parent / "tried", disk.path.parent / "trace"
    shutil.copytree(disk.path, copy, ignore=shutil.ignore_patterns("lost+found"))
    subprocess.run(["strace", "-qq", "-o", trace, "-e", "trace=fsync", program, *words], cwd=copy, check=True, capture_output=True)
    shutil.rmtree(copy)
    return trace_of(trace).count("fsync(")


def stopped(program, disk, from_end, words, killed_at=None):
    """What a command answers of whose syncs this one, counted from the last, is refused by the disk, and all that follow. It is
    killed before it learns that this sync failed, or where it cuts the file off after that (`fsync` or `ftruncate`), or not."""
    trace, sync = disk.path.parent / "trace", syncs(program, disk, words) - from_end
    trace.unlink()
    waits = ["strace", "-qq", "-o", trace, "-e", "trace=pwrite64,fsync,ftruncate"]
    waits += ["-e", f"inject=fsync:delay_enter=2000000:delay_exit={1000000 * (killed_at == 'fsync')}:when={sync}"]
    waits += ["-e", "inject=ftruncate:signal=KILL"] if killed_at == "ftruncate" else []
    process = subprocess.Popen([*waits, program, *words], cwd=disk.path, stdout=subprocess.PIPE, stderr=subprocess.PIPE)
    while process.poll() is None and trace_of(trace).count("fsync(") < sync:
        time.sleep(0.01)
    disk.refuse(True)
    if killed_at == "fsync":
        while process.poll() is None and " = -1 EIO" not in trace_of(trace):
            time.sleep(0.01)
        children = Path(f"/proc/{process.pid}/task/{process.pid}/children").read_text().split()
        os.kill(int(children[0]), signal.SIGKILL)
    out, err = process.communicate()
    disk.refuse(False)
    return process.returncode, out.decode(), err.decode()


def written_to(disk):
    """Where the last write ends of the command that was stopped last, but for one of a single byte."""
    found = re.findall(r"^pwrite64\(.*, (\d+), (\d+)\) ", trace_of(disk.path.parent / "trace"), re.M)
    return next(int(size) + int(place) for size, place in reversed(found) if size != "1")


def trace_of(trace):
    return trace.read_text() if trace.exists() else ""


def unlike(what, found, wanted):
    if found != wanted:
        yield f"{what}: {found!r} in place of {wanted!r}"


def continues(program, disk, there):
    """The log has so many entries. One more is acknowledged, and a power cut leaves all of them."""
    yield from unlike("the size", size(program, disk.path), there)
    request(disk.path, "last", 1)
    yield from unlike("issue", run(program, disk.path, "issue", "j", "last"), (0, f"issued {there}\n", ""))
    wanted = run(program, disk.path, "entries", "j", str(there + 1))
    yield from unlike("the size after a power cut", disk.cut(lambda copy: size(program, copy)), there + 1)
    yield from unlike("the entries after a power cut",
                      disk.cut(lambda copy: run(program, copy, "entries", "j", str(there + 1))) == wanted, True)


def new_log(program, disk):
    """A log of two entries that is on the disk."""
    (disk.path / "j").unlink(missing_ok=True)
    yield from unlike("init-log", run(program, disk.path, *NEW_LOG), (0, "log 32473.1\n", ""))
    request(disk.path, "first", 1)
    yield from unlike("issue", run(program, disk.path, "issue", "j", "first"), (0, "issued 1\n", ""))
    os.sync()


def without_record(program, disk):
    """A log of two entries of which an `issue` was stopped at the sync of its commit byte: the disk has the record, which reaches
    over several pages, behind a closed commit byte. The next commit byte lies in another page than that of the record."""
    yield from new_log(program, disk)
    request(disk.path, "long", 60)
    words = ["issue", "j", "long"]
    yield from unlike("the issue that is stopped", stopped(program, disk, COMMIT_BYTE, words), (5, "", "mtc: issue: j: Failed\n"))
    yield from unlike("the size after a power cut now", disk.cut(lambda copy: size(program, copy)), 2)
    yield from unlike("the record is long", len((disk.path / "j").read_bytes()) > 8192, True)


def check_commit_byte(program, disk):
    """The sync of a record's commit byte fails, and the next commands have what the disk has"""
    yield from without_record(program, disk)
    yield from continues(program, disk, 2)


def check_mapped(program, disk):
    """The same while another process has the journal mapped"""
    yield from without_record(program, disk)
    with open(disk.path / "j", "rb") as journal, mmap.mmap(journal.fileno(), 0, prot=mmap.PROT_READ) as mapped:
        touched = sum(mapped[place] for place in range(0, len(mapped), PAGE))
        request(disk.path, "more", 1)
        yield from unlike("issue", run(program, disk.path, "issue", "j", "more"), (0, "issued 2\n", ""))
        yield from continues(program, disk, 3)
        yield from unlike("the pages are mapped", touched > 0, True)


def check_large(program, disk):
    """The sync of a commit byte fails in a journal of some megabytes, which the system keeps in large pieces"""
    subprocess.run([sys.executable, ROOT / "bench/log/make_journal.py", str(ENTRIES), disk.path / "j"], check=True)
    (disk.path / "j.tiles").unlink(missing_ok=True)
    os.sync()
    yield from unlike("the size before", size(program, disk.path), ENTRIES)
    request(disk.path, "more", 1)
    words = ["issue", "j", "more"]
    yield from unlike("the issue that is stopped", stopped(program, disk, COMMIT_BYTE, words), (5, "", "mtc: issue: j: Failed\n"))
    yield from continues(program, disk, ENTRIES)


def check_record(program, disk):
    """The sync of a record fails before its commit byte is opened"""
    yield from new_log(program, disk)
    request(disk.path, "long", 60)
    words = ["issue", "j", "long"]
    yield from unlike("the issue that is stopped", stopped(program, disk, RECORD, words), (5, "", "mtc: issue: j: Failed\n"))
    yield from continues(program, disk, 2)


def check_first(program, disk):
    """The last sync of `init-log` fails: the disk has no log, and one is begun there as soon as the file is away"""
    wanted = (5, "", "mtc: init-log: j: Failed\n")
    yield from unlike("the init-log that is stopped", stopped(program, disk, COMMIT_BYTE, NEW_LOG), wanted)
    wanted = "checkpoint: 2 mtc: checkpoint: j: BadRecord 0\n"
    yield from unlike("the log", size(program, disk.path), wanted)
    yield from unlike("the log after a power cut", disk.cut(lambda copy: size(program, copy)), wanted)
    (disk.path / "j").unlink()
    yield from unlike("init-log", run(program, disk.path, *NEW_LOG), (0, "log 32473.1\n", ""))
    yield from continues(program, disk, 1)


def long_log(disk):
    """A log of 600 entries without a tile file."""
    subprocess.run([sys.executable, ROOT / "bench/log/make_journal.py", "600", disk.path / "j"], check=True)
    (disk.path / "j.tiles").unlink(missing_ok=True)
    os.sync()


def check_tiles(program, disk):
    """The sync of a tile file fails after the writes of its tiles"""
    long_log(disk)
    wanted = (5, "", "mtc: tile: j.tiles: Failed\n")
    yield from unlike("the tile that is stopped", stopped(program, disk, TILES, ["tile", "j"]), wanted)
    yield from unlike("the size after a power cut now", disk.cut(lambda copy: size(program, copy)), 600)
    yield from unlike("tile", run(program, disk.path, "tile", "j"), (0, "tiled 512\n", ""))
    yield from unlike("the size after a power cut", disk.cut(lambda copy: size(program, copy)), 600)
    yield from unlike("tile after it", disk.cut(lambda copy: run(program, copy, "tile", "j")),
                      (4, "", "mtc: tile: NothingNew\n"))


def check_tiles_anew(program, disk):
    """The last sync of `tile-anew` fails, over a tile file that is lost, and over one with a wrong byte; given again it writes what
    the disk doesn't have"""
    anew, good = ["tile-anew", "j"], (0, "tiled 512\n", "")
    for what in ("lost", "wrong"):
        long_log(disk)
        yield from unlike("tile", run(program, disk.path, "tile", "j"), good)
        tiles = disk.path / "j.tiles"
        text = with_wrong_byte(tiles.read_bytes())
        if what == "wrong":
            tiles.write_bytes(text)
        else:
            tiles.unlink()
        os.sync()
        wanted = (5, "", "mtc: tile-anew: j.tiles: Failed\n")
        yield from unlike(f"the tile-anew that is stopped, {what}", stopped(program, disk, LAST, anew), wanted)
        yield from unlike("tile-anew after a power cut now", disk.cut(lambda copy: run(program, copy, *anew)), good)
        yield from unlike(f"tile-anew given again, {what}", run(program, disk.path, *anew), good)
        yield from unlike(f"the size after a power cut, {what}", disk.cut(lambda copy: size(program, copy)), 600)
        yield from unlike("tile after it", disk.cut(lambda copy: run(program, copy, "tile", "j")),
                          (4, "", "mtc: tile: NothingNew\n"))


def check_killed(program, disk):
    """A command is killed while its sync fails, or where it undoes what it wrote, and what is acknowledged afterwards is on the disk"""
    words = ["issue", "j", "long"]
    # Where it undid nothing, the log has the record of which the last sync failed, in memory: the next command puts it on the disk.
    for what, sync, at, there in (("record", RECORD, "fsync", 2), ("commit byte", COMMIT_BYTE, "fsync", 3), ("undoing", COMMIT_BYTE, "ftruncate", 2)):
        yield from new_log(program, disk)
        request(disk.path, "long", 60)
        yield from unlike(f"the issue that is killed, {what}", stopped(program, disk, sync, words, at)[0], -signal.SIGKILL)
        yield from unlike(f"{what}: the size after a power cut now", disk.cut(lambda copy: size(program, copy)), 2)
        yield from (f"{what}: {line}" for line in continues(program, disk, there))


def check_killed_tiles(program, disk):
    """`tile` and `tile-anew` are killed while the sync of the tiles fails; `tile` given again, and `tile-anew` once the tile file is
    moved away, write the tiles to the disk"""
    for words, sync in ((["tile", "j"], TILES), (["tile-anew", "j"], LAST)):
        long_log(disk)
        tiles = disk.path / "j.tiles"
        if sync == LAST:
            yield from unlike("tile", run(program, disk.path, "tile", "j"), (0, "tiled 512\n", ""))
            tiles.unlink()
            os.sync()
        yield from unlike(f"the {words[0]} that is killed", stopped(program, disk, sync, words, "fsync")[0], -signal.SIGKILL)
        if sync == LAST:
            tiles.rename(disk.path / "away")
        yield from unlike(f"{words[0]} given again", run(program, disk.path, *words), (0, "tiled 512\n", ""))
        yield from unlike(f"{words[0]}: the size after a power cut", disk.cut(lambda copy: size(program, copy)), 600)
        yield from unlike(f"{words[0]}: tile after it", disk.cut(lambda copy: run(program, copy, "tile", "j")),
                          (4, "", "mtc: tile: NothingNew\n"))


def signed(program, folder, part="part"):
    """The number of the one-time key of one more signature by the cosigner, or what is wrong."""
    status, out, err = run(program, folder, "cosign", "s", part)
    return number_in(out.encode("latin-1")) if status == 0 else f"cosign: {status} {err}"


def used(program, folder):
    """The numbers of the one-time keys that have signed, by the cosigner's records, or what is wrong."""
    status, out, err = run(program, folder, "export", "s")
    return numbers_of(out.encode("latin-1")) if status == 0 else f"export: {status} {err}"


# Requests to a cosigner of a log of 600 entries. The proof of `long` has one hash more than that of `short`.
REQUESTS = {"first": "consist j 0 511", "part": "subtree j 0 4 511", "half": "subtree j 0 256 511",
            "long": "consist j 511 600", "short": "consist j 511 512", "after": "subtree j 0 4 512"}


def new_cosigner(program, disk, identity=COSIGNER):
    """A cosigner of a log of 600 entries that holds 511 of them, and requests to it. A record of its signature has some 300
    bytes."""
    for name in ("s", "j", "j.tiles"):
        (disk.path / name).unlink(missing_ok=True)
    subprocess.run([sys.executable, ROOT / "bench/log/make_journal.py", "600", disk.path / "j"], check=True)
    (disk.path / "secret").write_bytes(os.urandom(48))
    for file, words in REQUESTS.items():
        (disk.path / file).write_bytes(run(program, disk.path, *words.split())[1].encode("latin-1"))
    yield from unlike("init-cosigner", run(program, disk.path, "init-cosigner", "s", identity, LOG, "5", "1", "secret")[0], 0)
    yield from unlike("advance", run(program, disk.path, "advance", "s", "first"), (0, "advanced 511\n", ""))


def check_key(program, disk):
    """The sync of the commit byte of a signature's record fails, and no one-time key is given twice"""
    yield from new_cosigner(program, disk)
    journal, commit_byte = disk.path / "s", 0
    # On to a record whose commit byte lies in another page than the next one's, so that this one doesn't carry it to the disk.
    for keys in range(1, KEYS):
        yield from unlike("the key of a signature", signed(program, disk.path), keys - 1)
        before, commit_byte = commit_byte, journal.stat().st_size - 1
        if keys > 1 and commit_byte // PAGE != (2 * commit_byte - before) // PAGE:
            break
    os.sync()
    words = ["cosign", "s", "part"]
    yield from unlike("the cosign that is stopped", stopped(program, disk, COMMIT_BYTE, words), (5, "", "mtc: cosign: s: Failed\n"))
    # It was stopped before it signed: the key has signed nothing.
    yield from unlike("the keys after a power cut now", disk.cut(lambda copy: used(program, copy)), [*range(keys)])
    yield from unlike("the key of the next signature", signed(program, disk.path), keys)
    yield from unlike("the keys after a power cut", disk.cut(lambda copy: used(program, copy)), [*range(keys + 1)])
    yield from unlike("the next key after a power cut", disk.cut(lambda copy: signed(program, copy)), keys + 1)


def growth(program, disk, *commands):
    """The length of the cosigner's journal, and by how many bytes each of these commands makes it longer, over a copy."""
    copy = disk.path.parent / "tried"
    shutil.copytree(disk.path, copy, ignore=shutil.ignore_patterns("lost+found"))
    found = [(copy / "s").stat().st_size]
    for words in commands:
        run(program, copy, *words.split())
        found.append((copy / "s").stat().st_size)
    shutil.rmtree(copy)
    return found[0], *(after - before for before, after in zip(found, found[1:]))


def layout(length, part, half, short):
    """How often the cosigner signs `part` and `half`, and by how many bytes its id is longer, so that the commit byte after the
    record of `short` is the first byte of a new page."""
    counts = [(parts, halves, more) for parts in range(12) for halves in range(12) for more in range(120)]
    return next(found for found in counts
                if (length + found[0] * part + found[1] * half + found[2] + short - 1) % PAGE == 0)


def check_new_blocks(program, disk):
    """The sync of a record fails that reaches into a new block; the next record ends before it, and a signature's record lies in
    it. No power cut takes the key of that signature back"""
    yield from new_cosigner(program, disk)
    parts, halves, more = layout(*growth(program, disk, "cosign s part", "cosign s half", "advance s short"))
    # Each arc below 128 has one byte.
    yield from new_cosigner(program, disk, COSIGNER + more * ".1")
    for number, request_file in enumerate(["part"] * parts + ["half"] * halves):
        yield from unlike("the key of a signature", signed(program, disk.path, request_file), number)
    os.sync()
    keys, length = parts + halves, (disk.path / "s").stat().st_size
    wanted = (5, "", "mtc: advance: s: Failed\n")
    yield from unlike("the advance that is stopped", stopped(program, disk, RECORD, ["advance", "s", "long"]), wanted)
    yield from unlike("its record's pages", written_to(disk) // PAGE, length // PAGE + 1)
    yield from unlike("the journal's length", (disk.path / "s").stat().st_size, length)
    yield from unlike("the other advance", run(program, disk.path, "advance", "s", "short"), (0, "advanced 512\n", ""))
    yield from unlike("the key that signs", signed(program, disk.path, "after"), keys)
    yield from unlike("the keys after a power cut", disk.cut(lambda copy: used(program, copy)), [*range(keys + 1)])
    yield from unlike("the next key after a power cut", disk.cut(lambda copy: signed(program, copy, "after")), keys + 1)


CHECKS = (check_commit_byte, check_mapped, check_large, check_record, check_first, check_tiles, check_tiles_anew, check_killed,
          check_killed_tiles, check_key, check_new_blocks)


def missing():
    """What isn't there and is needed."""
    if os.getuid() != 0:
        return "root"
    if not ZRAM.is_dir():
        return "zram"
    if not Path("/dev/loop-control").exists():
        return "loop devices"
    return next((word for word in ("strace", "mount", "dd") if not shutil.which(word)), None)


def main(words):
    lacks = missing()
    if lacks:
        print(f"left out: failed_sync: {lacks} isn't here")
        return 0
    program, status = Path(words[0] if words else ROOT / "crates/mtc_main/out/mtc_main").resolve(), 0
    for system, (make, _) in SYSTEMS.items():
        if not shutil.which(make[0]):
            print(f"left out: failed_sync of {system}: {make[0]} isn't here")
            continue
        for check in [check for check in CHECKS if not words[1:] or check.__name__.removeprefix("check_") in words[1:]]:
            folder = Path(tempfile.mkdtemp())
            disk = Disk(folder, system)
            try:
                wrong = list(check(program, disk))
            finally:
                disk.remove()
                shutil.rmtree(folder)
            print(f"{'wrong' if wrong else 'ok'}: {system}: {check.__doc__}", *wrong, sep="\n    ", flush=True)
            status |= bool(wrong)
    return status


if __name__ == "__main__":
    sys.exit(main(sys.argv[1:]))
