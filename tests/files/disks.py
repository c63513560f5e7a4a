"""File systems that are full, or may only be read. They are mounted here, which wants root's rights."""

import contextlib
import os
import shutil
import subprocess

from .commands import ASKS, BEGINNING, COMMANDS, COSIGNER, LOG
from .folder import LeftOut, NOBODY, ended, failed, unlike
from .order import opened_before_its_lock
from .tracing import wants_trace

SIZE, PAGE = 65536, 4096


def wants_mounts():
    """Leaves the check out without root's rights, or where they aren't enough."""
    if os.getuid() != 0:
        raise LeftOut("it wants root's rights")
    if not shutil.which("mount"):
        raise LeftOut("mount isn't here")


def mount(*words):
    """Mounts something, or leaves the check out where that fails."""
    ended = subprocess.run(["mount", *words], capture_output=True, text=True)
    if ended.returncode:
        raise LeftOut(f"root may not mount here: {ended.stderr.strip()}")


@contextlib.contextmanager
def mounted(folder, *options):
    """Mounts something at the folder, for as long as it is used."""
    folder.mkdir(exist_ok=True)
    mount(*options, folder)
    try:
        yield
    finally:
        subprocess.run(["umount", folder], check=True)


def small_disk(folder):
    """A file system in memory of 16 pages, which is the program's user's."""
    options = f"size={SIZE},mode=700,uid={NOBODY},gid={NOBODY}"
    return mounted(folder, "-t", "tmpfs", "-o", options, "tmpfs")


def fill(folder, pages):
    """Takes all space of the file system but so many pages."""
    with open(folder / "filler", "wb", buffering=0) as filler:
        with contextlib.suppress(OSError):
            while filler.write(bytes(PAGE)) == PAGE:
                pass
        filler.truncate(max(filler.tell() - pages * PAGE, 0))


def first_failure(folder, words, says):
    """Gives a command until it fails: how often it did its work, and how it failed."""
    for number in range(1, 1000):
        found = folder.run(words)
        if found != (0, says.format(number), ""):
            return number, found
    return None, "no failure"


def full_log(folder, disk):
    """A log is issued to until the disk is full; then space is made, and it continues."""
    yield from unlike("init-log", folder.run(f"init-log d/j {LOG} 2 100000"), (0, "log 32473.1\n", ""))
    fill(disk, 1)
    number, found = first_failure(folder, "issue d/j r", "issued {}\n")
    yield from unlike(f"issue {number}", found, failed("issue", "d/j"))
    yield from unlike("the size", folder.size("d/j"), number)
    (disk / "filler").unlink()
    yield from unlike("issue with space", folder.run("issue d/j r"), (0, f"issued {number}\n", ""))
    yield from unlike("one was issued before", isinstance(number, int) and number > 1, True)


def full_cosigner(folder, disk):
    """A cosigner signs until the disk is full; then space is made, and it continues with the next one-time key."""
    yield from unlike("init-cosigner", folder.run(f"init-cosigner d/s {COSIGNER} {LOG} 5 4 secret")[0], 0)
    yield from unlike("advance", folder.run("advance d/s first"), (0, "advanced 256\n", ""))
    fill(disk, 0)
    signed = 0
    while (found := folder.run("cosign d/s part"))[0] == 0 and signed < 32:
        signed += 1
    yield from unlike("cosign", found, failed("cosign", "d/s"))
    yield from unlike("export", folder.run("export d/s")[0], 0)
    (disk / "filler").unlink()
    status, out, _ = folder.run("cosign d/s part")
    # The number of the key stands after the id, the length of the signature and the count of levels.
    yield from unlike("cosign with space", (status, out.encode("latin-1")[11:15]), (0, signed.to_bytes(4, "big")))


def full_at_first(folder, disk):
    """A command that begins a journal on a full disk leaves an empty file; with space, and without that file, it does its work."""
    fill(disk, 0)
    for command in BEGINNING:
        asks, words = ASKS[command.kind].format("d/new"), command.on("d/new")
        yield from unlike(command.name, folder.run(words), failed(command.name, "d/new"))
        yield from unlike("its file", folder.bytes("d/new"), b"")
        yield from unlike(asks, folder.run(asks), (2, "", f"mtc: {asks.split()[0]}: d/new: NotJournal\n"))
        yield from unlike("again", folder.run(words), (7, "", f"mtc: {command.name}: d/new: Exists\n"))
        (disk / "filler").unlink()
        (disk / "new").unlink()
        yield from unlike("with space", folder.run(words)[0], 0)
        (disk / "new").unlink()
        for left in disk.iterdir():
            left.unlink()
        fill(disk, 0)


def full_tiles(folder, disk):
    """`tile` on a full disk stores no tile and adds no record; with space it does its work."""
    shutil.copy(folder.path / "j", disk / "j")
    folder.own(disk / "j")
    fill(disk, 0)
    yield from unlike("tile", folder.run("tile d/j"), failed("tile", "d/j.tiles"))
    yield from unlike("the size", folder.size("d/j"), 257)
    (disk / "filler").unlink()
    yield from unlike("tile with space", folder.run("tile d/j"), (0, "tiled 256\n", ""))


def check_full(scene, _kills):
    """On a full disk a command that adds a record or stores tiles is status 5, and all continues once there is space"""
    wants_mounts()
    disk = scene.path / "d"
    for part in (full_log, full_cosigner, full_at_first, full_tiles):
        with small_disk(disk):
            yield from part(scene, disk)


def read_only(scene, disk):
    """What is wrong on a folder that holds the scene's files, and that can only be read by now."""
    before = {path.name: path.read_bytes() for path in disk.iterdir()}
    for command in COMMANDS:
        words = [command.name, *(f"d/{word}" if word in before or word == "new" else word for word in command.words[1:])]
        scene.restore()
        wanted = scene.run(command.words) if command.only_asks else failed(command.name, words[1])
        yield from unlike(command.name, scene.run(words), wanted)
    yield from unlike("keygen", scene.run("keygen 5 4 d/secret")[0], 0)
    yield from unlike("the files", {path.name: path.read_bytes() for path in disk.iterdir()} == before, True)


def check_read_only(scene, _kills):
    """On a disk that may only be read, as a whole or by its mount, a command that only asks does its work, also of files that nobody may
    write; any other on a journal is status 5 and makes nothing, and inputs are read"""
    wants_mounts()
    disk = scene.path / "d"
    disk.mkdir()
    for options, remount in ((["-t", "tmpfs", "tmpfs"], "remount,ro"), (["--bind", disk], "remount,bind,ro")):
        with mounted(disk, *options):
            for name in scene.kept:
                shutil.copy(scene.path / name, disk / name)
                (disk / name).chmod(0o400)
                scene.own(disk / name)
            (disk / "j.tiles").unlink()
            scene.own(disk)
            mount("-o", remount, disk)
            yield from (f"{remount}: {line}" for line in read_only(scene, disk))


def check_other_disk(folder, _kills):
    """Where another file system takes the folder's place between the opening of a journal and its lock, with a file of the same number
    in it, both files stay"""
    wants_mounts()
    wants_trace(folder)
    disk = folder.path / "d"
    with small_disk(disk):
        yield from unlike("init-log", folder.run(f"init-log d/j {LOG} 2 9"), (0, "log 32473.1\n", ""))
        journal, number = (disk / "j").read_bytes(), (disk / "j").stat().st_ino
        process = opened_before_its_lock(folder, ["issue", "d/j", "r"], "d/j")
        with small_disk(disk):
            folder.write("d/j", journal)
            yield from unlike("the number of its file", (disk / "j").stat().st_ino, number)
            yield from unlike("issue", ended(process), failed("issue", "d/j"))
            yield from unlike("the other file", (disk / "j").read_bytes() == journal, True)
        yield from unlike("the journal", (disk / "j").read_bytes() == journal, True)
