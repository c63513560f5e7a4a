"""The folder in which the program runs, and beside it the same files in memory, for the readers of tests/reference."""

import contextlib
import fcntl
import os
import shutil
import subprocess
import tempfile
from pathlib import Path

from reference import commands
from reference.room import MOST, Room

# A folder, a link that leads to itself, and a file of which no byte can be read; links to journals; an input that is too long.
UNREADABLE, LINKS, LONG = "unreadable", {"by-link": "s0", "log-by-link": "j0"}, "long"
BROKEN = "d", "loop", UNREADABLE
# No item of an entries file and no export begins so.
LONG_TEXT = b"\xff" * (MOST + 1)
STDIN, NULL = "/dev/stdin", "/dev/null"
# How much is shown of an answer that is another.
SHOWN = 200


class Wrong(Exception):
    """What the program or the disk says, in place of what the reference does."""


def shown(value):
    text = repr(value)
    return text if len(text) <= SHOWN else f"{text[:SHOWN]}.. ({len(text)})"


def difference(found, wanted):
    """From where on two files differ, and what they hold there."""
    if None in (found, wanted):
        return f"{shown(found)} in place of {shown(wanted)}"
    place = next((at for at, (one, other) in enumerate(zip(found, wanted)) if one != other), min(len(found), len(wanted)))
    return (f"{len(found)} bytes in place of {len(wanted)}, which differ from byte {place} on: {shown(found[place:])} in place "
            f"of {shown(wanted[place:])}")


def plain(room):
    """What the plain files hold, but the long one."""
    return {name: text for name, text in room.items() if not name.startswith("/") and name != LONG}


class World:
    """The files of a history, in a folder and in memory."""

    def __init__(self, program):
        self.path, self.program = Path(tempfile.mkdtemp()), program
        self.room = Room({LONG: LONG_TEXT, NULL: b""}, broken=BROKEN, streams=(NULL, STDIN), links=LINKS)
        (self.path / "d").mkdir()
        (self.path / "loop").symlink_to("loop")
        (self.path / UNREADABLE).symlink_to("/proc/self/mem")
        for name, target in LINKS.items():
            (self.path / name).symlink_to(target)
        with (self.path / LONG).open("wb") as file:
            file.write(LONG_TEXT)
        # Its bytes are not compared each time.
        (self.path / LONG).chmod(0o400)

    def close(self):
        shutil.rmtree(self.path)

    def write(self, name, text):
        """Makes a file, in the folder and in memory."""
        self.room[name] = text
        (self.path / name).write_bytes(text)

    def remove(self, name):
        self.room.pop(name, None)
        (self.path / name).unlink(missing_ok=True)

    def on_disk(self):
        """What the plain files of the folder hold."""
        return {one.name: Path(one.path).read_bytes() for one in os.scandir(self.path)
                if one.is_file(follow_symlinks=False) and one.name not in (LONG, "trace")}

    def files(self):
        return plain(self.room)

    def copy(self):
        return Room(self.room, self.room.broken, self.room.streams, self.room.links, self.room.locked)

    def wanted(self, words, takes=True):
        """What a command has to answer, and the files in memory then; where its output takes nothing it ends so."""
        room = self.copy()
        status, out, err = commands.answer(words, room)
        if not takes and out:
            status, out, err = 6, b"", f"mtc: {words[0]}: OutputFailed\n".encode()
        return (status, out, err), room

    @contextlib.contextmanager
    def locks(self):
        """Has the files locked that another process is to have locked."""
        with contextlib.ExitStack() as open_files:
            for name, shares in self.room.locked.items():
                file = open_files.enter_context(open(self.path / name, "rb"))
                fcntl.flock(file, fcntl.LOCK_SH if shares else fcntl.LOCK_EX)
            yield

    def run(self, words, given=b"", takes=True, before=()):
        """What the program answers: its status and the two texts."""
        with self.locks(), open("/dev/full", "wb") as full:
            ended = subprocess.run([*before, self.program, *words], cwd=self.path, input=given,
                                   stdout=subprocess.PIPE if takes else full, stderr=subprocess.PIPE)
        return ended.returncode, ended.stdout or b"", ended.stderr

    def compare(self, found, wanted, room):
        """That an answer and all files are those that are wanted; then these are the files in memory."""
        if found != wanted:
            raise Wrong(f"answers {shown(found)} in place of {shown(wanted)}")
        self.room = room
        left, kept = self.on_disk(), self.files()
        for name in sorted(left.keys() | kept.keys()):
            if left.get(name) != kept.get(name):
                raise Wrong(f"leaves {name}: {difference(left.get(name), kept.get(name))}")
