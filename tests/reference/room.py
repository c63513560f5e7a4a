"""The files that a command finds, in which order it opens them, and how it ends, by docs/COMMANDS.md, "Status" and "Lines on
standard error"."""

from pathlib import PurePosixPath

from . import arguments, journal, tiles
from .fault import Fault

# How many bytes an input file may have, and an EXPORT or ENTRIES.
MOST, MOST_LARGE, LARGE = 1 << 24, 1 << 33, ("EXPORT", "ENTRIES")
# The longest name on Linux's file systems, and the longest of a journal, beside which a file of tiles can stand.
LONGEST, LONGEST_NEW = 255, 249


class Refused(Exception):
    """How a command ends: its status, its output and its line."""


class Room(dict):
    """The bytes of each file by its name; the names that can't be opened or read, as that of a folder; those of streams, which
    are inputs and no journals; the symbolic links; and the files that another process has locked, with whether readers may
    share the lock."""

    def __init__(self, files=(), broken=(), streams=(), links=(), locked=()):
        super().__init__(files)
        self.broken, self.streams, self.links, self.locked = {*broken}, {*streams}, {**dict(links)}, {**dict(locked)}

    def place(self, name):
        """The name under which the file stands here that a word names."""
        bare = name.removeprefix("./")
        return self.links.get(bare, bare)

    def fails(self, name):
        """Whether the system refuses to open this name for another reason than that there is no file."""
        return self.place(name) in self.broken or any(len(part.encode()) > LONGEST for part in PurePosixPath(name).parts)

    def __contains__(self, name):
        return super().__contains__(self.place(name))

    def __getitem__(self, name):
        return super().__getitem__(self.place(name))

    def __setitem__(self, name, text):
        super().__setitem__(self.place(name), text)


def lines(*texts):
    return "".join(text + "\n" for text in texts).encode()


def shown(name):
    """A file's name as it stands in a line: its control characters are escaped."""
    return "".join("".join(f"\\x{byte:02x}" for byte in one.encode()) if ord(one) < 32 or 127 <= ord(one) < 160 else one
                   for one in name)


def refused(words, status, fault, file=None):
    """The end of a command by a refusal, which is about a file or isn't."""
    about = "" if file is None else f"{shown(file)}: "
    return Refused(status, b"", f"mtc: {words[0]}: {about}{fault}\n".encode())


def checked(words, file, status, read, *values):
    """What is read of a file; its fault ends the command."""
    try:
        return read(*values)
    except Fault as fault:
        raise refused(words, status, fault, file if status == 2 else None) from None


def read_inputs(words, files):
    """That each input file of a command can be read, and isn't too long, in the order of the arguments."""
    for kind, name in arguments.inputs(words):
        if files.fails(name):
            raise refused(words, 5, "Failed", name)
        if name not in files:
            raise refused(words, 7, "Absent", name)
        if len(files[name]) > (MOST_LARGE if kind in LARGE else MOST):
            raise refused(words, 9, "TooLong", name)


def begun(words, files, name, body):
    """Makes a new journal with this first record."""
    if name in files or files.place(name) in files.broken | files.streams or name.removeprefix("./") in files.links:
        raise refused(words, 7, "Exists", name)
    if "/" in name.removeprefix("./") or len(name.encode()) > LONGEST_NEW:
        raise refused(words, 5, "Failed", name)
    files[name] = journal.written([body])


def lock(words, files, name, writes, mine=()):
    """Opens a journal or a file of tiles, which is nobody's by then, or is shared by those who only read."""
    place = files.place(name)
    if files.fails(name) or place in files.streams:
        raise refused(words, 5, "Failed", name)
    if place in mine or place in files.locked and (writes or not files.locked[place]):
        raise refused(words, 5, "Locked", name)


def opened(words, files, name, read, writes, mine=()):
    """What the journal is read as that is named, of a cosigner."""
    if name not in files and not files.fails(name) and files.place(name) not in files.streams:
        raise refused(words, 7, "Absent", name)
    lock(words, files, name, writes, mine)
    return checked(words, name, 2, read, files[name])


def has_header(text):
    """That a file begins as a journal."""
    if not text.startswith(journal.HEADER):
        raise Fault("NotJournal")


def opened_with_tiles(words, name, files, read, writes=True, adopts=True, mine=()):
    """What this journal of a log or a mirror is read as; the file of its tiles is made, if it isn't there, and has the tiles of
    which the journal speaks."""
    opened(words, files, name, has_header, writes, mine)
    beside = f"{name}.tiles"
    if beside.removeprefix("./") in files.links:
        raise refused(words, 5, "Failed", beside)
    lock(words, files, beside, writes)
    if beside not in files:
        files[beside] = b""
    if files[beside].startswith(journal.HEADER):
        raise refused(words, 5, "Failed", beside)
    held = checked(words, name, 2, read, files[name])
    if adopts:
        checked(words, beside, 2, tiles.check, files[beside], held.items, held.tiled)
    return held


def appended(files, name, body):
    """Adds a record to a journal."""
    files[name] = journal.appended(files[name], body)


def stored(files, name, held, size):
    """Has the file of the tiles of a journal hold those that so many items fill; of a file that is longer zeros follow
    (docs/DECISIONS.md, "A failed sync is undone")."""
    length = len(files[f"{name}.tiles"])
    files[f"{name}.tiles"] = tiles.over(b"", held.items, size).ljust(length, b"\0")


def stored_again(files, name, held):
    """Has it hold those of which the journal speaks; what follows them stays."""
    files[f"{name}.tiles"] = tiles.over(files[f"{name}.tiles"], held.items, held.tiled)
