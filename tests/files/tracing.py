"""Commands under strace: which calls of the system they make, and what comes of a call that fails."""

import re
import shutil
import subprocess
from pathlib import Path

from .folder import LeftOut

# The calls that lock, sync or change a file, and those that change what stands in a folder, but the opening of a file.
CALLS = ("flock,fsync,fdatasync,sync_file_range,syncfs,sync,pwrite64,pwritev,pwritev2,write,writev,ftruncate,truncate,fallocate,"
         "copy_file_range,sendfile,splice,rename,renameat,renameat2,unlink,unlinkat,rmdir,link,linkat,symlink,symlinkat,"
         "mkdir,mkdirat,mknod,mknodat")
# The last bytes of a journal are written again in pieces.
PIECE, PIECES = 4096, 33
TAIL = PIECES * PIECE
# So many of the first bytes say whose journal a file is.
HEAD_BYTES = 22


def wants_trace(folder):
    """Leaves the check out where strace isn't there or may not trace."""
    probe = ["strace", "-qq", "-o", "/dev/null", "true"]
    if not (shutil.which("strace") and subprocess.run(probe, capture_output=True, **folder.owner).returncode == 0):
        raise LeftOut("strace isn't here, or may not trace")


def new_trace(folder):
    trace = folder.path / "trace"
    trace.write_bytes(b"")
    folder.own(trace)
    return trace


def read_trace(folder, text):
    """The calls of a trace, each as `CALL FILE` and with its descriptor. The folder itself is `.`, and a stream `out` or `err`;
    calls on end that write to one stream are reported as one. A call on no descriptor, or a line that is no whole call, stands there
    as the whole line, without a number: so nothing that is in a trace is passed over."""
    found = []
    for line in text.splitlines():
        parts = re.match(r"(\w+)\((\d+)(?:<([^>]*)>)?(?:, .*)?\) += (?:-?\d|\?)", line)
        if not parts:
            found.append((line, None))
            continue
        call, number, file = parts[1], int(parts[2]), parts[3] or ""
        name = "." if Path(file) == folder.path.resolve() else Path(file).name
        if call == "write" and number in (1, 2):
            name = {1: "out", 2: "err"}[number]
        if call != "write" or found[-1:] != [(f"{call} {name}", number)]:
            found.append((f"{call} {name}", number))
    return found


def traced(folder, words, *more):
    """The command's status, and its calls that write, sync or change files, streams and folders."""
    trace = new_trace(folder)
    status, _, _ = folder.run(words, before=["strace", "-y", "-qq", "-o", trace, "-e", f"trace={CALLS}", *more])
    return status, read_trace(folder, trace.read_text())


def at_fault(folder, words, fault):
    """How a command ends of which a call of the system fails, or brings a signal: of those on files of the folder alone."""
    names = ["j", "j.tiles", "t", "t.tiles", "s", "c", "m", "m.tiles", "new", "new.tiles", "."]
    paths = [part for file in names for part in ("-P", (folder.path / file).resolve())]
    watched = ["-e", f"trace={fault.split(':')[0]}", "-e", f"inject={fault}"]
    return folder.run(words, before=["strace", "-qq", "-o", new_trace(folder), *watched, *paths])


def tail_pages(length):
    """Where the pieces begin by which the end of a journal of so many bytes is written again."""
    return range(max(length - TAIL, 0), length, PIECE)


def tail_calls(length, only_asks):
    """The calls that read the beginning of a journal of so many bytes, and, unless the command only asks, write its end again, piece
    by piece."""
    yield "pread64", min(HEAD_BYTES, length), 0
    for place in () if only_asks else tail_pages(length):
        size = min(PIECE, length - place)
        yield "pread64", size, place
        yield "pwrite64", size, place


def opening(scene, command):
    """The calls of a command until its journals are open, one after the other: each file is locked and synced; the end of a journal
    is written again, in so many pieces, unless the command only asks; and its folder is synced. A tile file that is made is synced,
    with its folder."""
    if command.begins:
        return [f"flock {command.journal}", f"fsync {command.journal}", "fsync ."]
    calls = []
    for journal in command.journals:
        pages = 0 if command.only_asks else len(tail_pages(len(scene.kept[journal])))
        tiles = command.tiles if command.tiles == f"{journal}.tiles" else None
        made = [] if tiles in scene.kept else ["fsync ."]
        tiled = [f"flock {tiles}", f"fsync {tiles}", *made] if tiles else []
        calls += [f"flock {journal}", f"fsync {journal}", *[f"pwrite64 {journal}"] * pages, "fsync .", *tiled, f"fsync {journal}"]
    return calls


def appending(command):
    """The calls by which a command writes tiles, if it does so: a sync, one tile and its sync; and by which it then adds its record,
    if it has one: the record and its sync, then its commit byte and its sync."""
    tiles = [f"fsync {command.tiles}", f"pwrite64 {command.tiles}", f"fsync {command.tiles}"] if command.writes_tiles else []
    record = [f"pwrite64 {command.journal}", f"fsync {command.journal}"] * 2 if command.adds or command.begins else []
    return [*tiles, *record]


def undoing(command, call):
    """The calls that follow where this call of `appending`, counted from its end, is a sync that fails: after that of a commit byte
    this is closed again, and the file is cut off."""
    kind, file = appending(command)[-call].split()
    if kind != "fsync":
        return []
    is_commit_byte = call == 1 and file == command.journal
    return [*[f"pwrite64 {file}"] * is_commit_byte, f"ftruncate {file}"]
