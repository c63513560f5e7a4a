"""In which order the commands call the system."""

import random
import re
import shutil
import time

from .commands import ASKING, COMMANDS, HEADER, WITH_TILES
from .folder import NEW_LOG, ended, failed, unlike
from .tracing import PIECE, TAIL, appending, new_trace, opening, read_trace, tail_calls, traced, wants_trace

# Programs that change a folder or a file, each by a call that no command makes.
CHANGING = ["mv r q", "ln r q", "ln -s r q", "rm r", "mkdir d", "truncate -s 1 r", "cp r q"]
# What a trace may have, and what none of ours has: no line of it is passed over.
REPORTED = """rename("j", "k") = 0
renameat(AT_FDCWD</x>, "j", AT_FDCWD</x>, "k") = 0
renameat2(3</x>, "j", 3</x>, "k", RENAME_NOREPLACE) = 0
unlink("j") = 0
unlinkat(AT_FDCWD, "j", 0) = 0
copy_file_range(3</x/j>, NULL, 4</x/k>, NULL, 9, 0) = 9
ftruncate(3</x/j>, 0) = 0
pwrite64(3</x/j>, "", 1, 1
pwrite64(3</x/j
fsync 3</x/j>) = 0
--- SIGTERM {si_signo=SIGTERM, si_code=SI_USER} ---
"""


def unreported(scene):
    """Calls and spoilt lines that are in a trace, and that aren't reported of it, or are reported as others."""
    for line in REPORTED.splitlines():
        found = [call for call, _ in read_trace(scene, f"{line}\nfsync(3</x/j>) = 0\n")]
        wanted = {"renameat2(3": "renameat2 x", "copy_file_range": "copy_file_range j", "ftruncate": "ftruncate j"}
        reported = next((call for prefix, call in wanted.items() if line.startswith(prefix)), line)
        yield from unlike(f"what is reported of {line}", found, [reported, "fsync j"])
    for line in CHANGING:
        scene.restore()
        status, calls = traced(scene, [], "sh", "-c", f"exec {line}")
        yield from unlike(f"{line} changes something, and is reported", (status, calls != []), (0, True))


def check_order(scene, _kills):
    """Each command locks and syncs its files before it reads them, has its record on the disk, and only then writes its answer"""
    wants_trace(scene)
    yield from unreported(scene)
    shell = ["sh", "-c", 'exec "$0" "$@" <&- >&- 2>&-']
    for command in COMMANDS:
        scene.restore()
        wanted = [*opening(scene, command), *appending(command)]
        status, calls = traced(scene, command.words)
        yield from unlike(command.name, (status, [call for call, _ in calls]), (0, [*wanted, "write out"]))
        scene.restore()
        # Where the streams are closed, no file that is written takes the place of one.
        status, calls = traced(scene, command.words, *shell)
        calls = [(call, number) for call, number in calls if not call.startswith("write ")]
        yield from unlike(f"{command.name} without streams", (status, [call for call, _ in calls]), (6, wanted))
        low = {call for call, number in calls if number in (0, 1, 2) and call != "fsync ."}
        yield from unlike(f"the files in the place of a stream of {command.name}", low, set())


def placed(folder, words):
    """The reads and writes of `j` after its lock and its sync, and before the next sync, each with its bytes' number and place, and
    how many writes there are in all."""
    trace = new_trace(folder)
    calls = "trace=flock,fsync,pread64,pwrite64"
    _, _, err = folder.run(words, before=["strace", "-qq", "-o", trace, "-e", calls, "-P", folder.path / "j"])
    text = trace.read_text()
    following = re.search(r"^flock\([^\n]*\nfsync\([^\n]*\n(.*?)^fsync\(", text, re.M | re.S)
    lines = re.findall(r"^(pread64|pwrite64)\(.*, (\d+), (\d+)\) += \2$", following[1] if following else "", re.M)
    return [(call, int(size), int(place)) for call, size, place in lines], text.count("pwrite64("), err


def check_tail(folder, _kills):
    """The last bytes of a journal are written again as they are, after its lock and before its sync, and no other file's, nor by a
    command that only asks"""
    wants_trace(folder)
    folder.new_log()
    log, file = folder.bytes(), folder.path / "j"
    lengths = [len(log), PIECE - 1, PIECE, PIECE + 1, TAIL - 1, TAIL, TAIL + 1, TAIL + PIECE, 3 * TAIL + 7]
    for length in lengths:
        # Bytes after the closed commit byte mean nothing.
        file.write_bytes(log + random.randbytes(length - len(log)))
        before = folder.bytes()
        for words, only_asks, says in ((["checkpoint", "j"], True, ""), (["tile", "j"], False, "mtc: tile: NothingNew\n")):
            # Then the header is read, before the tile file is opened.
            wanted = [*tail_calls(length, only_asks), ("pread64", 16, 0)]
            writes = sum(call == "pwrite64" for call, _, _ in wanted)
            yield from unlike(f"{words} of {length} bytes", placed(folder, words), (wanted, writes, says))
        yield from unlike(f"the journal of {length} bytes", folder.bytes() == before, True)
    for other in (b"", HEADER[:-1], HEADER[:-1] + b"\1", random.randbytes(2 * PIECE)):
        file.write_bytes(other)
        for name in ("checkpoint", "tile"):
            _, writes, err = placed(folder, [name, "j"])
            wanted = (0, f"mtc: {name}: j: NotJournal\n", True)
            yield from unlike(f"{name} of another file of {len(other)} bytes", (writes, err, folder.bytes() == other), wanted)


# What opens a file to write it, or makes one.
WRITABLE = re.compile(r"O_WRONLY|O_RDWR|O_CREAT|O_TRUNC")


def check_readers_write_nothing(scene, _kills):
    """A command that only asks opens its journals and their tile files to read them, and writes none of them; a tile file that isn't
    there is made"""
    wants_trace(scene)
    for command in ASKING:
        for missing in (True, False):
            scene.restore()
            if missing and command.tiles:
                (scene.path / command.tiles).unlink()
            trace = new_trace(scene)
            status, _, _ = scene.run(command.words, before=["strace", "-y", "-qq", "-o", trace])
            lines = [line for line in trace.read_text().splitlines() if re.search(r'"[^"]*\b[jstcm](\.tiles)?"|/[jstcm](\.tiles)?>', line)]
            opened = [line for line in lines if line.startswith("openat(") and WRITABLE.search(line)]
            written = [line for line in lines if re.match("p?write|ftruncate|fallocate|truncate", line)]
            news = [line for line in opened if "O_EXCL" in line]
            wanted = (0, [], True, int(missing and bool(command.tiles)))
            yield from unlike(command.name, (status, written, opened == news, len(news)), wanted)
            yield from unlike(f"files after {command.name}", scene.changed(), [])


# The bytes that 64 tiles take in memory, and the commands on a log or a mirror that ask for no node of its tree.
FRAMES = 64 * 8192
WITHOUT_NODES = {"issue", "issue-list", "landmark", "landmarks", "switch", "entries", "entries-from", "mirror-take", "mirror-entries"}


def check_frames(scene, _kills):
    """A command on a log or a mirror that asks for no node takes no memory for 64 tiles, and each other one does, once"""
    wants_trace(scene)
    for command in WITH_TILES:
        scene.restore()
        trace = new_trace(scene)
        status, _, _ = scene.run(command.words, before=["strace", "-qq", "-o", trace, "-e", "trace=mmap"])
        sizes = [int(size) for size in re.findall(r"^mmap\(NULL, (\d+), .*MAP_ANONYMOUS", trace.read_text(), re.M)]
        taken = sum(FRAMES <= size < FRAMES + 2 * PIECE for size in sizes)
        yield from unlike(command.name, (status, taken), (0, int(command.name not in WITHOUT_NODES)))


def opened_before_its_lock(folder, words, file="j", place=1):
    """A command that has opened a file, and waits a second before it locks it, which is its lock of this number."""
    trace = new_trace(folder)
    waits = ["strace", "-qq", "-o", trace, "-e", "trace=openat,flock", "-e", f"inject=flock:delay_enter=1000000:when={place}"]
    process = folder.start(words, before=waits)
    while not re.search(rf'"{file}", .* = \d', trace.read_text()) and process.poll() is None:
        time.sleep(0.01)
    # A tile file is read before its lock.
    time.sleep(0.3 * (place > 1))
    return process


def check_replaced(folder, _kills):
    """Where another file takes the journal's place between its opening and its lock, both stay, and neither is written"""
    wants_trace(folder)
    folder.new_log()
    shutil.copy(folder.path / "j", folder.path / "copy")
    folder.own(folder.path / "copy")
    before, process = folder.bytes(), opened_before_its_lock(folder, ["issue", "j", "r"])
    (folder.path / "j").rename(folder.path / "old")
    (folder.path / "copy").rename(folder.path / "j")
    yield from unlike("issue", ended(process), failed("issue", "j"))
    yield from unlike("the copy and the journal", (folder.bytes("j"), folder.bytes("old")), (before, before))
    (folder.path / "j").unlink()
    process = opened_before_its_lock(folder, NEW_LOG)
    (folder.path / "j").rename(folder.path / "empty")
    yield from unlike("the other init-log", folder.run(NEW_LOG), (0, "log 32473.1\n", ""))
    made = folder.bytes()
    yield from unlike("init-log", ended(process), failed("init-log", "j"))
    yield from unlike("both files", (folder.bytes("j"), folder.bytes("empty")), (made, b""))
    yield from unlike("the size", folder.size(), 1)
    # A tile file is the same one, and has become a journal.
    (folder.path / "j.tiles").write_bytes(b"")
    folder.own(folder.path / "j.tiles")
    process = opened_before_its_lock(folder, ["issue", "j", "r"], "j.tiles", 2)
    (folder.path / "j.tiles").write_bytes(before)
    yield from unlike("issue beside it", ended(process), failed("issue", "j.tiles"))
    yield from unlike("both journals", (folder.bytes("j"), folder.bytes("j.tiles")), (made, before))
