"""Calls of the system that fail, at the opening of a journal and within an append, and signals that come there."""

import signal

from .commands import ADDING, ASKS, BEGINNING, COMMANDS, OPENING, added, asked
from .folder import failed, locked, unlike
from .tracing import appending, at_fault, opening, traced, undoing, wants_trace

LOCKS = ["flock:error=EAGAIN", "flock:error=ENOLCK"]
ERRORS = {"pwrite64": "ENOSPC", "fsync": "EIO", "pread64": "EIO"}
# What a sync answers where the file system has none, or may only be read.
NO_SYNC = ("EINVAL", "EROFS")


def numbered(calls, before=()):
    """Each call with its number among those of its kind, those before it counted too, and its file."""
    seen = [*before]
    for call in calls:
        kind, file = call.split()
        seen.append(call)
        yield kind, sum(one.split()[0] == kind for one in seen), file


def opening_faults(scene, command):
    """The faults at the opening of a command's journal, and the file that its line then names."""
    names = [command.journal]
    for kind, number, file in numbered(opening(scene, command)):
        # The folder of a file is synced for it, right after the file itself.
        names.append(names[-1] if file == "." else file)
        if kind == "flock":
            yield from ((f"{fault}:when={number}", file) for fault in LOCKS)
        else:
            yield f"{kind}:error={ERRORS[kind]}:when={number}", names[-1]


def some(faults):
    """Of the faults at the pieces of a journal's end that are written again the first two and the last one."""
    faults = [*faults]
    writes = [fault for fault in faults if fault[0].startswith("pwrite64")]
    return [fault for fault in faults if fault not in writes[2:-1]]


def reported(command, fault, file):
    """How a command ends at a fault. EAGAIN is what the system answers where another process has the lock."""
    return (locked if "EAGAIN" in fault else failed)(command.name, file)


def check_faults(scene, _kills):
    """A call that fails at opening is status 5 and names its file: an old journal keeps its bytes, a new file has none"""
    wants_trace(scene)
    for command in OPENING:
        reads = [(f"pread64:error=EIO:when={number}", command.journal) for number in (1, 2)]
        for fault, file in [*some(opening_faults(scene, command)), *reads]:
            scene.restore()
            yield from unlike(f"{command.name} {fault}", at_fault(scene, command.words, fault), reported(command, fault, file))
            yield from unlike(f"files after {command.name} {fault}", scene.changed(), [])
    for command in BEGINNING:
        for fault, file in opening_faults(scene, command):
            scene.restore()
            yield from unlike(f"{command.name} {fault}", at_fault(scene, command.words, fault), reported(command, fault, file))
            yield from unlike(f"files after {command.name} {fault}", (scene.changed(), scene.bytes("new")), (["new"], b""))


def check_no_sync(scene, _kills):
    """On a file system that knows no sync a command that only asks does its work, and any other is status 5"""
    wants_trace(scene)
    for command in OPENING:
        for error in NO_SYNC:
            scene.restore()
            ending = at_fault(scene, command.words, f"fsync:error={error}")
            if command.only_asks:
                yield from unlike(f"{command.name} {error}", (ending[0], ending[2]), (0, ""))
            else:
                yield from unlike(f"{command.name} {error}", ending, failed(command.name, command.journal))


def appending_faults(scene, command):
    """The faults within an append, and the file that the line names."""
    for kind, number, file in numbered(appending(command), opening(scene, command)):
        yield f"{kind}:error={ERRORS[kind]}:when={number}", file


def check_append(scene, _kills):
    """A write or a sync that fails within an append is status 5 with nothing printed, and leaves the old records"""
    wants_trace(scene)
    for command in ADDING:
        for fault, file in appending_faults(scene, command):
            scene.restore()
            what, before = f"{command.name} {fault}", scene.bytes(command.journal)
            yield from unlike(what, at_fault(scene, command.words, fault), failed(command.name, file))
            yield from unlike(f"the records after {what}", added(scene, command), [])
            yield from unlike(f"the next command after {what}", asked(scene, command), (0, "", True))
            yield from unlike(f"the old bytes after {what}", scene.bytes(command.journal)[:len(before) - 1], before[:-1])


def check_undoing(scene, _kills):
    """After a sync that fails within an append the file is cut off behind the bytes that were synced, and a commit byte is closed again;
    good bytes are neither cut off nor written"""
    wants_trace(scene)
    for command in COMMANDS:
        calls = [*numbered(appending(command), opening(scene, command))]
        for place, (kind, number, file) in enumerate(calls):
            if kind != "fsync":
                continue
            scene.restore()
            wanted = [*opening(scene, command), *appending(command)[:place + 1], *undoing(command, len(calls) - place), "write err"]
            status, found = traced(scene, command.words, "-e", f"inject=fsync:error=EIO:when={number}")
            yield from unlike(f"{command.name} fsync {number} of {file}", (status, [call for call, _ in found]), (5, wanted))


# What a new file then is, by how many calls of its first append went well: the record's write and its sync, the commit byte's and its.
NEW_FILES = ["NotJournal", "NotJournal", "BadRecord 0", "BadRecord 0"]


def check_first_append(scene, _kills):
    """A write or a sync that fails within the first append of a new journal leaves a file that is empty or has no record"""
    wants_trace(scene)
    for command in BEGINNING:
        asks = ASKS[command.kind].format("new")
        for (fault, file), refusal in zip(appending_faults(scene, command), NEW_FILES):
            scene.restore()
            what = f"{command.name} {fault}"
            yield from unlike(what, at_fault(scene, command.words, fault), failed(command.name, file))
            status, _, err = scene.run(asks)
            yield from unlike(f"{asks} after {what}", (status, err), (2, f"mtc: {asks.split()[0]}: new: {refusal}\n"))
            yield from unlike(f"again after {what}", scene.run(command.words), (7, "", command.line("new", "Exists")))


def check_tiles_anew(scene, _kills):
    """A write or a sync that fails while tiles are written again is status 5 with nothing printed, and the next run makes them whole;
    good tiles are synced alone"""
    wants_trace(scene)
    command = next(command for command in COMMANDS if command.writes_tiles and not command.adds)
    scene.said(command.words)
    whole, calls = scene.bytes(command.tiles), traced(scene, command.words)[1]
    wanted = [*opening(scene, command), f"fsync {command.tiles}", "write out"]
    yield from unlike("over good tiles", [call for call, _ in calls], wanted)
    for kind, number, file in numbered(appending(command), opening(scene, command)):
        scene.restore()
        fault = f"{kind}:error={ERRORS[kind]}:when={number}"
        what, journal = f"{command.name} {fault}", scene.bytes(command.journal)
        yield from unlike(what, at_fault(scene, command.words, fault), failed(command.name, file))
        yield from unlike(f"the journal after {what}", scene.bytes(command.journal) == journal, True)
        yield from unlike(f"the next one after {what}", scene.run(command.words), (0, command.says, ""))
        yield from unlike(f"the tiles after {what}", scene.bytes(command.tiles) == whole, True)
        yield from unlike(f"the log after {what}", asked(scene, command), (0, "", True))


def stopping(scene, command):
    """The calls within an append at which a signal comes, and how many records are there after each: none while the commit byte
    is closed, and one where its sync is asked for."""
    *_, record, commit_byte = [call for call in numbered(appending(command), opening(scene, command)) if call[0] == "fsync"]
    yield record, 0
    yield commit_byte, 1


def check_signals(scene, _kills):
    """A signal that ends a command within its append leaves the old records before the commit byte is written, and one more after it"""
    wants_trace(scene)
    for command in ADDING:
        for name in ("HUP", "INT", "TERM", "KILL"):
            for (kind, number, _), count in stopping(scene, command):
                scene.restore()
                what = f"{command.name} {name} at {kind} {number}"
                ending = at_fault(scene, command.words, f"{kind}:signal={name}:when={number}")
                yield from unlike(what, ending, (-signal.Signals[f"SIG{name}"], "", ""))
                yield from unlike(f"the records after {what}", added(scene, command), [command.adds] * count)
                yield from unlike(f"the next command after {what}", asked(scene, command), (0, "", True))
