"""Commands that are stopped at a call of the system, or of which a call fails; and power cuts then.

A stopped command has printed a prefix of what it prints, and nothing before its record is there. Its files are as before, as
after it, or as between its writes. At a power cut each byte that was written after the last sync of its file, and that is another
one than before, may be any; the journal then has the old records, or these and the new one.
"""

import re
import shutil
import subprocess

from files.tracing import tail_pages
from reference import commands, journal
from reference.arguments import JOURNALS, WANTED
from reference.fault import Fault
from reference.room import Room
from reference.tiles import BYTES

from .world import Wrong, plain, shown

CALLS, KILLED = "pwrite64,fsync,ftruncate,write", -9
ERRORS = {"fsync": "EIO", "pwrite64": "ENOSPC"}
# How often each call is drawn.
OFTEN = {"fsync": 5, "pwrite64": 3, "write": 2, "ftruncate": 0.5}
# The place of the first commit byte.
FIRST = len(journal.HEADER)


def can_trace():
    probe = ["strace", "-qq", "-o", "/dev/null", "true"]
    return bool(shutil.which("strace")) and subprocess.run(probe, capture_output=True).returncode == 0


def before_the_record(room, words):
    """How many syncs and writes a command makes before those of its record: each journal and its folder are synced, its end is
    written again, and its tile file is synced, with its folder if it is made (tests/files/order.py)."""
    journals = [(kind, word) for kind, word in zip(WANTED[words[0]], words[1:]) if kind in JOURNALS]
    if words[0].startswith("init") or words[0] == "mirror-init":
        return {"fsync": 2, "pwrite64": 0}
    tiles = [f"{word}.tiles" for kind, word in journals if kind != "S"]
    syncs = 3 * len(journals) + len(tiles) + sum(name not in room for name in tiles) + 2 * ("tile" in words[0])
    writes = sum(len(tail_pages(len(room[word]))) for _, word in journals if word in room) + ("tile" in words[0])
    return {"fsync": syncs, "pwrite64": writes}


def drawn(draws, room, words, fails):
    """A call at which a command is stopped, or that fails, as strace is asked for it; mostly one of those of its record."""
    calls = [call for call in OFTEN if not fails or call in ERRORS]
    call = draws.choices(calls, [OFTEN[call] for call in calls])[0]
    first = before_the_record(room, words).get(call, 0)
    place = first + draws.randrange(2) if draws.random() < 0.7 else draws.randrange(first + 3)
    how = f"error={ERRORS[call]}" if fails else "signal=KILL"
    return f"{call}:{how}:when={place + 1}"


def under_trace(world, fault):
    """The words before a command that is to meet a fault."""
    return ["strace", "-qq", "-y", "-o", world.path / "trace", "-e", f"trace={CALLS}", "-e", f"inject={fault}"]


def unsynced(world):
    """By file the places, as starts and ends, that were written after its last sync, by the trace of a command. When a commit byte
    is opened there are none: the record is synced, and so are the tiles of which it speaks."""
    found = {}
    for line in (world.path / "trace").read_text(errors="replace").splitlines():
        write = re.match(r"pwrite64\(\d+<(.*?)>.*, (\d+), (\d+)\) += (\d+)$", line)
        sync = re.match(r"fsync\(\d+<(.*?)>\) += 0$", line)
        if write:
            if found and r', "\1", 1, ' in line:
                raise Wrong(f"opens a commit byte, and has not synced {found}")
            found.setdefault(write[1].split("/")[-1], []).append((int(write[3]), int(write[3]) + int(write[2])))
        elif sync:
            found.pop(sync[1].split("/")[-1], None)
    return found


def counted(text):
    """The bytes of a journal that mean something, up to the closed commit byte; all of another file."""
    try:
        return text[:journal.end_of(text) + 1]
    except Fault:
        return text


def is_between(name, before, after, now):
    """Whether a file may hold this that a command changes from one text to another."""
    if None in (now, after):
        return now == before
    if not name.endswith(".tiles"):
        # A new journal is empty at first, and then its first commit byte is closed.
        return counted(now) in ([counted(before), counted(after)] if before is not None else [b"", journal.HEADER + b"\0", after])
    # Some tiles are written, and what followed them is there still, or is cut off, or zeros.
    old = before or b""
    return any(now[:end] == after[:end] and (now[end:] == old[end:] or not any(now[end:])) for end in range(0, len(after) + 1, BYTES))


def check_files(world, found, room):
    """That each file is as before a command, as after it, or as between its writes; whether all are as after it."""
    before, after = world.files(), plain(room)
    for name in sorted(before.keys() | after.keys() | found.keys()):
        now, old, new = found.get(name), before.get(name), after.get(name)
        if now not in (old, new) and not is_between(name, old, new, now):
            raise Wrong(f"leaves {name} as {shown(now)}, between {shown(old)} and {shown(new)}")
    return found.keys() == after.keys() and all(counted(found[name]) == counted(after[name]) for name in found)


def check(world, words, said, wanted, room):
    """That a stopped command has printed no more than it may, and left what it may; then its files are those in memory."""
    (_, out, err), found = said, world.on_disk()
    is_done = check_files(world, found, room)
    if not (wanted[1].startswith(out) and wanted[2].startswith(err)) or out and not is_done:
        raise Wrong(f"has printed {shown((out, err))} when it was stopped, of {shown(wanted)}; done: {is_done}")
    take(world, found)


def check_failed(world, words, said, wanted, room):
    """The same of a command of which a call failed: it names one of its files."""
    lines = [f"mtc: {words[0]}: {name}: Failed\n".encode() for word in words[1:3] for name in (word, f"{word}.tiles")]
    if said[:2] != (5, b"") or said[2] not in lines:
        raise Wrong(f"answers {shown(said)} where a call failed, in place of status 5 and one of {lines}")
    before, after, found = world.files(), plain(room), world.on_disk()
    for name in sorted(before.keys() | found.keys()):
        old, new, now = before.get(name), after.get(name), found.get(name)
        if now != old and not is_undone(name, old, new, now):
            raise Wrong(f"leaves {name} as {shown(now)} where a call failed, in place of {shown(old)}")
    take(world, found)


def is_undone(name, old, new, now):
    """Whether a file has its old records, or its old tiles, after a call that failed; a new one has none."""
    if None in (now, new) or name.endswith(".tiles"):
        return is_between(name, old, new, now)
    return bodies(now) == (bodies(old) if old is not None else [])


def bodies(text):
    """The bodies of the records of a journal; none where it is none yet."""
    try:
        return [*journal.bodies(text)]
    except Fault:
        return []


def take(world, found):
    for name in world.files():
        if name not in found:
            del world.room[name]
    for name, text in found.items():
        world.room[name] = text


def torn(draws, old, now, places):
    """The bytes of a file after a power cut: those at these places may be old, new or any others, where old and new differ."""
    old, torn = old or b"", bytearray(now)
    how = draws.choice(("old", "new", "mixed", "any"))
    for start, end in places:
        for at in range(start, min(end, len(torn))):
            was = old[at] if at < len(old) else 0
            if was != torn[at] or at >= len(old):
                kept = {"old": was, "new": torn[at], "mixed": draws.choice((was, torn[at])), "any": draws.randrange(256)}
                torn[at] = kept[how]
    last = [start for start, end in places if end == len(now) > len(old)]
    if last and draws.random() < 0.4:
        # The file didn't become as long as it was to be.
        torn = torn[:draws.randrange(max(len(old), *last), len(now) + 1)]
    return bytes(torn)


def lacks_tiles(room, name):
    """Whether a log or a mirror hasn't the tiles of which its journal speaks."""
    return any(b"BadTile" in commands.answer(words, room)[2] for words in (["checkpoint", name], ["mirror-entries", name, "0"]))


def cut(world, draws, before, room, touched):
    """Cuts the power: what isn't synced may be lost or torn. Then a journal that was there has its old records, or one more, and the
    tiles of which it speaks, if it had them before."""
    for name, places in sorted(touched.items()):
        now, old, new = world.room.get(name), before.get(name), room.get(name)
        if now is None or new is None:
            continue
        was = old if old is not None or places != [(FIRST, FIRST + 1)] else now[:FIRST] + b"\0" + now[FIRST + 1:]
        world.write(name, torn(draws, was, now, places))
        left = world.room[name]
        if not name.endswith(".tiles") and old is not None and bodies(left) not in (bodies(old), bodies(new)):
            raise Wrong(f"may leave {name} after a power cut as {shown(left)}, between {shown(old)} and {shown(new)}")
    for name in sorted({name.removesuffix(".tiles") for name in touched}):
        if lacks_tiles(world.copy(), name) and not lacks_tiles(Room(before), name):
            raise Wrong(f"may leave {name} after a power cut without the tiles of which it speaks")


def check_synced(left):
    """That what a command wrote that did its work is synced."""
    if left:
        raise Wrong(f"has done its work, and has not synced {left}")
