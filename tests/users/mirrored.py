"""A mirror that takes a long list, by tools/take_entries.sh."""

from .hours import stand_in
from .scene import LOG, differ, refused

# More entries than one record holds, and so many records that hold them.
SIZE, RECORDS = 1500, 3


def take(scene, entries="e", **env):
    return scene.tool("take_entries.sh", "m", entries, env=env)


def batches(scene):
    """How many records with entries the journal has (docs/FORMATS.md, "Journals")."""
    text, place, tags = (scene.path / "m").read_bytes(), 16, []
    while text[place]:
        tags.append(text[place + 5])
        place += 5 + int.from_bytes(text[place + 1:place + 5], "big")
    return tags.count(0x22)


def check_take_entries(scene):
    """take_entries takes a list of more entries than one record holds, once over each stop, and reports every refusal but that
    nothing is new"""
    scene.log("j", SIZE)
    entries = scene.mtc("entries", "j", SIZE, into="e")
    scene.mtc("mirror-init", "m", LOG)
    # The second record fails, before it or after it.
    for what, line in (("before", "exit 5"), ("after", f'"{scene.program}" "$@" >/dev/null; echo "mtc: mirror-take: m: Failed" >&2; exit 5')):
        before = batches(scene)
        scene.file("count", "")
        stop = f'[ "$1" != mirror-take ] || {{ echo x >>count; [ "$(wc -l <count)" -ne 2 ] || {{ {line}; }}; }}'
        ended = take(scene, **stand_in(scene, stop))
        yield from refused(f"a failure {what} the record", ended, 5, "Failed" if what == "after" else "")
        yield from differ(f"records, {what}", batches(scene) - before, 1 if what == "before" else RECORDS - 1)
    for again in ("", " again"):
        yield from differ(f"a list{again}", take(scene), (0, f"{SIZE}\n".encode(), ""))
    line = '[ "$1" != mirror-take ] || echo "a line before the refusal" >&2'
    yield from differ("a line before", take(scene, **stand_in(scene, line)), (0, f"{SIZE}\n".encode(), ""))
    yield from differ("records", batches(scene), RECORDS)
    yield from differ("what it has", scene.mtc("mirror-entries", "m", SIZE) == entries, True)
    scene.mtc("entries", "j", 2, into="few")
    yield from differ("a shorter list", take(scene, "few"), (0, b"2\n", ""))
    scene.file("other", entries[:6] + b"\0\1\7\0\0" + entries[6:])
    yield from refused("another list", take(scene, "other"), 4, "mtc: mirror-take: Differs 1\n")
    scene.file("cut", entries[:-1])
    yield from refused("a list that is cut", take(scene, "cut"), 2, "Short")
    yield from refused("no list", take(scene, "none"), 64, "ENTRIES")
    (scene.path / "m").rename(scene.path / "gone")
    yield from refused("no mirror", take(scene), 7, "mtc: mirror-entries: m: Absent\n")
    yield from wrong_lists(scene, entries)


def wrong_lists(scene, entries):
    """The new entries alone, and lists that aren't those of a checkpoint: nothing of these is taken."""
    scene.mtc("mirror-init", "m", LOG)
    scene.mtc("checkpoint", "j", into="c")
    scene.mtc("entries", "j", 900, into="first")
    scene.mtc("entries-from", "j", 900, SIZE, into="new")
    scene.file("forked", entries.replace(b"a.example", b"b.example", 1))
    before = (scene.path / "m").read_bytes()

    def take_from(*words):
        return scene.tool("take_entries.sh", *words)

    yield from refused("a fork", take_from("m", "forked", "c"), 24, "forked isn't the log's")
    yield from refused("too few", take_from("m", "first", "c"), 24, "first isn't the log's")
    yield from refused("no checkpoint", take_from("m", "e", "first"), 25, "not the two lines")
    yield from refused("those before are missing", take_from("--from", "900", "m", "new", "c"), 4, "the mirror has 0 entries")
    yield from differ("nothing was taken", (scene.path / "m").read_bytes(), before)
    yield from differ("the first ones", take_from("m", "first"), (0, b"900\n", ""))
    for again in ("", " again"):
        yield from differ(f"the new ones{again}", take_from("--from", "900", "m", "new", "c"), (0, f"{SIZE}\n".encode(), ""))
    yield from differ("all of them", scene.mtc("mirror-entries", "m", SIZE) == entries, True)
