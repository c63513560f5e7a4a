"""Names of journals: what is refused, links, and long names."""

import fcntl
import os
import shutil
import subprocess
from pathlib import Path

from .commands import BY_TILED, COSIGNER, HEADER, LOG, MIRRORS, ON_LOGS, WITH_TILES, records
from .folder import failed, locked, unlike
from .tracing import traced, wants_trace

# The longest name of a file on Linux's file systems, and the longest of a new journal, beside which a file of tiles can stand.
LONGEST = 255
LONGEST_NEW = LONGEST - len(".tiles")
# The longest path that Linux takes, without the zero at its end.
LONGEST_PATH = 4095


def check_refusals(folder, _kills):
    """Each error of the system has its answer, and a refusal makes no file"""
    folder.new_log()
    folder.write("secret", bytes(48))
    (folder.path / "folder").mkdir()
    (folder.path / "link").symlink_to("nowhere")
    (folder.path / "loop").symlink_to("loop")
    shutil.copy(folder.path / "j", folder.path / "copy")
    (folder.path / "copy").chmod(0o400)
    folder.own(folder.path / "copy", folder.path / "folder")
    before, names = folder.bytes("copy"), folder.names()
    new = f"{COSIGNER} {LOG} 5 4 secret"
    for words, status, name in (
            ("member none", 7, "Absent"), ("member r/x", 7, "Absent"), ("member folder", 5, "Failed"),
            ("member loop", 5, "Failed"), ("issue j loop", 5, "Failed"), ("checkpoint loop", 5, "Failed"),
            ("checkpoint none", 7, "Absent"), ("checkpoint r/x", 7, "Absent"), ("checkpoint none/x", 7, "Absent"),
            ("checkpoint folder", 5, "Failed"), ("checkpoint link", 7, "Absent"), ("landmark copy", 5, "Failed"),
            ("init-log none/x 32473.1 2 9", 5, "Failed"), ("init-log r/x 32473.1 2 9", 5, "Failed"),
            ("init-log folder 32473.1 2 9", 7, "Exists"), ("init-log link 32473.1 2 9", 7, "Exists"),
            ("init-log loop 32473.1 2 9", 7, "Exists"),
            ("init-log j 32473.1 2 9", 7, "Exists"), ("issue j folder", 5, "Failed"),
            ("export none", 7, "Absent"), ("export r/x", 7, "Absent"), ("export folder", 5, "Failed"),
            ("export loop", 5, "Failed"), ("export link", 7, "Absent"), ("child copy", 5, "Failed"),
            ("advance j none", 7, "Absent"), ("cosign j folder", 5, "Failed"), ("cosign j none", 7, "Absent"),
            (f"init-cosigner none/x {new}", 5, "Failed"), (f"init-cosigner folder {new}", 7, "Exists"),
            (f"init-cosigner link {new}", 7, "Exists"), (f"init-cosigner j {new}", 7, "Exists"),
            ("mirror-init none/x 32473.1", 5, "Failed"), ("mirror-init folder 32473.1", 7, "Exists"),
            ("mirror-init j 32473.1", 7, "Exists"), ("mirror-entries none 0", 7, "Absent"), ("mirror-tile copy", 5, "Failed"),
            ("mirror-take j none", 7, "Absent"), ("mirror-take j folder", 5, "Failed"), ("mirror-tile loop", 5, "Failed"),
            ("mirror-advance none j 1", 7, "Absent"), ("mirror-cosign folder j 0 1", 5, "Failed")):
        command, *rest = words.split()
        file = rest[1] if command in ("issue", "advance", "cosign", "mirror-take") else rest[0]
        wanted = (status, "", f"mtc: {command}: {file}: {name}\n")
        yield from unlike(words, folder.run([command, *rest]), wanted)
    yield from unlike("a word that isn't UTF-8", folder.run([b"member", b"\xff"]), (1, "", "mtc: NotUtf8\n"))
    for words in range(1, 40):
        wanted = (1, "", f"mtc: checkpoint: WrongCount {words} 1\n") if words > 1 else (7, "", "mtc: checkpoint: w: Absent\n")
        yield from unlike(f"{words} words", folder.run(["checkpoint", *["w"] * words]), wanted)
    yield from unlike("the copy", folder.bytes("copy"), before)
    yield from unlike("the folder", folder.names(), names)


def linked(scene):
    """Makes a folder `d` with the journals, and names that lead there."""
    inner = scene.path / "d"
    inner.mkdir()
    scene.own(inner)
    for name in ("j", "s"):
        (scene.path / name).rename(inner / name)
        (scene.path / name).symlink_to(f"d/{name}")
    (scene.path / "j.tiles").unlink()


def check_links(scene, _kills):
    """Through a symbolic link a journal is that of the file, and its tiles stand beside the link, whose folder is synced"""
    linked(scene)
    before = records(scene.bytes("d/j"))
    with open(scene.path / "d/j", "rb") as held:
        fcntl.flock(held, fcntl.LOCK_EX)
        yield from unlike("a locked file", scene.run("issue j r"), locked("issue", "j"))
    yield from unlike("cosign", scene.run("cosign s part")[0], 0)
    for words, says in (("issue j r", "issued 257\n"), ("tile j", "tiled 256\n"), ("advance s forward", "advanced 257\n")):
        yield from unlike(words, scene.run(words), (0, says, ""))
    yield from unlike("the records", [body[0] for body in records(scene.bytes("d/j"))[len(before):]], [2, 4])
    yield from unlike("the tiles", (len(scene.bytes("j.tiles")), scene.bytes("d/j.tiles")), (8192, None))
    yield from unlike("both are links still", [(scene.path / name).is_symlink() for name in ("j", "s")], [True, True])
    # By its own name the log has another file of tiles, which is made then and is empty.
    wanted = (2, "", "mtc: checkpoint: d/j.tiles: BadTile 0 0\n")
    yield from unlike("the file by its own name", scene.run("checkpoint d/j"), wanted)
    yield from unlike("its tiles", scene.bytes("d/j.tiles"), b"")


def check_linked_folders(scene, _kills):
    """Where a journal's name is a symbolic link, the link's folder is synced and no other"""
    wants_trace(scene)
    linked(scene)
    for words in ("checkpoint j", "issue j r", "export s", "cosign s part"):
        status, calls = traced(scene, words.split())
        folders = {call for call, _ in calls if call in ("fsync .", "fsync d")}
        yield from unlike(words, (status, folders), (0, {"fsync ."}))


def check_hard_links(scene, _kills):
    """A journal under a second name is the same one, and is locked under both"""
    for name, other in (("j", "other"), ("s", "more")):
        (scene.path / other).hardlink_to(scene.path / name)
        with open(scene.path / name, "rb") as held:
            fcntl.flock(held, fcntl.LOCK_EX)
            command = {"other": "checkpoint", "more": "export"}[other]
            yield from unlike(f"{other} while {name} is locked", scene.run([command, other]), locked(command, other))
    yield from unlike("issue", scene.run("issue other r"), (0, "issued 257\n", ""))
    yield from unlike("issue by the first name", scene.run("issue j r"), (0, "issued 258\n", ""))
    yield from unlike("advance", scene.run("advance more forward"), (0, "advanced 257\n", ""))
    yield from unlike("advance by the first name", scene.run("advance s forward"), (4, "", "mtc: advance: NotNewer 257\n"))
    # A command that is given one journal by two names opens it twice, and its own lock is in the way.
    for words in ("mirror-advance s ./s 4", "mirror-cosign s more 0 4", "mirror-cosign m ./m 0 4"):
        name, first, second, *_ = words.split()
        before = scene.bytes(first)
        wanted = locked(name, second) if first == "s" else (2, "", f"mtc: {name}: {first}: BadRecord 0\n")
        yield from unlike(words, scene.run(words), wanted)
        yield from unlike(f"the journal after {words}", scene.bytes(first) == before, True)


def check_tiles_that_lead_back(scene, _kills):
    """Where the name of a file of tiles leads to the journal beside it, no command works on it, and the journal stays"""
    for name, commands in BY_TILED.items():
        before, tiles = scene.bytes(name), scene.path / f"{name}.tiles"
        for link in (tiles.symlink_to, tiles.hardlink_to):
            tiles.unlink()
            link(scene.path / name)
            for command in commands:
                wanted = failed(command.name, tiles.name)
                yield from unlike(command.name, (scene.run(command.on(name)), scene.bytes(name) == before), (wanted, True))


def other_tiles(scene):
    """Ways in which a file of tiles is another file."""
    for file in ("s", "k", "m"):
        yield f"a symbolic link to {file}", lambda tiles: tiles.symlink_to(scene.path / file)
        yield f"a hard link to {file}", lambda tiles: tiles.hardlink_to(scene.path / file)
        yield f"a copy of {file}", lambda tiles: shutil.copy(scene.path / file, tiles)
    for file in ("full", "none", "nowhere"):
        yield f"a symbolic link to {file}", lambda tiles: tiles.symlink_to(file)
    # Of tiles, as it seems: but no tile is written over a file that has another name.
    yield "a hard link to full", lambda tiles: tiles.hardlink_to(scene.path / "full")
    yield "a FIFO", os.mkfifo


def led_to(scene, make, tiles):
    """Makes the file of tiles lead to another file, and answers what all files are then."""
    # Nothing is restored through a link.
    tiles.unlink(missing_ok=True)
    scene.restore()
    tiles.unlink()
    make(tiles)
    if not tiles.is_symlink():
        scene.own(tiles)
    return scene.files()


def check_tiles_of_others(scene, _kills):
    """A tile file that is a journal, a link of either kind or a FIFO is `Failed` of each command that opens it, and no file is changed
    by it"""
    scene.said("init-log k 32473.1 2 9")
    scene.write("full", bytes(8192))
    scene.kept = scene.files()
    for what, make in other_tiles(scene):
        for name in ("j", *MIRRORS):
            tiles = scene.path / f"{name}.tiles"
            before = led_to(scene, make, tiles)
            for command in BY_TILED[name]:
                found, wanted = scene.run(command.on(name)), failed(command.name, tiles.name)
                yield from unlike(f"{command.name}, {what}", (found, scene.files() == before), (wanted, True))
            tiles.unlink()
    yield from unlike("a file that a link leads to", (scene.path / "nowhere").exists(), False)


def check_no_journal(scene, _kills):
    """A file that is no journal is `NotJournal` of each command that opens tiles, which makes no file of tiles beside it, nor looks for one"""
    kinds = {"empty": b"", "short": HEADER[:-1], "other": HEADER[:-1] + b"\1", "notes": b"# Notes\n" * 3}
    for name, text in kinds.items():
        scene.write(name, text)
    scene.write("linked", kinds["notes"])
    (scene.path / "linked.tiles").symlink_to("nowhere")
    before, names = scene.files(), scene.names()
    for name in (*kinds, "linked"):
        for command in WITH_TILES:
            found = scene.run(command.on(name))
            yield from unlike(f"{command.name} {name}", found, (2, "", command.line(name, "NotJournal")))
    yield from unlike("the files", (scene.files() == before, scene.names()), (True, names))


def without_room(scene):
    """A log whose name leaves no space for that of its tiles answers no command until it is renamed."""
    for length in (LONGEST_NEW + 1, LONGEST):
        log = "m" * length
        yield from unlike("init-log", scene.run("init-log made 32473.1 2 9"), (0, "log 32473.1\n", ""))
        (scene.path / "made").rename(scene.path / log)
        before = scene.bytes(log)
        for command in ON_LOGS:
            found = scene.run(command.on(log))
            yield from unlike(f"{command.name}, {length} bytes", found, failed(command.name, f"{log}.tiles"))
        yield from unlike(f"the log of {length} bytes", scene.bytes(log) == before, True)
        (scene.path / log).rename(scene.path / "renamed")
        yield from unlike(f"the log of {length} bytes, renamed", scene.size("renamed"), 1)


def long_paths(scene):
    """A new journal's path is as long as the system takes with `.tiles` at its end, and no longer."""
    inner = (15 * "d" + "/") * (LONGEST_PATH // 16)
    # A whole path from the root is too long for a call.
    subprocess.run(["mkdir", "-p", inner], cwd=scene.path, check=True, **scene.owner)
    for length in range(LONGEST_PATH - 8, LONGEST_PATH + 3):
        log = inner + "l" * (length - len(inner))
        fits = length + len(".tiles") <= LONGEST_PATH
        wanted = (0, "log 32473.1\n", "") if fits else failed("init-log", log)
        yield from unlike(f"init-log, a path of {length} bytes", scene.run(["init-log", log, LOG, "2", "9"]), wanted)
        if fits:
            yield from unlike("its size", scene.size(log), 1)
        if length <= LONGEST_PATH:
            # A shell's own names of these files are longer yet.
            there = subprocess.run(["test", "-e", log], cwd=scene.path).returncode == 0
            yield from unlike(f"the file of {length} bytes", there, fits)
    subprocess.run(["rm", "-r", 15 * "d"], cwd=scene.path, check=True)


def check_long_names(scene, _kills):
    """The name and the path of a new journal leave space for those of a tile file, and longer ones are `Failed` and make no file"""
    yield from without_room(scene)
    yield from long_paths(scene)
    log, cosigner, moved, over = "l" * LONGEST_NEW, "c" * LONGEST_NEW, "d" * LONGEST, "o" * (LONGEST + 1)
    new = f"{COSIGNER} {LOG} 5 4 secret"
    for words, says in ((f"init-log {log} 32473.1 2 9", "log 32473.1\n"), (f"issue {log} r", "issued 1\n")):
        yield from unlike(words, scene.run(words), (0, says, ""))
    yield from unlike("the file of tiles", scene.bytes(f"{log}.tiles"), b"")
    for words in (f"init-cosigner {cosigner} {new}", f"export {cosigner}"):
        yield from unlike(words, scene.run(words)[0], 0)
    # One that was renamed is opened all the same.
    (scene.path / cosigner).rename(scene.path / moved)
    yield from unlike("export of the renamed one", scene.run(f"export {moved}")[0], 0)
    yield from unlike("a new one there", scene.run(f"init-log {moved} 32473.1 2 9"), (7, "", f"mtc: init-log: {moved}: Exists\n"))
    before = scene.names()
    longer = ["n" * (LONGEST_NEW + 1), "n" * LONGEST, over]
    for words in (*[f"init-log {name} 32473.1 2 9" for name in longer], *[f"init-cosigner {name} {new}" for name in longer],
                  f"checkpoint {over}", f"export {over}", f"member {over}"):
        yield from unlike(words, scene.run(words), failed(*words.split()[:2]))
    yield from unlike("the folder", scene.names(), before)
