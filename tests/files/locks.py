"""Locks, commands at once, and the modes of new files."""

import fcntl
import shutil
import struct

from .commands import ASKING, BEGINNING, COMMANDS, COSIGNER, LOG, OPENING, SIGN, records
from .folder import NEW_LOG, LeftOut, ended, failed, locked, unlike
from .tracing import new_trace, wants_trace

ROUNDS = 60
AT_ONCE = 4
READERS = 10
# How the system's answer begins (struct statx) of a plain file with which everyone may do anything.
OPEN_TO_ALL = struct.pack("<IIQIIIH", 0x1fff, 4096, 0, 1, 0, 0, 0o100777).hex()


def held(scene, file):
    """The file, open for a lock."""
    return open(scene.path / file, "rb")


def check_locks(scene, _kills):
    """A journal or a tile file that another process has locked is not opened, and stays as it is, but that commands which only ask
    read it together; inputs are not locked"""
    for command in OPENING:
        for file in filter(None, (*command.journals, command.tiles)):
            scene.restore()
            for how in (fcntl.LOCK_EX, fcntl.LOCK_SH):
                with held(scene, file) as lock:
                    fcntl.flock(lock, how)
                    status, out, err = scene.run(command.words)
                    shares = command.only_asks and how == fcntl.LOCK_SH
                    wanted = (0, out, "") if shares else locked(command.name, file)
                    yield from unlike(f"{command.name} of {file}", (status, out, err), wanted)
            yield from unlike(f"files after {command.name} of {file}", scene.changed(), [])
    scene.restore()
    (scene.path / "j.tiles").unlink()
    with held(scene, "j") as lock:
        fcntl.flock(lock, fcntl.LOCK_EX)
        yield from unlike("issue", scene.run("issue j r"), locked("issue", "j"))
    yield from unlike("a file of tiles beside a locked journal", scene.bytes("j.tiles"), None)
    for command in COMMANDS:
        scene.restore()
        locks = [held(scene, word) for word in command.words[2:] if word in scene.kept and word != command.mirror]
        for lock in locks:
            fcntl.flock(lock, fcntl.LOCK_EX)
        yield from unlike(f"{command.name} with locked inputs", scene.run(command.words)[0], 0)
        for lock in locks:
            lock.close()


def check_readers_at_once(scene, _kills):
    """Of commands that only ask, given many times at once, none is `Locked`, also where the tile file isn't there at first"""
    for command in ASKING:
        for _ in range(5):
            scene.restore()
            if command.tiles:
                (scene.path / command.tiles).unlink()
            running = [scene.start(command.words) for _ in range(READERS)]
            endings = [ended(process) for process in running]
            yield from unlike(command.name, {(status, err) for status, _, err in endings}, {(0, "")})
            yield from unlike(f"what {command.name} says", len({out for _, out, _ in endings}), 1)


def check_owners_readers(scene, _kills):
    """A command that only asks needs no more than the right to read: of the journal and the tile file of mode 400, in a folder that
    can't be written; a cosigner's journal must still be closed to others"""
    inner = scene.path / "d"
    inner.mkdir()
    for command in ASKING:
        for tiled in (True, False):
            scene.restore()
            wanted = scene.run(command.words)
            inner.chmod(0o700)
            for path in inner.iterdir():
                path.unlink()
            for file in filter(None, [command.journal, tiled and command.tiles]):
                shutil.copy(scene.path / file, inner / file)
                (inner / file).chmod(0o400)
                scene.own(inner / file)
            scene.own(inner)
            inner.chmod(0o500)
            before = {path.name: path.read_bytes() for path in inner.iterdir()}
            words = [command.name, f"d/{command.journal}", *command.words[2:]]
            yield from unlike(f"{command.name}, tiles {tiled}", scene.run(words), wanted)
            yield from unlike("the files", {path.name: path.read_bytes() for path in inner.iterdir()}, before)
            (inner / command.journal).chmod(0o440)
            wanted = failed(command.name, words[1]) if command.kind == "cosigner" else wanted
            yield from unlike(f"{command.name} of mode 440", scene.run(words), wanted)
    inner.chmod(0o700)


def check_modes(folder, _kills):
    """A new journal and file of tiles are their owner's alone; a journal in a folder that may not be read is not opened"""
    folder.new_log()
    (folder.path / "j").unlink()
    folder.write("secret", bytes(48))
    folder.run(NEW_LOG, umask=0)
    folder.run("checkpoint j", umask=0)
    folder.run(f"init-cosigner s {COSIGNER} {LOG} 5 4 secret", umask=0)
    folder.run(f"mirror-init m {LOG}", umask=0)
    folder.run("mirror-entries m 0", umask=0)
    for file in ("j", "j.tiles", "s", "m", "m.tiles"):
        yield from unlike(f"the mode of {file}", oct((folder.path / file).stat().st_mode & 0o7777), "0o600")
    (folder.path / "j.tiles").unlink()
    before, inner = (folder.bytes(), folder.bytes("s")), folder.path / "d"
    inner.mkdir(mode=0o700)
    for file in ("j", "s"):
        (folder.path / file).rename(inner / file)
    folder.own(inner)
    inner.chmod(0o300)
    for words in ("checkpoint d/j", "entries d/j 1", "issue d/j r", "init-log d/new 32473.1 2 9", "export d/s",
                  f"init-cosigner d/more {COSIGNER} {LOG} 5 4 secret"):
        command, file, *_ = words.split()
        yield from unlike(command, folder.run(words), failed(command, file))
    inner.chmod(0o700)
    yield from unlike("the journals", (folder.bytes("d/j"), folder.bytes("d/s")), before)
    yield from unlike("the new files", (folder.bytes("d/new"), folder.bytes("d/more")), (b"", b""))
    yield from unlike("the file of tiles", folder.bytes("d/j.tiles"), None)
    yield from unlike("issue", folder.run("issue d/j r"), (0, "issued 1\n", ""))


def check_no_modes(scene, _kills):
    """On a file system without modes, where every file is everyone's, no journal is begun, and no secret is written"""
    wants_trace(scene)
    shows = ["strace", "-qq", "-o", new_trace(scene), "-e", "trace=statx", "-e", f"inject=statx:poke_exit=@arg5={OPEN_TO_ALL}"]
    if scene.run("member r", before=shows)[2].startswith("strace: "):
        raise LeftOut("this strace changes no answer of the system")
    for command in BEGINNING:
        yield from unlike(command.name, scene.run(command.words, before=shows), failed(command.name, "new"))
        yield from unlike(f"the file after {command.name}", scene.bytes("new"), b"")
        (scene.path / "new").unlink()


def check_others(scene, _kills):
    """A cosigner's journal with which others may do anything is `Failed`, of each command on it, and stays; another's is opened"""
    for command in OPENING:
        for bits in (0o040, 0o020, 0o010, 0o004, 0o002, 0o001, 0o066):
            scene.restore()
            (scene.path / command.journal).chmod(0o600 | bits)
            status, out, err = scene.run(command.words)
            if command.kind != "cosigner":
                yield from unlike(f"{command.name} with mode {bits:o}", (status, err), (0, ""))
            else:
                yield from unlike(f"{command.name} with mode {bits:o}", (status, out, err), failed(command.name, command.journal))
                yield from unlike(f"files after {command.name}", scene.changed(), [])
            (scene.path / command.journal).chmod(0o600)


def acknowledged(out):
    """The index in what `issue` printed, None where it isn't whole."""
    name, _, index = out.rstrip("\n").partition(" ")
    return int(index) if name == "issued" and index.isdigit() and out.endswith("\n") else None


def misplaced(entries, reported):
    """The names of acknowledged entries that don't stand at their indexes."""
    for index, name in reported:
        if not (index < len(entries) and name in entries[index]):
            yield f"{name} was acknowledged as {index}, and isn't there"


def check_at_once(folder, _kills):
    """Of `issue` given several times at once, each is acknowledged under its own index, or is `Locked`"""
    folder.new_log()
    reported, tries = [], 0
    for number in range(ROUNDS):
        running, before = [], len(reported)
        for _ in range(AT_ONCE):
            tries += 1
            folder.request(f"r{tries}", f"n{tries}.example")
            running.append((f"n{tries}.example", folder.start(["issue", "j", f"r{tries}"])))
        for name, process in running:
            ending = ended(process)
            index = acknowledged(ending[1])
            if index is not None:
                reported.append((index, name))
            yield from unlike(name, ending, locked("issue", "j") if index is None else (0, f"issued {index}\n", ""))
        yield from unlike(f"one was acknowledged in round {number}", len(reported) > before, True)
    size = folder.size()
    yield from unlike("the size and the indexes", sorted(index for index, _ in reported), [*range(1, size)])
    yield from misplaced(folder.entries(size), reported)
    folder.notes.append(f"{tries} times, {len(reported)} acknowledged")


def number_in(signature):
    """The number of the one-time key, where so much of a signature went out: after the id, a length and the levels."""
    place = 1 + signature[0] + 2 + 4
    return int.from_bytes(signature[place:place + 4], "big") if len(signature) >= place + 4 else None


def check_keys_at_once(scene, _kills):
    """Of `cosign` given several times at once, each signs with a one-time key of its own, or is `Locked` with nothing printed"""
    # Of the keys of height 10 those of width 1 are made soonest.
    scene.said(f"init-cosigner tall {COSIGNER} {LOG} 10 1 secret")
    scene.said("advance tall first")
    reported = []
    for number in range(ROUNDS):
        before, running = len(reported), [scene.start(["cosign", "tall", "part"]) for _ in range(AT_ONCE)]
        for status, out, err in [ended(process) for process in running]:
            if (status, err) == (0, "") and out:
                reported.append(number_in(out.encode("latin-1")))
            else:
                yield from unlike("cosign", (status, out, err), locked("cosign", "tall"))
        yield from unlike(f"one was acknowledged in round {number}", len(reported) > before, True)
    signed = [int.from_bytes(body[1:5], "big") for body in records(scene.bytes("tall")) if body[0] == SIGN]
    yield from unlike("the one-time keys of the signatures", sorted(reported), [*range(len(reported))])
    yield from unlike("those of the records", signed, sorted(reported))
    scene.notes.append(f"{ROUNDS * AT_ONCE} times, {len(reported)} acknowledged")
