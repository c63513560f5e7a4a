"""Commands that are killed at random times, and one that may not make its file longer."""

import random
import resource
import signal
import time

from .commands import ADDING, ASKS, BEGINNING, added, asked
from .folder import unlike
from .locks import acknowledged, misplaced

# So that some three of ten are acknowledged, however long a command takes by now.
LONGER, SHORTER, MOST = 1.1, 0.8, 10


def next_span(span, is_acknowledged):
    return min(span * (SHORTER if is_acknowledged else LONGER), MOST)


def killed(folder, words, delay):
    """What a command printed until it was killed after this delay."""
    process = folder.start(words)
    time.sleep(delay)
    process.kill()
    return process.communicate()[0].decode("latin-1")


def seconds(folder, words):
    began = time.monotonic()
    folder.run(words)
    return time.monotonic() - began


def check_kills(folder, kills):
    """`issue` is killed at random times: the journal opens each time, and each acknowledged entry is at its index"""
    folder.new_log()
    span = sorted(seconds(folder, ["issue", "j", "r"]) for _ in range(9))[4]
    before, reported, unsaid = folder.size(), [], 0
    for number in range(kills):
        folder.request("k", f"k{number}.example")
        index = acknowledged(killed(folder, ["issue", "j", "k"], random.uniform(0, span)))
        size = folder.size()
        if index is not None:
            reported.append((index, f"k{number}.example"))
            yield from unlike(f"issue {number}", (index, size), (before, before + 1))
        elif size == before + 1:
            unsaid += 1
        else:
            yield from unlike(f"the size after issue {number}", size, before)
        if not isinstance(size, int):
            return
        span, before = next_span(span, index is not None), size
    yield from misplaced(folder.entries(before), reported)
    yield from unlike("entries", before, 10 + len(reported) + unsaid)
    yield from unlike("one was acknowledged", len(reported) > 0, True)
    folder.notes.append(f"{kills} times, {len(reported)} acknowledged, {unsaid} not acknowledged and there")


def check_kills_again(scene, kills):
    """Commands that say of themselves whether their record is there are killed at random times: the journal opens, and the command given again says so"""
    for command in ADDING:
        if not command.again or command.writes_tiles:
            continue
        span, reported, unsaid = seconds(scene, command.words), 0, 0
        for number in range(kills):
            scene.restore()
            out = killed(scene, command.words, random.uniform(0, span))
            tags = added(scene, command)
            yield from unlike(f"what {command.name} {number} printed", out, command.says if out else "")
            yield from unlike(f"the records after {command.name} {number}", tags, [command.adds] if out or tags else [])
            yield from unlike(f"the next command after {command.name} {number}", asked(scene, command), (0, "", True))
            wanted = (4, "", command.again) if tags else (0, command.says, "")
            yield from unlike(f"{command.name} {number} again", scene.run(command.words), wanted)
            reported, unsaid, span = reported + bool(out), unsaid + bool(tags and not out), next_span(span, bool(out))
        yield from unlike(f"one {command.name} was acknowledged", reported > 0, True)
        scene.notes.append(f"{command.name}: {kills} times, {reported} acknowledged, {unsaid} not acknowledged and there")


# What the first question to a new file may answer that its command was killed over: its status and its refusal's name.
UNFINISHED = {(7, "Absent"), (2, "NotJournal"), (2, "CutShort"), (2, "BadLength"), (2, "BadRecord")}


def new_file(scene, asks):
    """How the first command on the new file ends: its status, and the name of its refusal, if it is one."""
    status, _, err = scene.run(asks)
    name = err.removeprefix(f"mtc: {asks.split()[0]}: new: ").split()
    return status, name[0] if name else ""


def check_first_kills(scene, kills):
    """Commands that begin a journal are killed at random times: what is left is no file, one that is refused, or the whole journal"""
    for command in BEGINNING:
        asks = ASKS[command.kind].format("new")
        scene.restore()
        span, reported, found = seconds(scene, command.words), 0, {}
        for number in range(kills):
            scene.restore()
            out = killed(scene, command.words, random.uniform(0, span))
            is_there, ending = (scene.path / "new").exists(), new_file(scene, asks)
            found[ending] = found.get(ending, 0) + 1
            good = ending == (0, "") or (not out and ending in UNFINISHED and is_there == (ending[0] != 7))
            yield from unlike(f"{asks} after {command.name} {number}, {ending}, {out!r}", good, True)
            if is_there:
                yield from unlike(f"{command.name} {number} again", scene.run(command.words), (7, "", command.line("new", "Exists")))
                scene.restore()
            yield from unlike(f"{command.name} {number} again", scene.run(command.words)[0], 0)
            reported, span = reported + bool(out), next_span(span, bool(out))
        yield from unlike(f"one {command.name} was acknowledged", reported > 0, True)
        reported_of = ", ".join(f"{count} {name or 'whole'}" for (_, name), count in sorted(found.items()))
        scene.notes.append(f"{command.name}: {kills} times, {reported} acknowledged; left were {reported_of}")


def at_most(length):
    """So that no file gets longer, and nothing is left of a program that is ended for it."""
    def limit():
        resource.setrlimit(resource.RLIMIT_CORE, (0, 0))
        resource.setrlimit(resource.RLIMIT_FSIZE, (length, length))
    return limit


def check_file_limit(scene, _kills):
    """Under a limit on the length of files (`ulimit -f`) an append ends by the system's signal, and the old records stay"""
    # A second journal is longer, and its end is written again.
    for command in (command for command in ADDING if not command.mirror):
        length = len(scene.kept[command.journal])
        # The write of the record has no space at all, or space for a part of it.
        for space in (0, 10):
            scene.restore()
            # The file of tiles is longer than none, and shorter than this journal.
            ending = scene.run(command.words, preexec_fn=at_most(length + space))
            what = f"{command.name} with {space} bytes more"
            yield from unlike(what, ending, (-signal.SIGXFSZ, "", ""))
            yield from unlike(f"the records after {what}", added(scene, command), [])
            yield from unlike(f"the next command after {what}", asked(scene, command), (0, "", True))
            yield from unlike(f"{command.name} again", scene.run(command.words)[0], 0)
