"""Kills of a cosigner's day and of a mirror's day at each part of them, by tools/cosigner_day.sh and tools/mirror_day.sh."""

import os
import shutil

from files.commands import numbers_of

from .hours import killing
from .scene import DATES, IN_TIME, KEY, LOG, TOOLS, differ, lacks

# Those that change a file, of the guard and of take_entries.sh too: between two of them all kills leave the same.
COMMANDS = ("mtc", "sync", "mv", "rm", "mkdir", "cp", "cat", "head", "truncate", "base64", "dd", "python3")
# So many commands apart the days are killed, each second one after a command, the others before it.
APART = 1 if os.environ.get("MTC_ALL") == "1" else 11
# A key of two levels, each of this height and of width 1. A signature begins with the cosigner's id, a length and the number of levels,
# then the upper tree's signature of the lower tree's key, and that key (RFC 8554, sections 4.5, 5.4 and 6.1).
HEIGHT, CHAINS = 5, 265
TREE = 4 + 4 + 32 * (1 + CHAINS) + 4 + 32 * HEIGHT
UPPER = TREE + 56
NAMES = ("signature", "answer.new/signature", "answer/signature", "answer.old/signature")


class CosignerDay:
    """The day of a cosigner by a log's requests, in the folder `c`. The export of its journal is stored in `kept`."""

    tool = "cosigner_day.sh"

    def __init__(self, scene):
        self.scene, self.folder, self.commands = scene, scene.path / "c", 0
        scene.mtc("init-log", "j", LOG, 4, 64)
        scene.file("r", f'{DATES}dns = ["a.example"]\nkey = "{KEY}"\n')
        for _ in range(3):
            scene.mtc("issue", "j", "r")
        scene.file("secret", b"s" * 48)
        self.folder.mkdir()
        key = scene.mtc("init-cosigner2", "c/journal", "32473.2", LOG, HEIGHT, HEIGHT, 1, "secret").decode().strip()
        rule = f'[[cosigner]]\nid = "32473.2"\nkey = "{key}"\n[[rule]]\ncosigners = ["32473.2"]\ncount = 1\n'
        scene.file("store", f'[log]\nid = "{LOG}"\n{rule}')
        scene.run(TOOLS / "guarded_cosign.sh", "begin", "c/journal", "kept")

    def ask(self, size):
        """The log has so many entries, and asks from the size that the published export says."""
        export = self.folder / "export"
        held = int(self.scene.mtc("held", export).decode().split("size ")[1].split()[0]) if export.is_file() else 0
        if held < size:
            self.scene.mtc("consist", "j", held, size, into="c/consist")
            self.scene.mtc("subtree", "j", 0, size, size, into="c/subtree")

    def run(self, place=-1, after=False):
        """A day, which is perhaps killed at a command of this number: its status, and what the script says itself."""
        env = killing(self.scene, place, after, COMMANDS)
        status, _, err = self.scene.tool(self.tool, "c", "kept", env=env, start_new_session=True)
        # A command that was killed may have its lock for a moment more.
        for name in ("journal", "mirror"):
            if (self.folder / name).is_file():
                self.scene.run("flock", self.folder / name, "true")
        self.commands = len(list((self.scene.path / "counted").iterdir()))
        return status, "".join(line for line in err.splitlines(True) if not line.startswith("guarded_cosign: warning: "))

    def keep(self):
        """Keeps the folder as it is, for `restore`."""
        shutil.rmtree(self.scene.path / "of", ignore_errors=True)
        shutil.copytree(self.folder, self.scene.path / "of/c")
        for file in self.scene.path.glob("kept*"):
            shutil.copy(file, self.scene.path / "of")

    def restore(self):
        shutil.rmtree(self.folder)
        for file in self.scene.path.glob("kept*"):
            file.unlink()
        shutil.copytree(self.scene.path / "of", self.scene.path, dirs_exist_ok=True)

    def numbers(self):
        """The numbers of the keys that have signed, by the journal."""
        return numbers_of(self.scene.mtc("export", "c/journal"))

    def released(self):
        """The whole signatures that stand in the folder, by the numbers of their keys."""
        texts = {file.read_bytes() for file in (self.folder / name for name in NAMES) if file.is_file()}
        return {key_in(text): text for text in texts if key_in(text) is not None}

    def answered(self):
        """For which size a signature stands beside its request, and what is wrong with it."""
        signature, signed = self.folder / "signature", self.folder / "signed"
        if not signature.is_file() or not signed.is_file():
            return None, []
        request = signed.read_bytes()
        end = int.from_bytes(request[1 + request[0] + 8:][:8], "big")
        self.scene.mtc("cert", "j", end - 1, 0, end, signature, into="cert")
        found = self.scene.ended(self.scene.program, "verify", "cert", "store", IN_TIME)[1]
        wanted = self.scene.mtc("subtree", "j", 0, end, end)
        return end, [*differ("its request", request, wanted), *differ("the signature", found, b"accepted %d\n" % (end - 1))]


class MirrorDay(CosignerDay):
    """The same of a mirror and its cosigner, by what the log publishes."""

    tool = "mirror_day.sh"

    def __init__(self, scene):
        super().__init__(scene)
        scene.mtc("mirror-init", "c/mirror", LOG)
        (self.folder / "steps").mkdir()

    def ask(self, size):
        steps = [(0, 2), (2, 3), (3, 4)]
        for first, last in steps[:size - 1]:
            self.scene.mtc("entries-from", "j", first, last, into=f"c/steps/{first}-{last}.entries")
        self.scene.mtc("consist", "j", 0, size, into="to")
        root = self.scene.mtc("entries", "j", size, into="list") and self.scene.mtc("root", "list").decode()
        self.scene.file("c/checkpoint", root)


def key_in(signature):
    """The number of the one-time key that made a signature; none where a part of it is missing."""
    head = 1 + signature[0] + 2 + 4 if signature else 0
    if len(signature) != head + UPPER + TREE:
        return None
    upper, lower = (int.from_bytes(signature[place:place + 4], "big") for place in (head, head + UPPER))
    return (upper << HEIGHT) + lower


def killed_days(day, size, signed):
    """A day on which the log asks for a size, killed at each of its parts; then one on which it asks for that size again, or for the
    next one. So many keys have signed before."""
    day.keep()
    place, commands = 0, 1 << 32
    while place < commands:
        day.restore()
        day.ask(size)
        status, _ = day.run(place, place // APART % 2 == 1)
        if status == 0:
            commands = day.commands
        yield from (f"{day.tool} for {size}, {place}: {line}" for line in killed_day(day, size, signed, place // APART // 2 % 2))
        place += APART
    yield from differ("parts of a day", commands > 30, True)
    day.scene.notes.append(f"{place // APART - 1} days of {commands} commands were killed")


def killed_day(day, size, signed, more):
    """What is wrong after a day that was killed, and after the next one."""
    end, wrong = day.answered()
    yield from wrong
    numbers, before = day.numbers(), day.released()
    yield from differ("the keys", numbers, [*range(signed + (len(numbers) > signed))])
    yield from differ("keys without a record", set(before) - set(numbers), set())
    export, kept = day.folder / "export", (day.scene.path / "kept").read_bytes()
    yield from differ("the export is stored", not export.is_file() or kept.startswith(export.read_bytes()), True)
    # A signature that is whole isn't made again: it stands beside its request, or is put there.
    has = end == size or (day.folder / "answer").is_dir()
    wanted = len(numbers) + (1 if more or not has else 0)
    day.ask(size + more)
    status, why = day.run()
    if (status, why) == (4, "mtc: advance: BadProof\n"):
        # It held the size already, and the log asked from the one before. Now the export says so.
        day.ask(size + more)
        status, why = day.run()
    yield from differ("the next day", (status, why), (0, ""))
    end, wrong = day.answered()
    yield from [*differ("signed", end, size + more), *wrong]
    yield from differ("the keys then", day.numbers(), [*range(wanted)])
    after = day.released()
    yield from differ("a key twice", [number for number in before if after.get(number, before[number]) != before[number]], [])
    yield from differ("the export then", export.read_bytes(), day.scene.mtc("export", "c/journal"))


def stopped_days(scene, kind):
    day = kind(scene)
    # The first day makes a lower tree of the key.
    yield from killed_days(day, 2, 0)
    day.restore()
    day.ask(2)
    yield from differ("a day", day.run(), (0, ""))
    yield from killed_days(day, 3, 1)


def check_stopped_cosigner_days(scene):
    """after a cosigner's day that was killed at any part the next one signs: no signature stands beside another request, none is lost
    that was whole, no key signs twice, and the log isn't asked from a wrong size for ever"""
    lacks("flock")
    yield from stopped_days(scene, CosignerDay)


def check_stopped_mirror_days(scene):
    """the same of a mirror's day"""
    lacks("flock")
    yield from stopped_days(scene, MirrorDay)


CHECKS = [check_stopped_cosigner_days, check_stopped_mirror_days]
