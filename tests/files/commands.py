"""The commands that work on a journal, and files over which each of them does its work.

A new command that works on a journal gets a line in COMMANDS, and the files that it wants a line in Scene: each check over
all commands then tries it too. One that reads other files gets a line in READING of streams.py.
"""

import re

from .folder import ROOT, Folder, unlike

LOG, COSIGNER = "32473.1", "32473.2"
HEADER = b"mtc-journal/v1\n\0"
# So many entries fill a tile; the log of a scene has one more.
TILE = 256
# The tags of records (docs/FORMATS.md, "Journals").
ENTRY, LANDMARK, TILES, SWITCH, BATCH, ADVANCE, SIGN, CHILD, MIRRORED = 0x02, 0x03, 0x04, 0x05, 0x06, 0x12, 0x13, 0x14, 0x22
LOG_BEGINS, COSIGNER_BEGINS, COSIGNER_2_BEGINS, MIRROR_BEGINS = 0x01, 0x11, 0x15, 0x21
# Whose the journals of a scene are, and whose one is that begins with a record.
LOGS, MIRRORS = ("j", "t"), ("m",)
KINDS = {**dict.fromkeys(LOGS, "log"), **dict.fromkeys(MIRRORS, "mirror"), "s": "cosigner", "c": "cosigner",
         LOG_BEGINS: "log", COSIGNER_BEGINS: "cosigner", COSIGNER_2_BEGINS: "cosigner", MIRROR_BEGINS: "mirror"}


class Command:
    """A command on a journal: its words, which record it adds or begins a journal with, if any, whether it writes tiles, and what
    it says again where its record is there already. What it prints stands here where it is a line that its page says. The second
    journal of one that has two is only read."""

    def __init__(self, words, says=None, adds=None, begins=None, again=None, writes_tiles=False):
        self.words, self.says, self.adds, self.begins, self.again = words.split(), says, adds, begins, again
        self.name, self.journal, self.writes_tiles = self.words[0], self.words[1], writes_tiles
        self.only_asks = not (adds or begins or writes_tiles)
        self.kind = KINDS[begins or self.journal]
        self.mirror = self.words[2] if self.kind == "cosigner" and self.words[2:3] and self.words[2] in MIRRORS else None
        self.journals = [self.journal, *filter(None, [self.mirror])]
        # The file of tiles, beside the journal of a log or a mirror that is there, which is the last one.
        self.tiles = None if begins or self.journals[-1] not in LOGS + MIRRORS else f"{self.journals[-1]}.tiles"

    def on(self, journal):
        """Its words on another journal, in place of that of the file of tiles where it has one."""
        place = len(self.journals) if self.tiles else 1
        return [*self.words[:place], journal, *self.words[place + 1:]]

    def line(self, file, refusal="Failed"):
        """The line on standard error about a file."""
        return f"mtc: {self.name}: {file}: {refusal}\n"


COMMANDS = [
    Command("init-log new 32473.1 2 100000", "log 32473.1\n", begins=LOG_BEGINS),
    Command("init-cosigner new 32473.2 32473.1 5 4 secret", begins=COSIGNER_BEGINS),
    Command("init-cosigner2 new 32473.2 32473.1 5 5 4 secret", begins=COSIGNER_2_BEGINS),
    Command("mirror-init new 32473.1", "mirror 32473.1\n", begins=MIRROR_BEGINS),
    Command("issue j r", "issued 257\n", adds=ENTRY),
    Command("issue-list j list", "issued 257\nissued 258\n", adds=BATCH),
    Command("landmark j", "landmark 2 257\n", adds=LANDMARK, again="mtc: landmark: NothingNew\n"),
    Command("tile j", "tiled 256\n", adds=TILES, again="mtc: tile: NothingNew\n", writes_tiles=True),
    Command("tile-anew t", "tiled 256\n", writes_tiles=True),
    Command("switch j", "switched 257\n", adds=SWITCH, again="mtc: switch: AlreadySwitched 257\n"),
    Command("advance s forward", "advanced 257\n", adds=ADVANCE, again="mtc: advance: NotNewer 257\n"),
    Command("child c", "child 0\n", adds=CHILD, again="mtc: child: ChildLeft 32\n"),
    Command("cosign s part", adds=SIGN),
    Command("mirror-take m entries", "mirrored 257\n", adds=MIRRORED, again="mtc: mirror-take: NothingNew\n"),
    Command("mirror-tile m", "tiled 256\n", adds=TILES, again="mtc: mirror-tile: NothingNew\n", writes_tiles=True),
    Command("mirror-advance c m 256", "advanced 256\n", adds=ADVANCE, again="mtc: mirror-advance: NotNewer 256\n"),
    Command("mirror-cosign s m 0 4", adds=SIGN),
    Command("checkpoint j"), Command("entries j 2"), Command("entries-from j 2 257"), Command("consist j 1 257"),
    Command("subtree j 0 4 257"), Command("landmarks j", "1 1\n256\n0\n"), Command("light-cert j 1"),
    Command("light-certs j 1 3"), Command("cert j 1 0 4 none"), Command("certs j 1 3 0 4 none"), Command("export s"), Command("mirror-entries m 2"),
]
BEGINNING = [command for command in COMMANDS if command.begins]
ADDING = [command for command in COMMANDS if command.adds]
OPENING = [command for command in COMMANDS if not command.begins]
# Those that only read their journals and tile files.
ASKING = [command for command in COMMANDS if command.only_asks]
WRITING = [command for command in COMMANDS if not command.only_asks]
WITH_TILES = [command for command in COMMANDS if command.tiles]
ON_LOGS = [command for command in WITH_TILES if command.kind == "log"]
# The commands that open a file of tiles, by its journal.
BY_TILED = {**dict.fromkeys(LOGS, ON_LOGS), **dict.fromkeys(MIRRORS, [one for one in WITH_TILES if one not in ON_LOGS])}
# How a whole journal is asked for what it holds, by whose it is.
ASKS = {"log": "checkpoint {}", "cosigner": "export {}", "mirror": "mirror-entries {} 0"}


class Scene(Folder):
    """A folder with the files of all commands: a log `j` of 257 entries, of which 256 have a landmark and none a tile, a copy `t`
    of it that is tiled and in whose one tile a byte is wrong, a cosigner `s` that holds 256 of them, a mirror `m` that has as many,
    and a cosigner `c` that holds none and whose key has no lower tree yet."""

    def __init__(self, program):
        super().__init__(program)
        self.write("secret", bytes(range(48)))
        self.write("none", b"")
        self.write("list", 2 * (b"[[request]]\n" + self.bytes("r")))
        self.long_log(TILE)
        self.said("landmark j")
        self.write("first", self.said(f"consist j 0 {TILE}"))
        self.write("part", self.said(f"subtree j 0 4 {TILE}"))
        self.write("fewer", self.said(f"entries j {TILE}"))
        self.said("issue j r")
        self.write("forward", self.said(f"consist j {TILE} {TILE + 1}"))
        self.write("entries", self.said(f"entries j {TILE + 1}"))
        self.write("t", self.bytes("j"))
        self.said("tile t")
        self.write("t.tiles", with_wrong_byte(self.bytes("t.tiles")))
        self.said(f"init-cosigner s {COSIGNER} {LOG} 5 4 secret")
        self.said("advance s first")
        self.said(f"init-cosigner2 c {COSIGNER} {LOG} 5 5 4 secret")
        self.said(f"mirror-init m {LOG}")
        self.said("mirror-take m fewer")
        self.kept = self.files()

    def files(self):
        """What each file holds, but the program and the trace of a command."""
        return {path.name: path.read_bytes() for path in self.path.iterdir()
                if path.is_file() and path.name not in ("mtc", "trace")}

    def restore(self):
        """Makes the folder hold the files of the beginning and no others, and answers them."""
        now = self.files()
        for name in now.keys() - self.kept.keys():
            (self.path / name).unlink()
        for name, text in self.kept.items():
            if now.get(name) != text:
                self.write(name, text)
        return self.kept

    def changed(self):
        """The names of the files that aren't as at the beginning."""
        now = self.files()
        return sorted(name for name in now.keys() | self.kept.keys() if now.get(name) != self.kept.get(name))


def with_wrong_byte(text):
    """The bytes with another one in their middle."""
    middle = len(text) // 2
    return text[:middle] + bytes([text[middle] ^ 1]) + text[middle + 1:]


def records(text):
    """The bodies of the records of a journal (docs/FORMATS.md, "Journals"): none where it isn't one."""
    found, place = [], len(HEADER)
    while text is not None and text.startswith(HEADER) and text[place:place + 1] not in (b"", b"\0"):
        end = place + 5 + int.from_bytes(text[place + 1:place + 5], "big")
        found.append(text[place + 5:end])
        place = end
    return found


def numbers_of(export):
    """The numbers of the one-time keys in the Sign records of an export (docs/FORMATS.md, "Export"), in its order."""
    found, place = [], 2 + export[0] + export[1 + export[0]] + 62
    while place < len(export):
        length = int.from_bytes(export[place:place + 4], "big")
        if export[place + 4] == SIGN:
            found.append(int.from_bytes(export[place + 5:place + 9], "big"))
        place += 4 + length
    return found


def added(scene, command):
    """The tags of the records that the command's journal has now and hadn't at the beginning; None where it isn't the old
    journal with records after it."""
    before, after = records(scene.kept.get(command.journal)), records(scene.bytes(command.journal))
    return [body[0] for body in after[len(before):]] if after[:len(before)] == before else None


def asked(scene, command):
    """What the command's journal then says of itself, and the records that this leaves in it are those of before."""
    before = records(scene.bytes(command.journal))
    status, out, err = scene.run(ASKS[command.kind].format(command.journal))
    return status, err, records(scene.bytes(command.journal)) == before


def named_with(words):
    """The commands of docs/COMMANDS.md that have one of these among their words."""
    rows = re.findall(r"^\| `([a-z][a-z0-9-]*) ([^`]*)`", (ROOT / "docs/COMMANDS.md").read_text(), re.M)
    return sorted({name for name, row in rows if set(row.split()) & set(words)})


def check_listed(scene, _kills):
    """Each command on a journal that COMMANDS names is among those that are tried here, and does its work over these files"""
    yield from unlike("the commands", sorted(command.name for command in COMMANDS), named_with("JSM"))
    for command in COMMANDS:
        scene.restore()
        status, out, err = scene.run(command.words)
        tags = [tag for tag in (command.adds, command.begins) if tag]
        yield from unlike(command.name, (status, command.says or out, err), (0, out, ""))
        yield from unlike(f"the records of {command.name}", added(scene, command), tags)
