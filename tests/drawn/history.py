"""A history: commands that are drawn one after the other, and what is done to their files between them."""

import random
from collections import Counter

from reference import journal, log
from reference.arguments import inputs
from reference.log import TILE

from . import files, stops
from .words import COSIGNERS, LOGS, MIRRORS, Words
from .world import STDIN, World

# How often words are hostile, a file is damaged, put back or removed, and a command is given again and again.
HOSTILE, DAMAGED, OLD, REMOVED, AGAIN = 0.12, 0.05, 0.015, 0.015, 0.03
# How often a command has an input by a pipe, finds a file locked, has no output, is stopped, or has a call that fails.
WAYS = {"by a pipe": 0.03, "with a locked file": 0.03, "without output": 0.02, "stopped": 0.16, "with a call that fails": 0.05}
# These ways are drawn for commands that write; for others one time in five.
AT_A_CALL = ("stopped", "with a call that fails")
WRITING = ("init-log", "init-cosigner", "init-cosigner2", "mirror-init", "issue", "issue-list", "landmark", "switch", "tile",
           "tile-anew", "advance", "child", "cosign", "mirror-take", "mirror-tile", "mirror-advance", "mirror-cosign")
# So often a command is given that signs; and others.
MOST_SIGNED, MOST_AGAIN = 35, 4
SMALL, LARGE = 0.4, (250, 256, 262, 508, 520)
# Few of these do their work, so half of them are stopped.
TILING = ("tile", "tile-anew", "mirror-tile")


class History:
    """A folder, and what is drawn for it by a number."""

    def __init__(self, program, number, is_traced, shows):
        self.draws, self.world, self.is_traced, self.shows = random.Random(number), World(program), is_traced, shows
        self.words, self.counts, self.line = Words(self.world, self.draws), Counter(), ""
        # Damaged files, with what they held and after how many commands they hold it again; old texts of journals.
        self.damaged, self.old, self.begun = {}, {}, 0
        self.begin()

    def begin(self):
        """Journals that are there from the beginning; some histories have a log and a mirror that fill tiles."""
        draws, world = self.draws, self.world
        size = draws.randrange(1, 30) if draws.random() < SMALL else draws.choice(LARGE)
        grown = files.grown_log(draws, files.LOGS[0], draws.choice((1, 2, 3)), draws.choice((size + 40, 2000)), size)
        items = log.opened(journal.written(grown)).items
        mirrored = items[:max(size - draws.randrange(10), 1)]
        for name, found, listed in (("j0", grown, items), ("m0", files.grown_mirror(files.LOGS[0], mirrored), mirrored)):
            if len(listed) >= TILE and draws.random() < 0.5:
                found, text = files.tiled(found, listed)
                world.write(f"{name}.tiles", text)
            world.write(name, journal.written(found))
        for name, id, heights in zip(COSIGNERS, files.COSIGNERS, ((5,), (5, 5))):
            secret = bytes([draws.randrange(3)]) * 48
            world.write(name, files.new_cosigner(id, files.LOGS[0], heights, draws.choice((1, 3)), secret))

    # ---- what is done to files

    def damage(self):
        """Damages a journal or a file of tiles for some commands, or adds bytes that mean nothing."""
        draws, world = self.draws, self.world
        tiles = [f"{name}.tiles" for name in (*LOGS, *MIRRORS)]
        names = [name for name in (*LOGS, *MIRRORS, *COSIGNERS, *tiles, *tiles) if name in world.room]
        if not names:
            return
        name = draws.choice(names)
        text = world.room[name]
        if draws.random() < 0.3:
            world.write(name, text + draws.randbytes(draws.randrange(1, 99)))
            return
        self.damaged.setdefault(name, (text, self.begun + draws.randrange(1, 5)))
        if name in tiles and draws.random() < 0.2:
            world.remove(name)
        else:
            world.write(name, files.changed(draws, text))
        self.counts["files damaged"] += 1

    def mend(self):
        """Has damaged files hold what they held, if no command has written them since then."""
        for name, (text, end) in [*self.damaged.items()]:
            if end <= self.begun:
                del self.damaged[name]
                self.world.write(name, text)

    def between(self):
        """What happens to files before a command."""
        draws, world = self.draws, self.world
        self.mend()
        if draws.random() < DAMAGED:
            self.damage()
        name = draws.choice((*LOGS, *COSIGNERS, *MIRRORS))
        if draws.random() < OLD and name in self.old and name not in self.damaged:
            world.write(name, self.old[name])
            self.counts["old journals put back"] += 1
        if name in world.room and name not in self.damaged and draws.random() < 0.1:
            self.old[name] = world.room[name]
        if draws.random() < REMOVED:
            for one in (name, f"{name}.tiles"):
                world.remove(one)
                self.damaged.pop(one, None)

    # ---- commands

    def plain(self, words):
        wanted, room = self.world.wanted(words)
        self.world.compare(self.world.run(words), wanted, room)
        return wanted[0]

    def by_a_pipe(self, words):
        """One of the input files comes through a pipe."""
        names = [name for _, name in inputs(words) if name in self.world.files()] if self.is_command(words) else []
        if not names:
            return self.plain(words)
        name = self.draws.choice(names)
        given = self.world.room[STDIN] = self.world.room[name]
        words = [STDIN if word == name else word for word in words] if words.count(name) == 1 else words
        wanted, room = self.world.wanted(words)
        found = self.world.run(words, given)
        for one in (room, self.world.room):
            del one[STDIN]
        self.world.compare(found, wanted, room)
        return wanted[0]

    def with_a_locked_file(self, words):
        """Another process has locked one of the files."""
        texts = [word for word in words if isinstance(word, str)]
        names = [name for text in texts for name in (text, f"{text}.tiles") if name in self.world.files()]
        if not names:
            return self.plain(words)
        self.world.room.locked = {self.draws.choice(names): self.draws.random() < 0.5}
        wanted, room = self.world.wanted(words)
        found = self.world.run(words)
        self.world.room.locked = room.locked = {}
        self.world.compare(found, wanted, room)
        return wanted[0]

    def without_output(self, words):
        """Standard output takes no byte."""
        wanted, room = self.world.wanted(words, takes=False)
        self.world.compare(self.world.run(words, takes=False), wanted, room)
        return wanted[0]

    def stopped(self, words):
        """The command is stopped at a call of the system; then the power may be cut."""
        return self.at_a_call(words, fails=False)

    def with_a_call_that_fails(self, words):
        return self.at_a_call(words, fails=True)

    def at_a_call(self, words, fails):
        world = self.world
        if not self.is_traced or not self.is_command(words):
            return self.plain(words)
        (wanted, room), before = world.wanted(words), world.files()
        fault = stops.drawn(self.draws, world.room, words, fails)
        self.line += f" at {fault}"
        said = world.run(words, before=stops.under_trace(world, fault))
        unsynced = stops.unsynced(world)
        if said[0] == stops.KILLED:
            stops.check(world, words, said, wanted, room)
            self.counts["stopped"] += 1
            if self.draws.random() < 0.6:
                self.line += ", and a power cut"
                stops.cut(world, self.draws, before, room, unsynced)
                self.counts["power cuts"] += 1
            return "killed"
        if fails and said != wanted:
            stops.check_failed(world, words, said, wanted, room)
            self.counts["calls that failed"] += 1
            return 5
        world.compare(said, wanted, room)
        if wanted[0] == 0:
            stops.check_synced(unsynced)
        return wanted[0]

    def is_command(self, words):
        return bool(words) and all(isinstance(word, str) for word in words) and self.world.wanted(words)[0][0] != 1

    def give(self, words):
        """Gives a command, and counts how it ended."""
        way = self.draws.choices(["plain", *WAYS], [1 - sum(WAYS.values()), *WAYS.values()])[0]
        if way in AT_A_CALL and words[:1] and words[0] not in WRITING and self.draws.random() < 0.8:
            way = "plain"
        if words[:1] and words[0] in TILING and self.draws.random() < 0.5:
            way = "stopped"
        self.line = f"{' '.join(map(str, words))}{'' if way == 'plain' else f' ({way})'}"
        status = getattr(self, way.replace(" ", "_"))(words)
        self.begun += 1
        name = words[0] if words and isinstance(words[0], str) else ""
        if self.shows:
            print(self.begun, status, self.line)
        self.counts["status", status] += 1
        self.counts["command", name, status] += 1
        return status

    def play(self, count):
        """Gives so many commands; what is wrong ends it."""
        while self.begun < count:
            self.between()
            words = self.words.drawn()
            if self.draws.random() < HOSTILE:
                words = self.words.spoiled(words)
            status = self.give(words)
            if self.draws.random() < AGAIN or status == 0 and "cosign" in words[0] and self.draws.random() < 0.1:
                signs = status == 0 and "cosign" in words[0]
                for _ in range(self.draws.randrange(2, MOST_SIGNED if signs else MOST_AGAIN)):
                    if self.begun < count:
                        self.give(words)
