"""The words of commands, drawn over what the journals of a history hold: most are such as a user gives, and some are hostile."""

import base64

from reference import commands, cosigner, entry, journal, landmarks, log, merkle, mirror, on_cosigners, on_logs, proof, store
from reference.arguments import IDS, JOURNALS, MOST, NUMBERS, WANTED
from reference.fault import Fault

from . import files
from .world import LINKS, LONG, NULL, UNREADABLE

LOGS, COSIGNERS, MIRRORS = ("j0", "j1", "j2"), ("s0", "s1", "s2", "s3"), ("m0", "m1")
# How often each command is drawn, where it isn't as often as others. A drill takes up to a second.
OFTEN = {"issue": 5, "issue-list": 4, "landmark": 4, "advance": 5, "cosign": 6, "mirror-take": 5, "mirror-advance": 3,
         "mirror-cosign": 4, "child": 3, "tile": 3, "mirror-tile": 3, "drill": 0.1, "help": 0.5, "version": 0.5, "keygen": 0.7,
         "switch": 0.7, "verify": 6, "audit": 4}
WEIGHTS = {name: OFTEN.get(name, 2) for name in WANTED}
BAD_WORDS = ("", "-", "-1", "--help", "x", "00", "01", "+1", "1.0", "9223372036854775807", "9223372036854775808",
             "18446744073709551616", " 1", "1 ", "\u0661", "32473.01", "32473.", "1.18446744073709551616", "0", "4", "11",
             "253402300800", "16777217", b"\xff", b"a\x80")
BAD_FILES = ("none", "none/x", "j0/x", "n" * 249, "n" * 250, "n" * 256, "a\nb", "\x1b[2J", "c\u009b\u00e9", "j0.tiles", "m0.tiles",
             "x.tiles", "d", "loop", *LINKS, LONG, NULL, "./j0", "./s0", "./m0", "./d")


# The commands whose names stand for something else in the class below.
OTHER_NAMES = {"entries": "entries_of", "held": "held_of", "landmarks": "landmarks_of"}
BEGINNING = {**dict.fromkeys(LOGS, ["init-log"]), **dict.fromkeys(COSIGNERS, ["init-cosigner", "init-cosigner2"]),
             **dict.fromkeys(MIRRORS, ["mirror-init"])}


class Words:
    """Draws the words of the next command, and makes the files that it reads."""

    def __init__(self, world, draws):
        self.world, self.draws = world, draws

    # ---- what there is

    def held(self, name, read):
        """What a journal is read as; none where it is none."""
        try:
            return read(self.world.room[name])
        except (Fault, KeyError):
            return None

    def one_of(self, names, read):
        """A journal that reads, by its name, and what it holds."""
        found = [(name, held) for name in names if (held := self.held(name, read)) is not None]
        return self.draws.choice(found) if found else (self.draws.choice(names), None)

    def log(self, least=0):
        """A log, with so many entries if there is one."""
        large = [name for name in LOGS if (held := self.held(name, log.opened)) is not None and held.size >= least]
        return self.one_of(large or LOGS, log.opened)

    def cosigner(self):
        return self.one_of(COSIGNERS, cosigner.opened)

    def mirror(self):
        return self.one_of(MIRRORS, mirror.opened)

    def items(self):
        """Items of a log or a mirror, whose id it is, and from where on their entries name algorithms."""
        (_, one), (_, other) = self.log(), self.mirror()
        held = self.draws.choice([held for held in (one, one, other) if held] or [None])
        if held is None or not held.items:
            return [(bytes(2), b"")], store.anchor_id(files.LOGS[0])
        return held.items, held.id

    def asked(self, *words):
        """What a command has to print now."""
        status, out, _ = commands.answer([*map(str, words)], self.world.copy())
        return out if status == 0 else b""

    # ---- words

    def near(self, size):
        """A number about the ends of a list."""
        return max(0, self.draws.choice((0, 1, size - 1, size, size, size + 1, self.draws.randrange(size + 2))))

    def put(self, kind, text):
        """Makes an input file, which may be a damaged one, and answers its name."""
        draws, name = self.draws, f"{kind}{self.draws.randrange(2)}"
        if draws.random() < 0.06:
            text = files.changed(draws, text)
        if draws.random() > 0.08 or name not in self.world.room:
            self.world.write(name, text)
        return name

    def entries(self, items):
        return self.put("entries", entry.written(items))

    def drawn(self):
        """The words of a command that a user might give."""
        name = self.draws.choices([*WEIGHTS], [*WEIGHTS.values()])[0]
        missing = [name for name in BEGINNING if name not in self.world.room]
        if missing and self.draws.random() < 0.3:
            journal_name = self.draws.choice(missing)
            name = self.draws.choice(BEGINNING[journal_name])
            return [name, journal_name, *self.words_of(name)[1:]]
        return [name, *self.words_of(name)]

    def words_of(self, name):
        return [*map(str, getattr(self, OTHER_NAMES.get(name, name.replace("-", "_")))())]

    def member(self):
        return [self.put("member", files.member_file(self.draws, self.items()[0]))]

    def certified(self):
        """A certificate: of a log, which has it by a landmark, by signatures of a cosigner, or by none; with these."""
        draws, (_, held) = self.draws, self.log(least=2)
        if held is None or held.size < 2:
            return None
        index, ways = self.index(held), draws.random()
        if ways < 0.5:
            try:
                return held, None, on_logs.light_cert_of(held, index)
            except Fault:
                pass
        signed = [(name, signer, one) for name, signer, one in self.signed() if one.end <= held.size and one.end > 1
                  and merkle.of(held.items).hash(one.start, one.end) == one.node and signer.log == held.id]
        if signed and ways < 0.9:
            name, signer, one = draws.choice(signed)
            index = draws.randrange(max(one.start, 1), one.end)
            return held, name, on_logs.cert_of(held, index, one.start, one.end, self.signature(signer, one))
        start, end = files.span(draws, held.size)
        fits = merkle.is_subtree(start, end) and max(start, 1) < end <= held.size
        start, end = (start, end) if fits else (0, held.size)
        return held, None, on_logs.cert_of(held, draws.randrange(max(start, 1), end), start, end, b"")

    def signed(self):
        """What cosigners have signed: the journal, the cosigner, and the Sign."""
        for name in COSIGNERS:
            signer = self.held(name, cosigner.opened)
            for body in [*journal.bodies(self.world.room[name])][1:] if signer else ():
                step = cosigner.step(body)
                if isinstance(step, cosigner.Sign):
                    yield name, signer, step

    def signature(self, signer, one):
        """A signature as `cosign` writes it."""
        message = proof.signed_bytes(signer.id, signer.log, one.start, one.end, one.node)
        text = on_cosigners.key_of(signer).signature(one.number, message)
        return log.short(signer.id) + proof.vector(text)

    def cert_file(self):
        found = self.certified()
        return (None, None, self.put("cert", b"0")) if found is None else (*found[:2], self.put("cert", found[2]))

    def store_file(self, held, signer_name):
        """A store of the log, which trusts its landmarks and the cosigners that there are, this one among them."""
        draws, known = self.draws, {}
        for name in (*COSIGNERS, *([signer_name] if signer_name else [])):
            signer = self.held(name, cosigner.opened)
            if signer:
                known[store.id_text(signer.id)] = base64.b64encode(on_cosigners.key_of(signer).public).decode()
        root = {"log": {"id": store.id_text(held.id) if held else files.LOGS[0]}}
        if held and held.switched is not None:
            root["log"]["algorithm_from"] = held.switched if draws.random() < 0.9 else draws.randrange(held.size + 2)
        root["cosigner"] = [{"id": id, "key": key} for id, key in known.items()]
        if known and draws.random() < 0.9:
            wanted = signer_name and store.id_text(self.held(signer_name, cosigner.opened).id)
            chosen = [id for id in known if id == wanted or draws.random() < 0.5] or [*known][:1]
            root["rule"] = [{"cosigners": chosen, "count": draws.choice((1, 1, 1, draws.randrange(1, len(chosen) + 1)))}]
        if held and held.marks and draws.random() < 0.7:
            spans, tree = {*landmarks.of_log(held.marks, held.active).subtrees()}, merkle.of(held.items)
            root["subtree"] = [{"start": start, "end": end, "hash": tree.hash(start, end).hex()} for start, end in sorted(spans)]
        if draws.random() < 0.2:
            root["revoked"] = [{"start": self.near(5), "end": 5 + self.near(5)}]
        if draws.random() < 0.08:
            root = draws.choice([*files.other_tables(root)])
        return self.put("store", files.text_of(root))

    def now(self):
        about = (files.LAST, files.LAST + 1, files.FIRST - 1, NUMBERS["NOW"][-1], 0)
        return self.draws.choice(about) if self.draws.random() < 0.4 else files.FIRST

    def show(self):
        return [self.cert_file()[2]]

    def verify(self):
        held, name, cert = self.cert_file()
        return [cert, self.store_file(held, name), self.now()]

    def audit(self):
        held, name, cert = self.cert_file()
        items = held.items if held else []
        size = len(items) if self.draws.random() < 0.8 else self.draws.randrange(len(items) + 1)
        exported = self.asked("export", name) if name else self.draws.choice((b"", self.asked("export", self.cosigner()[0])))
        return [cert, self.store_file(held, name), files.FIRST, self.entries(items[:size]), self.put("export", exported)]

    # ---- logs

    def init_log(self):
        draws = self.draws
        return [draws.choice(LOGS), draws.choice(files.LOGS), draws.choice((1, 2, 5)), draws.choice((2, 9, 60, 500))]

    def issue(self):
        return [self.log()[0], self.put("request", files.request_file(self.draws))]

    def issue_list(self):
        most = 100 if self.draws.random() < 0.1 else 6
        return [self.log()[0], self.put("list", files.requests_file(self.draws, most))]

    def checkpoint(self):
        return [self.log()[0]]

    landmark = landmarks_of = switch = checkpoint

    def to_be_tiled(self, names, read, has_work):
        """A log or a mirror whose tiles are to be written, if there is one."""
        found = [name for name in names if (held := self.held(name, read)) is not None and has_work(held)]
        return [self.draws.choice(found or names)]

    def tile(self):
        return self.to_be_tiled(LOGS, log.opened, lambda held: held.size - held.tiled >= log.TILE)

    def tile_anew(self):
        return self.to_be_tiled(LOGS, log.opened, lambda held: held.tiled)

    def mirror_tile(self):
        return self.to_be_tiled(MIRRORS, mirror.opened, lambda held: held.size - held.tiled >= log.TILE)

    def sized_log(self):
        name, held = self.log()
        return name, held.size if held else 3

    def entries_of(self):
        name, size = self.sized_log()
        return [name, self.near(size)]

    def entries_from(self):
        name, size = self.sized_log()
        return [name, self.near(size // 2), self.near(size)]

    consist = entries_from

    def subtree(self):
        name, size = self.sized_log()
        return [name, *files.span(self.draws, size), size if self.draws.random() < 0.7 else self.near(size)]

    def index(self, held):
        """The index of an entry of a log, mostly of one that an active landmark covers."""
        if not held.marks or self.draws.random() < 0.2:
            return self.draws.randrange(1, held.size)
        first = max(landmarks.of_log(held.marks, held.active).sizes[-1], 1)
        return self.draws.randrange(first, max(held.marks[-1], first + 1))

    def light_cert(self):
        name, held = self.log(least=2)
        if held is None or held.size < 2 or self.draws.random() < 0.2:
            return [name, self.near(held.size if held else 1)]
        return [name, self.index(held)]

    def light_certs(self):
        name, first = self.light_cert()
        return [name, first, first + (1 if self.draws.random() < 0.6 else self.near(3))]

    def signatures(self):
        """A file of signatures of an interval, and that interval."""
        signed = [*self.signed()]
        if not signed or self.draws.random() < 0.3:
            start, end = files.span(self.draws, self.sized_log()[1])
            long = self.draws.random() < 0.06
            return start, end, self.put("signatures", b"\1a\xff\xfb" + bytes(65_531 + self.draws.randrange(2)) if long else b"")
        _, signer, one = self.draws.choice(signed)
        return one.start, one.end, self.put("signatures", self.signature(signer, one) * self.draws.randrange(1, 3))

    def cert(self):
        start, end, file = self.signatures()
        index = self.draws.randrange(max(start, 1), max(end, start + 1, 2)) if self.draws.random() < 0.8 else self.near(end)
        logs = [name for name in LOGS if (held := self.held(name, log.opened)) is not None and held.size >= end]
        return [self.draws.choice(logs) if logs and self.draws.random() < 0.8 else self.log()[0], index, start, end, file]

    def certs(self):
        name, index, start, end, file = self.cert()
        return [name, index, min(index + self.near(3), end) if self.draws.random() < 0.8 else self.near(end), start, end, file]

    # ---- cosigners

    def height(self):
        return 5 if self.draws.random() < 0.93 else 10

    def key(self, *heights):
        """Heights, a width and a secret; the widest keys of height 10 take the reader too long."""
        widths = (1, 2, 4, 8) if heights == (5,) else (1, 2, 4)
        return [*heights, self.draws.choice(widths), self.put("secret", files.secret_file(self.draws))]

    def keygen(self):
        return self.key(self.height())

    def ids(self):
        return [self.draws.choice(files.COSIGNERS), self.draws.choice((files.LOGS[0], *files.LOGS))]

    def init_cosigner(self):
        return [self.draws.choice(COSIGNERS), *self.ids(), *self.key(self.height())]

    def init_cosigner2(self):
        return [self.draws.choice(COSIGNERS), *self.ids(), *self.key(5, 5)]

    def of_log(self, signer):
        """A log of this cosigner that has what it holds, and is larger if one is."""
        logs = [(name, held) for name in LOGS if (held := self.held(name, log.opened)) is not None and held.id == signer.log
                and held.size >= signer.state.size and merkle.root(held.items[:signer.state.size]) == signer.state.root]
        return self.draws.choice(logs) if logs else self.log()

    def advance(self):
        name, signer = self.cosigner()
        log_name, held = self.of_log(signer) if signer else self.log()
        old, new = signer.state.size if signer else 0, held.size if held else 1
        if self.draws.random() < 0.3:
            new = self.near(new)
        return [name, self.put("advance", self.consisting(log_name, old, new))]

    def consisting(self, log_name, old, new):
        """A request to hold so many entries of a log; where no proof leads there, it has none."""
        return self.asked("consist", log_name, old, new) or self.asked("consist", log_name, 0, new)

    def child(self):
        return [self.cosigner()[0]]

    export = child

    def cosign(self):
        name, signer = self.cosigner()
        size = signer.state.size if signer else 1
        log_name = self.of_log(signer)[0] if signer else LOGS[0]
        return [name, self.put("sign", self.asked("subtree", log_name, *files.span(self.draws, size), size))]

    def exported(self):
        return [self.put("export", self.asked("export", self.cosigner()[0]) if self.draws.random() < 0.95 else b"")]

    quarrel = held_of = exported

    # ---- mirrors

    def mirror_init(self):
        return [self.draws.choice(MIRRORS), self.draws.choice(files.LOGS)]

    def mirror_take(self):
        """The entries of a log, or those of the mirror and others."""
        name, held = self.mirror()
        items, (_, source) = held.items if held else [], self.log()
        if source and source.items[:len(items)] == items and self.draws.random() < 0.8:
            items = source.items[:self.near(source.size)]
        else:
            items = files.longer(self.draws, items, 300 if self.draws.random() < 0.05 else 8)
        return [name, self.entries(items)]

    def mirror_entries(self):
        name, held = self.mirror()
        return [name, self.near(held.size if held else 1)]

    def both(self):
        """A cosigner and a mirror, mostly such that the one holds first entries of the other."""
        pairs = [(one, other) for one in COSIGNERS for other in MIRRORS if self.agree(one, other)]
        if not pairs or self.draws.random() < 0.2:
            return self.cosigner(), self.mirror()
        one, other = self.draws.choice(pairs)
        return (one, self.held(one, cosigner.opened)), (other, self.held(other, mirror.opened))

    def agree(self, one, other):
        signer, held = self.held(one, cosigner.opened), self.held(other, mirror.opened)
        return signer and held and signer.log == held.id and merkle.root(held.items[:signer.state.size]) == signer.state.root

    def mirror_advance(self):
        (name, _), (mirror_name, held) = self.both()
        size = held.size if held else 1
        return [name, mirror_name, size if self.draws.random() < 0.7 else self.near(size)]

    def mirror_cosign(self):
        (name, signer), (mirror_name, _) = self.both()
        return [name, mirror_name, *files.span(self.draws, signer.state.size if signer else 1)]

    # ---- files of others

    def trust_landmarks(self):
        _, held = self.log()
        if held is None:
            return [self.put("marks", b""), 1, self.entries([])]
        size = held.size if self.draws.random() < 0.85 else self.near(held.size)
        most = self.draws.choice((held.active, held.active, 1, 10_000))
        return [self.put("marks", files.landmark_list(held)), most, self.entries(held.items[:size])]

    def root(self):
        return [self.entries(self.items()[0])]

    def monitor_init(self):
        return [self.draws.choice(files.LOGS)]

    def monitor(self):
        name, held = self.log()
        if held is None:
            return [self.put("state", b""), self.put("watch", b""), self.put("advance", b""), self.entries([])]
        old = self.draws.randrange(held.size) if self.draws.random() < 0.9 else held.size
        new = held.size if self.draws.random() < 0.9 else self.near(held.size)
        listed = held.items[old:new] if self.draws.random() < 0.9 else held.items[:new]
        return [self.put("state", files.state_file(held.id, held.items[:old])), self.put("watch", files.watch_file(self.draws)),
                self.put("advance", self.consisting(name, old, new)), self.entries(listed)]

    def drill(self):
        return [self.draws.randrange(1000)]

    def help(self):
        return []

    version = help

    # ---- hostile words

    def spoiled(self, words):
        """The words with another, one more or one less, which may be no word of a command."""
        draws, kind, words = self.draws, self.draws.random(), [*words]
        if kind < 0.06:
            return draws.choice(([], ["frob"], ["--help"], [b"\xff"], [words[0].upper(), *words[1:]]))
        if kind < 0.12:
            return [*words, draws.choice(BAD_WORDS)]
        if kind < 0.18 or len(words) == 1:
            return words[:-1] or ["help", "x"]
        place = draws.randrange(1, len(words))
        wanted = WANTED[words[0]][place - 1]
        words[place] = draws.choice(self.others(wanted, words))
        return words

    def others(self, wanted, words):
        """Words in place of one that stands for this word of the page."""
        if wanted in IDS:
            return BAD_WORDS + files.LOGS + files.COSIGNERS
        if wanted in NUMBERS:
            return (*BAD_WORDS, str(MOST), "0", "1", "5", "10")
        there = [name for name in self.world.files() if not name.endswith(".tiles")]
        # As a journal the file that can't be read is an empty one, by the length that the system says it has.
        return (*BAD_FILES, "", "-", *there) if wanted in JOURNALS else (*BAD_FILES, UNREADABLE, *there, *there)
