"""Standard streams that fail, readers that go away, and files that are no plain ones."""

import fcntl
import hashlib
import os
import shlex
import stat

from .commands import ADVANCE, COMMANDS, COSIGNER, COSIGNER_BEGINS, HEADER, LOG, SIGN, Scene, added, named_with, records
from .folder import ROOT, ended, failed, unlike

# More than a pipe holds.
LONG, PIPE = 1000, 65536
NOW = "1767225600"


def closed(*descriptors):
    def close():
        for descriptor in descriptors:
            os.close(descriptor)
    return close


def broken_pipe():
    """The end of a pipe that has no reader."""
    reader, writer = os.pipe()
    os.close(reader)
    return writer


def failing_outputs(full, broken):
    """Ways in which standard output fails, and whether standard error still takes a line."""
    yield "full", {"stdout": full}, True
    yield "broken", {"stdout": broken}, True
    yield "closed", {"preexec_fn": closed(1)}, True
    yield "closed as all streams", {"preexec_fn": closed(0, 1, 2)}, False


def check_streams(scene, _kills):
    """Standard output that fails is status 6 with the record there, standard error that fails changes nothing, and neither is a signal"""
    broken = broken_pipe()
    with open("/dev/full", "wb") as full:
        for command in COMMANDS:
            tags = [tag for tag in (command.adds, command.begins) if tag]
            for how, options, takes in failing_outputs(full, broken):
                scene.restore()
                what, line = f"{command.name}, {how}", f"mtc: {command.name}: OutputFailed\n" if takes else ""
                yield from unlike(what, scene.run(command.words, **options), (6, "", line))
                yield from unlike(f"the records after {what}", added(scene, command), tags)
        for options in ({"stderr": full}, {"stderr": broken}, {"preexec_fn": closed(2)}):
            yield from unlike(f"frob {[*options]}", scene.run("frob", **options), (1, "", ""))
    os.close(broken)


# Names that would end a line, or steer a terminal, and how they stand in one.
STEERING = {"bad\nmtc: issue: j: Done": "bad\\x0amtc: issue: j: Done", "\n": "\\x0a", "\x1b[2Jx\r\t\x7f": "\\x1b[2Jx\\x0d\\x09\\x7f",
            "c\x9b1m": "c\\xc2\\x9b1m", "a \\ b \xa0\xc2": "a \\ b \xa0\xc2"}
# A line that is longer than what goes out at once: so many commands write so many lines of that length at once.
WRITERS, LINES = 4, 100


def check_lines(scene, _kills):
    """A line on standard error is one write, and stays one line whatever the name in it"""
    for name, shown in STEERING.items():
        line = f"mtc: show: {shown}: Absent\n".encode().decode("latin-1")
        yield from unlike(f"show {name!r}", scene.run(["show", name]), (7, "", line))
    name = "n" * 200
    loop = f"for i in $(seq {LINES}); do ./mtc show {name}; done"
    with open(scene.path / "errs", "ab") as errs:
        for process in [scene.start([], before=["sh", "-c", loop], stderr=errs) for _ in range(WRITERS)]:
            process.communicate()
    lines = scene.bytes("errs").decode().splitlines()
    yield from unlike("the lines of commands at once", lines, [f"mtc: show: {name}: Absent"] * (WRITERS * LINES))


def left_by_its_reader(scene, words):
    """What a reader has of a command's output that goes away then, and how the command ends."""
    process = scene.start(words.split())
    text = process.stdout.read(100)
    process.stdout.close()
    line = process.stderr.read().decode()
    process.stderr.close()
    return text, (process.wait(), line)


def signed_often(count):
    """The journal of a cosigner of height 10 and width 1 that holds two entries and has signed the first so many times
    (docs/FORMATS.md, "The journal of a cosigner")."""
    leaf, other = (hashlib.sha256(b"\0" + entry).digest() for entry in (b"\0\0", b"\0\1"))
    root = hashlib.sha256(b"\1" + leaf + other).digest()
    ids = bytes.fromhex("0481fd59020481fd5901")
    bodies = [bytes([COSIGNER_BEGINS]) + ids + (6).to_bytes(4, "big") + (1).to_bytes(4, "big") + bytes(range(48)),
              bytes([ADVANCE]) + (2).to_bytes(8, "big") + root + bytes(2)]
    subtree = bytes(8) + (1).to_bytes(8, "big") + leaf + b"\0\x20" + other
    bodies += [bytes([SIGN]) + number.to_bytes(4, "big") + subtree for number in range(count)]
    return HEADER + b"".join(b"\1" + len(body).to_bytes(4, "big") + body for body in bodies) + b"\0"


def into_full_pipe(scene, words):
    """How a command ends that writes into a pipe of one page that doesn't block, and whose reader comes late; and what the pipe took."""
    reader, writer = os.pipe()
    fcntl.fcntl(writer, fcntl.F_SETPIPE_SZ, 4096)
    os.set_blocking(writer, False)
    process = scene.start(words.split(), stdout=writer)
    os.close(writer)
    process.wait()
    with open(reader, "rb") as pipe:
        text = pipe.read()
    status, _, err = ended(process)
    return status, err, text


def check_readers(scene, _kills):
    """A reader that goes away in the middle of a long output, or a pipe that doesn't block and is full, is status 6 and no signal, and
    the journal stays as it was"""
    scene.long_log(LONG, "long")
    scene.write("often", signed_often(LONG))
    for words in (f"entries long {LONG}", "export often"):
        name, journal, *_ = words.split()
        before, whole = scene.bytes(journal), scene.said(words)
        yield from unlike(f"{words} is longer than a pipe", len(whole) > PIPE, True)
        text, ending = left_by_its_reader(scene, words)
        yield from unlike(words, (text == whole[:100], ending), (True, (6, f"mtc: {name}: OutputFailed\n")))
        status, err, text = into_full_pipe(scene, words)
        yield from unlike(f"{words} into a full pipe", (status, err, whole.startswith(text)), (6, f"mtc: {name}: OutputFailed\n", True))
        yield from unlike(f"the journal after {words}", scene.bytes(journal) == before, True)
    records_of_export = scene.said("export often")[10 + 62:]
    reported = b"".join(len(body).to_bytes(4, "big") + body for body in records(scene.bytes("often"))[1:])
    yield from unlike("the records of an export", records_of_export == reported, True)


class Judged(Scene):
    """A scene with a certificate, a store, and what an audit and a monitor want."""

    def __init__(self, program):
        super().__init__(program)
        for file, words in (("light", "light-cert j 1"), ("marks", "landmarks j"),
                            ("export", "export s"), ("state", f"monitor-init {LOG}"), ("all", "consist j 0 257")):
            self.write(file, self.said(words))
        self.write("watch", b"example\n")
        self.write("trusting", f'[log]\nid = "{LOG}"\n'.encode() + self.said("trust-landmarks marks 2 entries"))
        self.write("member", (ROOT / "examples/first.member").read_bytes())
        self.kept = self.files()


# The words of docs/COMMANDS.md that are inputs, and commands with such words and what they print where that is a line.
INPUTS = ["FILE", "CERT", "STORE", "REQUEST", "REQUESTS", "SECRET", "SIGNATURES", "LIST", "ENTRIES", "EXPORT"]
READING = [
    ("member member", "member 0\n"), ("show light", None), (f"verify light trusting {NOW}", "accepted 1\n"),
    ("keygen 5 4 secret", None), (f"init-cosigner new {COSIGNER} {LOG} 5 4 secret", None),
    (f"init-cosigner2 new {COSIGNER} {LOG} 5 5 4 secret", None), ("issue j r", "issued 257\n"),
    ("issue-list j list", "issued 257\nissued 258\n"), ("advance s forward", "advanced 257\n"), ("cosign s part", None),
    ("cert j 1 0 4 none", None), ("certs j 1 3 0 4 none", None), ("mirror-take m entries", "mirrored 257\n"),
    ("trust-landmarks marks 2 entries", None), (f"audit light trusting {NOW} entries none", "stands 1\n"),
    ("quarrel export", "agree\n"), ("root entries", None), ("held export", None), ("monitor state watch all entries", None),
]
# A file given as a pipe, in a shell. Where the program doesn't open it, the writer waits for ever: so many seconds are enough.
AWAITED = 120
WAYS = {"<(..)": "./mtc {prefix} <(cat {file}) {back}", "/dev/stdin": "cat {file} | ./mtc {prefix} /dev/stdin {back}",
        "a FIFO": "mkfifo pipe && {{ cat {file} >pipe & }} && ./mtc {prefix} pipe {back}; status=$?; rm pipe; exit $status"}


def given_by_pipe(scene, words, place, way):
    """How a command ends whose input at this place of its words comes through a pipe."""
    prefix, back = shlex.join(words[:place]), shlex.join(words[place + 1:])
    line = WAYS[way].format(prefix=prefix, file=words[place], back=back)
    return scene.run([], seconds=AWAITED, before=["bash", "-c", line])


def check_pipes(scene, _kills):
    """An input that comes through a pipe, by its descriptor's name or as a FIFO, is taken as a plain file"""
    yield from unlike("the commands", sorted(text.split()[0] for text, _ in READING), named_with(INPUTS))
    for text, says in READING:
        words = text.split()
        scene.restore()
        wanted = scene.run(words)
        yield from unlike(text, (wanted[0], wanted[2], says in (None, wanted[1])), (0, "", True))
        files = scene.files()
        for place, word in enumerate(words):
            for way in WAYS if word in scene.kept and word not in ("j", "s", "m") and place else ():
                scene.restore()
                yield from unlike(f"{text}, {word} by {way}", given_by_pipe(scene, words, place, way), wanted)
                yield from unlike(f"files after {text}, {word} by {way}", scene.files() == files, True)


def check_no_files(scene, _kills):
    """A device or a FIFO in a journal's place is no journal: it isn't made again, and no command continues with it"""
    os.mkfifo(scene.path / "pipe")
    scene.own(scene.path / "pipe")
    before = scene.names()
    for journal in ("/dev/null", "pipe"):
        for words in ("init-log {} 32473.1 2 9", f"init-cosigner {{}} {COSIGNER} {LOG} 5 4 secret", "mirror-init {} 32473.1"):
            name = words.split()[0]
            wanted = (7, "", f"mtc: {name}: {journal}: Exists\n")
            yield from unlike(f"{name} {journal}", scene.run(words.format(journal), seconds=AWAITED), wanted)
        for words in ("checkpoint {}", "issue {} r", "tile {}", "export {}", "cosign {} part", "advance {} forward", "child {}",
                      "tile-anew {}", "mirror-take {} entries", "mirror-tile {}", "mirror-advance s {} 4", "mirror-cosign {} m 0 4"):
            name = words.split()[0]
            yield from unlike(f"{name} {journal}", scene.run(words.format(journal), seconds=AWAITED), failed(name, journal))
    yield from unlike("the folder", scene.names(), before)
    yield from unlike("the FIFO", stat.S_ISFIFO((scene.path / "pipe").stat().st_mode), True)
