"""A log in the files of transparency logs, by tools/publish.py."""

import base64
import fcntl
import os
import shutil
from pathlib import Path

from reference import journal
from reference.merkle import List

from .scene import LeftOut, differ, lacks, refused

SIZES = [1, 2, 255, 256, 257, 511, 512, 600]
NAME = "log.example/1"
# Where Debian puts the package.
PACKAGES = Path("/usr/share/gocode/src/golang.org/x/mod/sumdb")


def prepare(scene, sizes):
    """Makes the log at each size: its entries and its checkpoint, as the program prints them."""
    for size in sizes:
        scene.log(f"j{size}", size)
        scene.mtc("checkpoint", f"j{size}", into=f"checkpoint{size}")
        scene.mtc("entries", f"j{size}", size, into=f"entries{size}")
    status, line, err = scene.tool("publish.py", "key", NAME, "key")
    if status:
        raise RuntimeError(err)
    (scene.path / "public").mkdir()
    return line.decode().strip()


def publish(scene, size, key="key", folder="public"):
    return scene.tool("publish.py", "log", f"entries{size}", f"checkpoint{size}", key, folder)


def files_in(folder):
    return {str(path.relative_to(folder)): path.read_bytes() for path in folder.rglob("*") if path.is_file()}


def wanted_files(entries):
    """What C2SP tlog-tiles asks for of these entries, less what is of earlier sizes."""
    def place(level, number, width):
        return f"tile/{level}/{number:03d}" + (f".p/{width}" if width < 256 else "")

    rows, found = List(entries).rows, {}
    for level in range(3):
        row = rows[8 * level] if 8 * level < len(rows) else []
        for begin in range(0, len(row), 256):
            part = row[begin:begin + 256]
            found[place(level, begin // 256, len(part))] = b"".join(part)
    for begin in range(0, len(entries), 256):
        part = entries[begin:begin + 256]
        found[place("entries", begin // 256, len(part))] = b"".join(len(one).to_bytes(2, "big") + one for one in part)
    return found


def entries_in(text):
    """The entries of a journal, from its records."""
    bodies = journal.bodies(text)
    return [bytes(2)] + [body[3:3 + int.from_bytes(body[1:3], "big")] for body in bodies if body[0] == 2]


def wrong_note(scene, text, size, verifier):
    """A note is name, size and root, an empty line, and a signature of these by the key that the verifier's line has."""
    body, signature = text.decode().split("\n\n")
    root = bytes.fromhex((scene.path / f"checkpoint{size}").read_text().split()[-1])
    yield from differ("the note", body, f"{NAME}\n{size}\n{base64.b64encode(root).decode()}")
    dash, name, signed = signature.rstrip("\n").split(" ")
    _, number, key = verifier.split("+", 2)
    yield from differ("its signature's line", (dash, name, base64.b64decode(signed)[:4].hex()), ("\u2014", NAME, number))
    scene.file("note", body + "\n")
    scene.file("signature", base64.b64decode(signed)[4:])
    public = bytes.fromhex("302a300506032b6570032100") + base64.b64decode(key)[1:]
    scene.file("public.der", public)
    ended = scene.ended("openssl", "pkeyutl", "-verify", "-pubin", "-keyform", "DER", "-inkey", "public.der", "-rawin",
                        "-in", "note", "-sigfile", "signature")
    yield from differ("its signature", ended[0], 0)


def check_published(scene):
    """publish writes the tiles, bundles and notes of a log as it grows, each once, and the full tiles are those that `tile` stores"""
    lacks("openssl")
    verifier, wanted, public = prepare(scene, SIZES), {}, scene.path / "public"
    for size in SIZES:
        ended, before = publish(scene, size), wanted.copy()
        wanted |= wanted_files(entries_in((scene.path / f"j{size}").read_bytes()))
        yield from differ(f"{size}: ended", ended, (0, f"published {size}: {len(wanted) - len(before)} files\n".encode(), ""))
        found = files_in(public)
        note = found.pop("checkpoint")
        yield from differ(f"{size}: names", sorted(found), sorted(wanted))
        yield from differ(f"{size}: bytes", [name for name in found if found[name] != wanted.get(name)], [])
    yield from wrong_note(scene, note, 600, verifier)
    times = {path: path.stat().st_mtime_ns for path in public.rglob("*")}
    yield from differ("again", publish(scene, 600), (0, b"published 600: 0 files\n", ""))
    yield from differ("times", {path: path.stat().st_mtime_ns for path in public.rglob("*")}, times)
    scene.mtc("tile", "j600")
    tiles = [(public / name).read_bytes() for name in ("tile/0/000", "tile/0/001")]
    yield from differ("the log's own tiles", (scene.path / "j600.tiles").read_bytes(), b"".join(tiles))
    yield from differ("the verifier's line", scene.tool("publish.py", "verifier", "key")[1].decode().strip(), verifier)
    yield from differ("the key's mode", (scene.path / "key").stat().st_mode & 0o777, 0o600)


def check_refused_to_publish(scene):
    """publish refuses another log, a fork, an older size, changed files and keys that are none, and leaves the checkpoint alone"""
    lacks("openssl")
    prepare(scene, [257, 300, 600])
    yield from differ("the first one", publish(scene, 300)[0], 0)
    public = scene.path / "public"
    before = files_in(public)

    def tries(what, ended, status, words):
        yield from refused(what, ended, status, words)
        yield from differ(f"{what}: files", files_in(public), before)

    yield from tries("an older size", publish(scene, 257), 4, "of 300 entries, and here are 257")
    # Another name in the first entry that has one.
    forked = (scene.path / "entries600").read_bytes().replace(b"a.example", b"b.example", 1)
    yield from wrong_inputs(scene, tries, forked)
    yield from tries("another name", other_key(scene), 3, "of the log 'log.example/1'")
    renamed = (scene.path / "key").read_bytes().replace(b"log.example/1", b"log.example/2")
    for text, words in ((b"", "no Ed25519 key"), (b"PRIVATE+KEY+a+00000000+AQ==\n", "no Ed25519 key"), (renamed, "its number isn't")):
        scene.file("bad", text)
        yield from tries(f"a key {text[:12]!r}", publish(scene, 600, "bad"), 2, words)
    yield from tries("no key", publish(scene, 600, "none"), 5, "none")
    yield from tries("a key that is there", scene.tool("publish.py", "key", NAME, "key"), 5, "File exists")
    yield from tries("a name with a blank", scene.tool("publish.py", "key", "a b", "new"), 1, "NAME is")
    yield from tries("no folder", publish(scene, 600, folder="none"), 5, "none")
    lock = os.open(public, os.O_RDONLY)
    fcntl.flock(lock, fcntl.LOCK_EX)
    yield from tries("another run", publish(scene, 600), 5, "")
    os.close(lock)
    # A bundle that can't be written: the checkpoint stays, although tiles are there already.
    (public / "tile/entries/002.p/88.new").mkdir(parents=True)
    yield from differ("a file that can't be written", publish(scene, 600)[0], 5)
    yield from differ("its checkpoint", (public / "checkpoint").read_bytes(), before["checkpoint"])
    (public / "tile/entries/002.p/88.new").rmdir()
    (public / "tile/entries/002.p/88.new").symlink_to(scene.file("elsewhere", "elsewhere"))
    yield from differ("then", publish(scene, 600)[0], 0)
    yield from differ("a link", ((scene.path / "elsewhere").read_bytes(), (public / "tile/entries/002.p/88").is_symlink()),
                      (b"elsewhere", False))
    before = files_in(public)
    changed = bytearray(before["tile/0/001"])
    changed[0] ^= 1
    before["tile/0/001"] = scene.file("public/tile/0/001", bytes(changed)).read_bytes()
    yield from tries("a changed tile", publish(scene, 600), 3, "tile/0/001: it has other bytes")


def other_key(scene):
    scene.tool("publish.py", "key", "other.example", "other")
    return publish(scene, 600, "other")


def wrong_inputs(scene, tries, forked):
    """Entries that are cut, of another size or forked, and checkpoints of other forms."""
    whole, note = (scene.path / "entries600").read_bytes(), (scene.path / "checkpoint600").read_bytes()
    for what, entries, checkpoint, words in (
            ("cut entries", whole[:-1], note, "it is cut"), ("no entries", b"", note, "not the 600 entries"),
            ("entries of 300", (scene.path / "entries300").read_bytes(), note, "not the 600 entries"),
            ("a checkpoint of 300", whole, (scene.path / "checkpoint300").read_bytes(), "not the 300 entries"),
            ("forked entries", forked, note, "not the 600 entries"),
            ("another root", whole, note.translate(bytes.maketrans(b"ab", b"ba")), "not the 600 entries"),
            ("no checkpoint", whole, b"size 600\n", "not the two lines"),
            ("a size with a zero", whole, note.replace(b" 6", b" 06", 1), "not the two lines")):
        scene.file("entries9", entries)
        scene.file("checkpoint9", checkpoint)
        yield from tries(what, publish(scene, 9), 2, words)
    leaves = List(entries_of(forked))
    scene.file("entries9", forked)
    scene.file("checkpoint9", f"size 600\nroot {leaves.hash(0, 600).hex()}\n")
    yield from tries("a fork", publish(scene, 9), 3, "this log has forked")


def entries_of(text):
    found, at = [], 0
    while at < len(text):
        end = at + 2 + int.from_bytes(text[at:at + 2], "big")
        found.append(text[at + 2:end])
        at = end
    return found[0::2]


def check_proved_by_go(scene):
    """Go's sumdb/tlog and sumdb/note prove each entry of what publish writes, at each size, and that each older checkpoint fits"""
    lacks("go", "openssl")
    if not (PACKAGES / "tlog").is_dir():
        raise LeftOut("Go's package sumdb/tlog isn't here (Debian's golang-golang-x-mod-dev)")
    peer = scene.built_in_go("peer", Path(__file__).parent / "log/main.go", note=[PACKAGES / "note/note.go"],
                             tlog=[PACKAGES / f"tlog/{name}.go" for name in ("tlog", "tile", "note")])
    verifier, public, old = prepare(scene, SIZES), scene.path / "public", []
    for size in SIZES:
        publish(scene, size)
        root = (scene.path / f"checkpoint{size}").read_text().split()[-1]
        wanted = f"proved {size} {root}\n" + "".join(f"follows {one}\n" for one in SIZES if one < size)
        yield from differ(f"{size}", scene.ended(peer, "public", verifier, *old), (0, wanted.encode(), ""))
        old.append(shutil.copy(public / "checkpoint", scene.path / f"old{size}"))
    # The peer sees what is changed.
    for name in ("tile/0/000", "tile/entries/001", "tile/1/000.p/2", "checkpoint"):
        text = (public / name).read_bytes()
        scene.file(f"public/{name}", text[:20] + bytes([text[20] ^ 1]) + text[21:])
        yield from differ(f"a changed {name}", scene.ended(peer, "public", verifier)[0], 1)
        scene.file(f"public/{name}", text)
