#!/usr/bin/env python3
"""Puts a log into a folder as transparency logs publish theirs (C2SP tlog-tiles), for any static server or object store:

    checkpoint                   size and root as a signed note (C2SP tlog-checkpoint, signed-note), by an Ed25519 key
    tile/LEVEL/N[.p/WIDTH]       256 hashes each, or the WIDTH of the last one of its level
    tile/entries/N[.p/WIDTH]     256 entries each, a u16 length and the entry; the keys stand in the file ENTRIES alone

It reads what `mtc entries LOG SIZE` and `mtc checkpoint LOG` print, and opens no journal. It computes the root of these entries, and
that of as many as the folder's own checkpoint has, before it writes: so a folder never goes back, nor on to another log. A file that
is there stays as it is, and one with other bytes is refused. Each file appears whole, and the checkpoint last, once all others are
on the disk. A second run writes nothing. Nothing is removed: `.p` folders beside a full tile may be, by whoever knows their readers.

`more` takes the later entries alone, as `mtc entries-from LOG FIRST SIZE` writes them, and costs what these cost. It reads the last tile
of each level and the last bundle in the folder, which have to lead to the root in its checkpoint, and continues from there: so it
writes the same bytes. Of the earlier files it reads no other; `log` compares all.

It is tested, and not proved. The note says that the holder of the key vouches for size and root; it is no cosigner's signature, and
`mtc` doesn't read it. A note without a signature is none, so a key is needed; `key` makes one by the program `openssl`, version 3.

Usage: tools/publish.py key NAME KEY                       makes KEY for the log NAME, as log.example/1, and prints the verifier's
       tools/publish.py verifier KEY                       prints the verifier's again
       tools/publish.py log ENTRIES CHECKPOINT KEY FOLDER  publishes; FOLDER has to be there
       tools/publish.py more FIRST ENTRIES CHECKPOINT KEY FOLDER  publishes the entries after those that FOLDER has
Status: 0 done, 1 arguments, 2 a file isn't in its form, 3 the folder has another log, a forked one, or a changed file, 4 the folder
       is ahead of CHECKPOINT, 5 the system failed, or another run has the folder.
Example: mtc checkpoint log >c && mtc entries log "$(sed -n 's/^size //p' c)" >e && tools/publish.py log e c log.key public
"""

import base64
import binascii
import fcntl
import hashlib
import itertools
import os
import re
import subprocess
import sys
import tempfile
from pathlib import Path

WIDTH, HASH, HEIGHT = 256, 32, 8
NAME = re.compile(r"[!-*,-~]{1,200}")
CHECKPOINT = re.compile(rb"size ([1-9]\d{0,18})\nroot ([0-9a-f]{64})\n")
ED25519 = b"\1"
PRIVATE_KEY = bytes.fromhex("302e020100300506032b657004220420")  # PKCS#8 (RFC 8410) before the 32 bytes of a key


class Failed(Exception):
    """Why nothing is published, with the status."""

    def __init__(self, status, why):
        super().__init__(why)
        self.status = status


# ---- files


def sync(folder):
    number = os.open(folder, os.O_RDONLY | os.O_DIRECTORY)
    try:
        os.fsync(number)
    finally:
        os.close(number)


def write(path, data):
    """Puts bytes into a file, which appears whole or not at all."""
    new = path.with_name(path.name + ".new")
    new.unlink(missing_ok=True)  # of a run that was stopped; it is never followed, where it is a link
    with open(new, "xb") as file:
        file.write(data)
        file.flush()
        os.fsync(file.fileno())
    os.replace(new, path)


def has(path, data):
    """Whether a file has these bytes; none where it isn't there."""
    try:
        return path.read_bytes() == data
    except FileNotFoundError:
        return None


# ---- the note and its key


def openssl(words, given):
    try:
        return subprocess.run(["openssl", *words], input=given, capture_output=True, check=True, timeout=60).stdout
    except subprocess.CalledProcessError as why:
        raise Failed(5, f"openssl {words[0]}: {ascii(why.stderr.decode('utf-8', 'replace').strip())}") from None
    except subprocess.TimeoutExpired:
        raise Failed(5, f"openssl {words[0]} gives no answer") from None


class Key:
    """An Ed25519 key of a note, as the name that it signs for and its 32 secret bytes."""

    def __init__(self, name, secret):
        self.name, self.secret = name, secret
        self.der = PRIVATE_KEY + secret
        self.public = openssl(["pkey", "-inform", "DER", "-pubout", "-outform", "DER"], self.der)[-HASH:]
        self.number = hashlib.sha256(name.encode() + b"\n" + ED25519 + self.public).digest()[:4]

    @classmethod
    def read(cls, path):
        words = path.read_text("ascii", "replace").strip().split("+", 4)
        try:
            secret = base64.b64decode(words[4], validate=True)
            if words[:2] != ["PRIVATE", "KEY"] or len(secret) != HASH + 1 or secret[:1] != ED25519 or not NAME.fullmatch(words[2]):
                raise ValueError
            key = cls(words[2], secret[1:])
        except (IndexError, ValueError):
            raise Failed(2, f"{path}: no Ed25519 key of a note") from None
        if words[3] != key.number.hex():
            raise Failed(2, f"{path}: its number isn't the one of its name and key")
        return key

    def texts(self):
        """The line of the secret key, and of the verifier's."""
        begin = f"{self.name}+{self.number.hex()}+"
        return ("PRIVATE+KEY+" + begin + base64.b64encode(ED25519 + self.secret).decode(),
                begin + base64.b64encode(ED25519 + self.public).decode())

    def signed(self, text):
        """The note: the text, an empty line and the signature."""
        with tempfile.NamedTemporaryFile() as file:
            file.write(text.encode())
            file.flush()
            signature = openssl(["pkeyutl", "-sign", "-rawin", "-keyform", "DER", "-inkey", "/dev/stdin", "-in", file.name], self.der)
        return f"{text}\n\u2014 {self.name} {base64.b64encode(self.number + signature).decode()}\n".encode()


def make_key(name, path):
    if not NAME.fullmatch(name):
        raise Failed(1, "NAME is 1 to 200 signs from ! to ~ without +, as log.example/1")
    secret, public = Key(name, os.urandom(HASH)).texts()
    number, new = tempfile.mkstemp(prefix=".key-", dir=path.parent)
    try:
        with os.fdopen(number, "w") as file:
            file.write(secret + "\n")
            file.flush()
            os.fsync(file.fileno())
        os.link(new, path)  # which never replaces a key
    finally:
        os.unlink(new)
    sync(path.parent)
    print(public)


# ---- the log


def entries_of(path):
    """The entries of an entries file, without their keys."""
    with open(path, "rb") as file:
        def part():
            begin = file.read(2)
            data = file.read(int.from_bytes(begin, "big")) if len(begin) == 2 else b""
            if begin and (len(begin) < 2 or len(data) < int.from_bytes(begin, "big")):
                raise Failed(2, f"{path}: it is cut")
            return data if begin else None

        while (entry := part()) is not None:
            if part() is None:
                raise Failed(2, f"{path}: it is cut")
            yield entry


def rows_of(row):
    """The hashes of all full subtrees over a row of hashes, a row of bytes for each level."""
    rows = []
    while row:
        rows.append(bytes(row))
        above = bytearray()
        for at in range(0, len(row) - 2 * HASH + 1, 2 * HASH):
            above += hashlib.sha256(b"\1" + row[at:at + 2 * HASH]).digest()
        row = above
    return rows


class Tree:
    """A tree by its right edge: for each level of tiles the hashes of the last tile, as long as that isn't full."""

    def __init__(self):
        self.size, self.edge = 0, []

    @classmethod
    def read(cls, folder, size):
        """The tree of so many entries, by the files of a folder."""
        tree = cls()
        tree.size = size
        while count := size >> HEIGHT * len(tree.edge):
            width = count % WIDTH
            path = folder / tile_path(len(tree.edge), count // WIDTH, width)
            tree.edge.append(bytearray(path.read_bytes() if width else b""))
            if len(tree.edge[-1]) != HASH * width:
                raise Failed(3, f"{path}: not {width} hashes")
        return tree

    def add(self, entry):
        """Adds an entry; yields each tile that is full then."""
        self.size += 1
        node, level = hashlib.sha256(b"\0" + entry).digest(), 0
        while node:
            if level == len(self.edge):
                self.edge.append(bytearray())
            self.edge[level] += node
            if len(self.edge[level]) < HASH * WIDTH:
                return
            tile, self.edge[level] = bytes(self.edge[level]), bytearray()
            yield tile_path(level, (self.size >> HEIGHT * (level + 1)) - 1, WIDTH), tile
            node, level = rows_of(tile)[HEIGHT], level + 1

    def rest(self):
        """The last tiles, which aren't full."""
        for level, row in enumerate(self.edge):
            if row:
                yield tile_path(level, self.size >> HEIGHT * (level + 1), len(row) // HASH), bytes(row)

    def root(self):
        """The root: of the peaks, from the last one on."""
        found = None
        for row in self.edge:
            for peak in (one[-HASH:] for one in rows_of(row) if len(one) // HASH % 2):
                found = peak if found is None else hashlib.sha256(b"\1" + peak + found).digest()
        return found


def tile_path(level, number, width):
    """Where a tile or a bundle stands: three digits a folder."""
    digits = f"{number % 1000:03d}"
    while number >= 1000:
        number //= 1000
        digits = f"x{number % 1000:03d}/{digits}"
    return f"tile/{level}/{digits}" + (f".p/{width}" if width < WIDTH else "")


def bundles_of(entries, first, begun):
    """Each bundle of entries from an index on, of which the first one begins with some that are begun."""
    bundle, number = begun, first // WIDTH
    for entry in entries:
        bundle.append(len(entry).to_bytes(2, "big") + entry)
        if len(bundle) == WIDTH:
            yield tile_path("entries", number, WIDTH), b"".join(bundle)
            bundle, number = [], number + 1
    if bundle:
        yield tile_path("entries", number, len(bundle)), b"".join(bundle)


def begun_bundle(folder, tree):
    """The entries of the last bundle of a folder, each with its length, if it isn't full."""
    if not (width := tree.size % WIDTH):
        return []
    path = folder / tile_path("entries", tree.size // WIDTH, width)
    data, found, at = path.read_bytes(), [], 0
    while at < len(data):
        end = at + 2 + int.from_bytes(data[at:at + 2], "big")
        found.append(data[at:end])
        at = end
    if b"".join(hashlib.sha256(b"\0" + one[2:]).digest() for one in found) != tree.edge[0]:
        raise Failed(3, f"{path}: not the entries of the tile beside it")
    return found


def published(note):
    """The name, size and root of the checkpoint that a folder has, or nothing."""
    try:
        lines = note.read_text("utf-8").split("\n")
        return lines[0], int(lines[1]), base64.b64decode(lines[2], validate=True)
    except FileNotFoundError:
        return None
    except (IndexError, UnicodeDecodeError, binascii.Error, ValueError):
        raise Failed(3, f"{note}: no checkpoint") from None


def forked(note, size):
    return Failed(3, f"{note}: its {size} entries aren't the first ones here: keep all files, this log has forked")


class Log:
    """What is published: the entries from the first one on that is read, the tree before them, and the tiles that they fill."""

    def __init__(self, path, first, tree, begun):
        self.path, self.first, self.tree, self.begun = path, first, tree, begun
        self.begins, self.tiles = tree.size, []

    def entries(self):
        """The entries that are new to the tree."""
        return itertools.islice(entries_of(self.path), self.begins - self.first, None)

    def read(self, old):
        """Adds the entries to the tree, and answers the root of the first so many of all."""
        found = self.tree.root() if old == self.begins else None
        for entry in self.entries():
            self.tiles.extend(self.tree.add(entry))
            if self.tree.size == old:
                found = self.tree.root()
        self.tiles.extend(self.tree.rest())
        return found

    def files(self):
        """Each tile and each bundle, full or not, of the entries that are read."""
        yield from self.tiles
        yield from bundles_of(self.entries(), self.begins, list(self.begun))


def started(entries, first, folder, note, old):
    """The log as it is before ENTRIES: nothing, or what the folder has."""
    if first is None:
        return Log(entries, 0, Tree(), [])
    if old[1] < first:
        raise Failed(2, f"{entries}: from {first} on, and {note} has {old[1]} entries")
    try:
        tree = Tree.read(folder, old[1])
        if old[1] and tree.root() != old[2]:
            raise Failed(3, f"{note}: the tiles beside it have another root")
        return Log(entries, first, tree, begun_bundle(folder, tree))
    except FileNotFoundError as why:
        raise Failed(3, f"{why.filename}: isn't there: publish all entries by `log`") from None


def read_log(entries, first, checkpoint, name, folder):
    """The log that is published, with its root, once it is known to be the checkpoint's and to continue the folder's."""
    if not entries.is_file():
        raise Failed(2, f"{entries}: no plain file; it is read more than once")
    match = CHECKPOINT.fullmatch(checkpoint.read_bytes())
    if not match:
        raise Failed(2, f"{checkpoint}: not the two lines of `mtc checkpoint`")
    size, root = int(match[1]), bytes.fromhex(match[2].decode())
    note = folder / "checkpoint"
    old = published(note) or (name, 0, None)
    log = started(entries, first, folder, note, old)
    old_root = log.read(old[1])
    if log.tree.size != size or log.tree.root() != root:
        # That it is an older checkpoint is no fault of ENTRIES.
        if first is None or old[1] <= size:
            beside = "" if first is None else f", after those of {note}, or the log has forked: `log` tells them apart"
            raise Failed(2, f"{entries}: not the {size} entries of {checkpoint}{beside}")
    if old[0] != name:
        raise Failed(3, f"{note}: of the log {ascii(old[0])}")
    if old[1] > size:
        raise Failed(4, f"{note}: of {old[1]} entries, and here are {size}")
    if old_root != old[2]:
        raise forked(note, old[1])
    return log, root


def publish(first, entries, checkpoint, key, folder):
    log, root = read_log(entries, first, checkpoint, key.name, folder)
    missing, folders = set(), {folder}
    for name, data in log.files():
        folders.update(place for place in (folder / name).parents if place.is_relative_to(folder))
        same = has(folder / name, data)
        if same is False:
            raise Failed(3, f"{folder / name}: it has other bytes")
        if same is None:
            missing.add(name)
    for name, data in log.files():
        if name in missing:
            (folder / name).parent.mkdir(parents=True, exist_ok=True)
            write(folder / name, data)
    # Of all files: a run that was stopped may have put some of them there, and synced no folder.
    for place in folders:
        sync(place)
    note = key.signed(f"{key.name}\n{log.tree.size}\n{base64.b64encode(root).decode()}\n")
    if not has(folder / "checkpoint", note):
        write(folder / "checkpoint", note)
        sync(folder)
    print(f"published {log.tree.size}: {len(missing)} files")


def main(words):
    try:
        if words[:1] == ["key"] and len(words) == 3:
            make_key(words[1], Path(words[2]))
        elif words[:1] == ["verifier"] and len(words) == 2:
            print(Key.read(Path(words[1])).texts()[1])
        elif words[:1] == ["log"] and len(words) == 5 or words[:1] == ["more"] and len(words) == 6 and words[1].isdigit():
            entries, checkpoint, key, folder = map(Path, words[-4:])
            first = int(words[1]) if words[0] == "more" else None
            lock = os.open(folder, os.O_RDONLY | os.O_DIRECTORY)
            fcntl.flock(lock, fcntl.LOCK_EX | fcntl.LOCK_NB)
            publish(first, entries, checkpoint, Key.read(key), folder)
        else:
            print("usage: publish.py key NAME KEY | verifier KEY | [log | more FIRST] ENTRIES CHECKPOINT KEY FOLDER", file=sys.stderr)
            return 1
        sys.stdout.flush()
    except Failed as why:
        print(f"publish: {why}", file=sys.stderr)
        return why.status
    except OSError as why:
        print(f"publish: {why}", file=sys.stderr)
        return 5
    return 0


if __name__ == "__main__":
    sys.exit(main(sys.argv[1:]))
