#!/usr/bin/env python3
"""Tiles logs of many sizes over real files, and compares what the commands then write with what they wrote before, and with
the plain list of the log's entries: roots, paths and proofs, and each byte of the file of tiles. Then it spoils that file, and
`tile-anew` writes it again; and `tile` and `tile-anew` are killed at random times.

Prints a line for each size and each check, and below it what is wrong.
Usage: tests/tiled_log.py [KILLS [SIZE ..]]      100 kills, and the sizes of SIZES, if nothing is said. The gate takes 257 alone;
       before a release it is run with nothing said, since only 65,536 entries fill a tile of the next level
"""

import random
import sys
import time
from functools import partial

from cosigned_log import leaves_of
from files.folder import Folder, unlike
from harness import OfLines, program_of, run
from hostile.changes import pieces
from reference.proof import vector

# About the ends of the first tiles, and about the first one of the next level.
SIZES = [255, 256, 257, 511, 512, 65535, 65536, 65537]
TILE = 8192
# Of a log of more entries so many places are tried, and not each.
PLACES = 40
ID = bytes.fromhex("0481fd5901")


def tiles_of(leaves, size):
    """What a file holds of the full tiles of so many entries, and the level and place of each tile."""
    found = {}
    for level in range(3):
        for place in range(size // 256 ** (level + 1)):
            number = [place + place // 256 + place // 65536, 256 * (place + 1) + place + place // 256,
                      65792 * (place + 1) + place][level]
            found[number] = (level, place, b"".join(leaves.rows[8 * level][256 * place:256 * (place + 1)]))
    return [found[number] for number in range(len(found))]


def hashes(some):
    return vector(b"".join(some))


def said(folder, *words):
    """What a command writes to standard output; it has to end with status 0."""
    status, out, err = folder.run(words)
    return out.encode("latin-1") if status == 0 else f"{' '.join(words)}: {status} {err}".encode()


def places_of(size):
    """Each place of a small log, and some of a large one, those about its tiles among them."""
    if size < 1000:
        return range(1, size)
    ends = [1, 2, 255, 256, 257, 511, 512, 65279, 65280, size - 2, size - 1]
    return sorted({*ends, *random.sample(range(1, size), PLACES)})


def written(folder, size):
    """What the commands that ask for nodes write: by a name, their bytes."""
    found = {"checkpoint": said(folder, "checkpoint", "j")}
    for index in places_of(size):
        found["cert", index] = said(folder, "cert", "j", str(index), "0", str(size), "none")
        found["consist", index] = said(folder, "consist", "j", str(index), str(size))
    return found


def in_list(leaves, size, found):
    """What differs of these bytes and the list."""
    root = leaves.hash(0, size)
    yield from unlike("checkpoint", found["checkpoint"], f"size {size}\nroot {root.hex()}\n".encode())
    for command, index in (name for name in found if name != "checkpoint"):
        text, end = found[command, index], size.to_bytes(8, "big")
        if command == "consist":
            wanted = ID + end + root + hashes(leaves.proof(0, index, 0, size))
        else:
            text = pieces(text)[2][-len(hashes(leaves.path(index, 0, size))) - 18:]
            wanted = bytes(8) + end + hashes(leaves.path(index, 0, size)) + bytes(2)
        yield from unlike(f"{command} {index}", text, wanted)


def check_size(folder, size):
    """a log of so many entries, which is left tiled"""
    random.seed(size)
    (folder.path / "none").write_bytes(b"")
    folder.long_log(size)
    folder.notes.append(f"{size} entries")
    leaves = leaves_of(said(folder, "entries", "j", str(size)))
    before, full = written(folder, size), size // 256 * 256
    nothing = (4, "", "mtc: tile: NothingNew\n")
    yield from unlike("tile", folder.run(["tile", "j"]), (0, f"tiled {full}\n", "") if full else nothing)
    yield from unlike("a second tile", folder.run(["tile", "j"]), nothing)
    wanted = b"".join(tile for _, _, tile in tiles_of(leaves, full))
    yield from unlike("the file of tiles is that of the list", folder.bytes("j.tiles") == wanted, True)
    random.seed(size)
    after = written(folder, size)
    yield from unlike("what was written and is written over tiles is the same", before == after, True)
    yield from in_list(leaves, size, after)
    yield from spoiled(folder, tiles_of(leaves, full), before["checkpoint"])


def changes(tiles):
    """Other files of tiles, and the first bad tile of each: none where the log opens."""
    whole = b"".join(tile for _, _, tile in tiles)
    yield whole + b"\0", None
    yield whole + random.randbytes(TILE), None
    yield b"", 0
    last, next_level = len(tiles) - 1, [number for number, (level, _, _) in enumerate(tiles) if level > 0][:1]
    for number in sorted({0, last, last // 2, *next_level}):
        yield whole[:number * TILE], number
        yield whole[:(number + 1) * TILE - 1], number
        for byte in (0, random.randrange(TILE), TILE - 1):
            place = number * TILE + byte
            yield whole[:place] + bytes([whole[place] ^ 1]) + whole[place + 1:], number


def spoiled(folder, tiles, checkpoint):
    """What is wrong where the file of tiles is another one."""
    journal, whole = folder.bytes(), folder.bytes("j.tiles")
    for text, bad in changes(tiles) if tiles else ():
        (folder.path / "j.tiles").write_bytes(text)
        line = bad is not None and "mtc: checkpoint: j.tiles: BadTile {} {}\n".format(*tiles[bad][:2])
        wanted = (0, checkpoint.decode(), "") if bad is None else (2, "", line)
        yield from unlike(f"{len(text)} bytes, bad tile {bad}", folder.run(["checkpoint", "j"]), wanted)
        kept = folder.bytes("j.tiles") == text and folder.bytes() == journal
        yield from unlike("both files stay", kept, True)
        if bad is not None or text != whole:
            yield from rebuilt(folder, len(whole), f"{len(text)} bytes, bad tile {bad}", whole + text[len(whole):])
    (folder.path / "j.tiles").unlink()
    yield from rebuilt(folder, len(whole), "no file", whole)
    yield from unlike("the journal stays", folder.bytes() == journal, True)


def rebuilt(folder, length, what, wanted):
    """What is wrong with what `tile-anew` makes of the file, of which the tiles have so many bytes."""
    entries = 256 * sum(1 for number in range(length // TILE) if number % 257 != 256)
    says = (0, f"tiled {entries}\n", "") if length else (4, "", "mtc: tile-anew: NothingNew\n")
    yield from unlike(f"tile-anew over {what}", folder.run(["tile-anew", "j"]), says)
    yield from unlike(f"the tiles after {what}", folder.bytes("j.tiles") == wanted, True)


def one_tile(folder):
    folder.long_log(1024)
    began = time.monotonic()
    folder.run(["tile", "j"])
    return time.monotonic() - began


def check_kills(folder, kills):
    """`tile` and `tile-anew` are killed at random times: the log opens each time with its root, and is tiled then or by the next
    `tile`; what `tile-anew` left undone the next one does"""
    span, reported, kept, cut = sorted(one_tile(folder) for _ in range(5))[2], 0, 0, 0
    root = folder.run(["checkpoint", "j"])
    for number in range(kills):
        folder.long_log(1024)
        process = folder.start(["tile", "j"])
        time.sleep(random.uniform(0, span))
        process.kill()
        line = process.communicate()[0].decode()
        begun = (folder.path / "j.tiles").exists()
        yield from unlike(f"checkpoint after kill {number}", folder.run(["checkpoint", "j"]), root)
        again = folder.run(["tile", "j"])
        if again == (4, "", "mtc: tile: NothingNew\n"):
            kept += 1
        else:
            yield from unlike(f"tile after kill {number}", again, (0, "tiled 1024\n", ""))
            yield from unlike(f"what was said before kill {number}", line, "")
            cut += begun
        whole = folder.bytes("j.tiles")
        (folder.path / "j.tiles").write_bytes(whole[:random.randrange(len(whole))])
        process = folder.start(["tile-anew", "j"])
        time.sleep(random.uniform(0, span))
        process.kill()
        process.communicate()
        yield from unlike(f"tile-anew after kill {number}", folder.run(["tile-anew", "j"]), (0, "tiled 1024\n", ""))
        yield from unlike(f"the tiles after kill {number}", folder.bytes("j.tiles") == whole, True)
        reported += line == "tiled 1024\n"
        yield from unlike(f"checkpoint over tiles {number}", folder.run(["checkpoint", "j"]), root)
        # So that some three of ten end, however long a `tile` takes by now.
        span = min(span * (0.8 if line else 1.1), 10)
    # Of many some are cut in the middle; of few at least one has to come before the record.
    yield from unlike("a kill came before the record, and of 30 one in the middle", (kept < kills, cut > 0 or kills < 30), (True, True))
    folder.notes.append(f"{kills} times, {reported} acknowledged, {kept - reported} not acknowledged and there, {cut} cut in the middle")


def main(words):
    kills, sizes = int(words[0]) if words else 100, [int(word) for word in words[1:]] or SIZES
    make = partial(Folder, program_of([]))
    return run([*(OfLines(make, check_size, size) for size in sizes), OfLines(make, check_kills, kills)])


if __name__ == "__main__":
    sys.exit(main(sys.argv[1:]))
