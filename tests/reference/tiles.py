"""The file of the tiles of a log, by docs/FORMATS.md, "The tiles of a log"."""

from . import merkle
from .fault import Fault

WIDTH, LEVELS = 256, 3
BYTES = 32 * WIDTH


def number(level, place):
    """Where a tile stands in the file, counted in tiles."""
    upper, most = place // WIDTH, place // WIDTH**2
    return (place + upper + most, WIDTH * (place + 1) + place + upper, (WIDTH**2 + WIDTH) * (place + 1) + place)[level]


def full(items, size):
    """The level, the place and the bytes of each tile that the first so many items fill, in the order of the file."""
    rows = merkle.of(items).rows
    named = [(level, place) for level in range(LEVELS) for place in range(size // WIDTH**(level + 1))]
    return [(level, place, b"".join(rows[8 * level][WIDTH * place:WIDTH * (place + 1)]))
            for level, place in sorted(named, key=lambda one: number(*one))]


def check(text, items, size):
    """That a file has the tiles that the first so many items fill."""
    for level, place, tile in full(items, size) if size else ():
        begin = BYTES * number(level, place)
        if text[begin:begin + BYTES] != tile:
            raise Fault("BadTile", f"{level} {place}")


def over(text, items, size):
    """The file with these tiles: what follows them is what followed them in a file that had more."""
    written = b"".join(tile for _, _, tile in full(items, size))
    return written + text[len(written):]
