"""Landmarks and their list, by docs/FORMATS.md, "Landmark list", and docs/COMMANDS.md, "trust-landmarks"."""

import re
from typing import NamedTuple

from . import merkle
from .arguments import MOST
from .fault import Fault


class Landmarks(NamedTuple):
    """The number of the newest landmark, how many are active, and the sizes of these and of the one before, newest first."""

    newest: int
    active: int
    sizes: list

    def subtrees(self):
        """Those of the active landmarks, from the oldest on."""
        rising = self.sizes[::-1]
        return [span for before, size in zip(rising, rising[1:]) for span in merkle.cover(before, size)]


def of_log(marks, most):
    """The landmarks of a log with landmarks at these sizes, of which so many may be active."""
    active = min(len(marks), most)
    return Landmarks(len(marks), active, [0, *marks][::-1][:active + 1])


def covering(marks, most, index):
    """The subtree that an active landmark has for an entry."""
    number = next((number for number, size in enumerate(marks) if size > index), None)
    if number is None or number < len(marks) - most:
        raise Fault("NotCovered")
    return next(span for span in merkle.cover([0, *marks][number], marks[number]) if span[0] <= index < span[1])


def text_of(landmarks):
    return [f"{landmarks.newest} {landmarks.active}", *map(str, landmarks.sizes)]


def numbers(line, count):
    """So many numbers in decimal that a space parts; none of another line."""
    words = line.split(b" ")
    fits = len(words) == count and all(re.fullmatch(b"0|[1-9][0-9]{0,18}", word) for word in words)
    found = [int(word) for word in words] if fits else None
    return found if found and max(found) <= MOST else None


def size_at(lines, place, landmark):
    """The size of this landmark in a line."""
    found = numbers(lines[place], 1) if place < len(lines) else None
    if not found or landmark == 0 and found != [0]:
        raise Fault("BadLine", place)
    return found[0]


def read(text, most, count):
    """The landmarks of a list, of which so many may be active, of a log with so many entries."""
    *lines, rest = text.split(b"\n")
    head = numbers(lines[0], 2) if lines else None
    if not head:
        raise Fault("BadLine", 0)
    newest, active = head
    if active > min(most, newest):
        raise Fault("TooManyActive")
    sizes = []
    for place in range(1, active + 2):
        size = size_at(lines, place, newest - place + 1)
        if sizes and size >= sizes[-1]:
            raise Fault("NotFalling", place)
        sizes.append(size)
    if rest or len(lines) > active + 2:
        raise Fault("BadLine", active + 2)
    if sizes[0] > count:
        raise Fault("BeyondLog")
    return Landmarks(newest, active, sizes)


def tables(landmarks, items):
    """The tables of a store that trusts the subtrees of the active landmarks."""
    log = merkle.of(items)
    return "".join(f'[[subtree]]\nstart = {start}\nend = {end}\nhash = "{log.hash(start, end).hex()}"\n\n'
                   for start, end in landmarks.subtrees())
