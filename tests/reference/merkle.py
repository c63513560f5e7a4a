"""Merkle trees over SHA-256 (RFC 9162, section 2.1), their subtrees and proofs, by docs/FORMATS.md, "Tree hash"."""

import hashlib
from functools import lru_cache

from .fault import Fault

# The tree hash of no entries.
NO_ENTRIES = hashlib.sha256().digest()


def leaf(entry):
    return hashlib.sha256(b"\0" + entry).digest()


def pair(left, right):
    return hashlib.sha256(b"\1" + left + right).digest()


def split_of(size):
    """The largest power of two below a size (2.1.1)."""
    return 1 << (size - 1).bit_length() - 1


def is_subtree(start, end):
    """Whether an interval is a subtree: it holds entries, and starts where a tree of its height can."""
    return start < end and start % (1 << (end - start - 1).bit_length()) == 0


def evaluated(leaf_hash, index, start, end, path):
    """The hash that an inclusion path gives the subtree, for a leaf hash at this index (2.1.3.2)."""
    if not is_subtree(start, end):
        raise Fault("BadSubtree")
    if not start <= index < end:
        raise Fault("Outside")
    value = climbed(leaf_hash, index - start, end - start, path)
    if value is None:
        raise Fault("WrongLength")
    return value


def climbed(value, index, size, path):
    """The same in a tree of so many leaves; none where the path has another length."""
    if size == 1 or not path:
        return value if size == 1 and not path else None
    split, (*below, beside) = split_of(size), path
    if index < split:
        inner = climbed(value, index, split, below)
        return inner and pair(inner, beside)
    inner = climbed(value, index - split, size - split, below)
    return inner and pair(beside, inner)


def opened(node, start, end, first, last, proof, known=True):
    """The hashes of the subtree from `start` up to `end` and of the one from `first` up to `last`, by a consistency proof.

    None where the proof has another length. With `known` the subtree's hash is `node`; else it stands in the proof
    (2.1.4.2, and the draft).
    """
    if (start, end) == (first, last):
        hashes = [node, *proof] if known else proof
        return (hashes[0], hashes[0]) if len(hashes) == 1 else None
    if not proof:
        return None
    split, (*below, beside) = first + split_of(last - first), proof
    if end <= split:
        inner = opened(node, start, end, first, split, below, known)
        return inner and (inner[0], pair(inner[1], beside))
    if split <= start:
        inner = opened(node, start, end, split, last, below, known)
        return inner and (inner[0], pair(beside, inner[1]))
    inner = opened(node, split, end, split, last, below, False)
    return inner and (pair(beside, inner[0]), pair(beside, inner[1]))


def is_consistent(start, end, node, size, root, proof):
    """Whether a proof shows that a subtree with this hash is part of the list of this size and root."""
    fits = is_subtree(start, end) and end <= size
    return fits and opened(node, start, end, 0, size, proof) == (node, root)


class List:
    """The plain list of a log's entries: the hashes of all full subtrees, level by level."""

    def __init__(self, entries):
        self.rows = [[leaf(entry) for entry in entries]]
        while len(self.rows[-1]) > 1:
            row = self.rows[-1]
            self.rows.append([pair(row[at], row[at + 1]) for at in range(0, len(row) - 1, 2)])

    def hash(self, start, end):
        """The tree hash of the entries from `start` up to `end`, which are a subtree (2.1.1)."""
        level = (end - start).bit_length() - 1
        if end - start == 1 << level:
            return self.rows[level][start >> level]
        split = start + split_of(end - start)
        return pair(self.hash(start, split), self.hash(split, end))

    def path(self, index, start, end):
        """The inclusion path of an entry in such a subtree (2.1.3.1)."""
        if end - start == 1:
            return []
        split = start + split_of(end - start)
        if index < split:
            return [*self.path(index, start, split), self.hash(split, end)]
        return [*self.path(index, split, end), self.hash(start, split)]

    def proof(self, start, end, first, last, known=True):
        """The consistency proof of the subtree from `start` up to `end` in the one from `first` up to `last`.

        With `start` and `first` 0 it is that of the first entries (2.1.4.1).
        """
        if (start, end) == (first, last):
            return [] if known else [self.hash(start, end)]
        split = first + split_of(last - first)
        if end <= split:
            return [*self.proof(start, end, first, split, known), self.hash(split, last)]
        if split <= start:
            return [*self.proof(start, end, split, last, known), self.hash(first, split)]
        return [*self.proof(split, end, split, last, False), self.hash(first, split)]


@lru_cache(maxsize=64)
def kept(entries):
    return List(entries)


def of(items):
    """The list of the entries of items, each of which has a key beside it."""
    return kept(tuple(text for text, _ in items))


def root(items):
    """The tree hash of the entries of items (2.1.1)."""
    return of(items).hash(0, len(items)) if items else NO_ENTRIES


def cover(start, end):
    """The subtrees that cover the entries from `start` up to `end`, one or two (the draft, arbitrary intervals)."""
    if end - start == 1:
        return [(start, end)]
    last = end - 1
    below = (1 << (start ^ last).bit_length() - 1) - 1
    middle = last & ~below
    return [(start & ~((1 << (~start & below).bit_length()) - 1), middle), (middle, end)]
