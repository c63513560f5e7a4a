"""The tables of crates/test_tables: what its stdin asks, and what its stdout has to answer."""

import sys
from itertools import zip_longest
from os.path import commonprefix
from pathlib import Path

FOLDER = Path(__file__).resolve().parents[2] / "crates/test_tables"
SIGNATURES, CERTIFICATES = ("hss", "lms", "tree", "sign"), ("certificate", "judgement")
RUNS, LISTS = ("run", "each"), ("list",)
# How much is shown of two lines that differ.
COLUMNS = 100


def asked(kinds):
    """The lines of stdin of these kinds, each as its words."""
    lines = (FOLDER / "stdin").read_text().splitlines()
    return [words for line in lines if (words := line.split(" "))[0] in kinds]


def hexadecimal(word):
    """The bytes of a word; `-` is none."""
    return b"" if word == "-" else bytes.fromhex(word)


def count_of(words):
    """How many lines answer a line of stdin that asks for no list."""
    if words[0] == "sign":
        return 1 + len(words[5:])
    if words[0] == "each":
        return next(len(hexadecimal(word.split("=")[1])) for word in words[4:] if word.startswith(f"{words[1]}="))
    return 1 + len(hexadecimal(words[-1])) if words[0] in CERTIFICATES else 1


def answered(kinds):
    """The number of the first line of stdout that answers lines of these kinds, and all that do.

    Signatures come first, then certificates and runs; those of lists are all that are left.
    """
    found, begin = (FOLDER / "stdout").read_text().splitlines(), 0
    for group in (SIGNATURES, CERTIFICATES, RUNS):
        count = sum(map(count_of, asked(group)))
        if group == kinds:
            return begin + 1, found[begin:begin + count]
        begin += count
    return begin + 1, found[begin:]


def difference(line, found, made):
    """What two lines say from where they differ on; none is a line that isn't there."""
    found, made = found or "", made or ""
    place = max(len(commonprefix([found, made])) - COLUMNS // 2, 0)
    return "\n    ".join([f"line {line} from column {place + 1} on", found[place:][:COLUMNS], made[place:][:COLUMNS]])


def compare(kinds, made):
    """Says whether stdout has the lines that were made where it answers these kinds; the status of the script."""
    first, found = answered(kinds)
    lines = [(line, *pair) for line, pair in enumerate(zip_longest(found, made), first)]
    wrong = [difference(*line) for line in lines if line[1] != line[2]]
    if wrong or not made:
        both = "first that of crates/test_tables/stdout, then the one made here"
        print(f"wrong: {len(wrong)} lines; {both}", *wrong[:3], sep="\n    ")
        return 1
    print(f"ok: {len(made)} lines of crates/test_tables/stdout, from line {first} on, are those made here")
    return 0


def main(kinds, make, usage):
    """The script that prints what it makes, or with --compare compares it."""
    if sys.argv[1:] not in ([], ["--compare"]):
        sys.exit(usage)
    made = make()
    if sys.argv[1:]:
        return compare(kinds, made)
    print(*made, sep="\n")
    return 0
