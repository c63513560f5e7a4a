"""The arguments of a command, by docs/COMMANDS.md: those of its table of commands, and the first fault, by "Arguments"."""

import re
from pathlib import Path

from .fault import Fault
from .store import anchor_id

PAGE = Path(__file__).resolve().parents[2] / "docs/COMMANDS.md"
JOURNALS, IDS = ("J", "S", "M"), ("LOGID", "ID")
# The numbers that a word may be. Those that have no range here are at most the largest number.
MOST = 2**63 - 1
NUMBERS = {**dict.fromkeys(("INDEX", "SIZE", "OLD", "NEW", "START", "END", "FIRST", "LAST", "NUMBER"), range(MOST + 1)),
           **dict.fromkeys(("HEIGHT", "TOP", "LOW"), (5, 10)), "WIDTH": (1, 2, 4, 8), "MAXACTIVE": range(1, 10_001),
           "LIMIT": range(2, 16_777_217), "NOW": range(253_402_300_800)}


def rows():
    """The rows of the page's table of commands: the command's words, what it does, and what it prints."""
    table = PAGE.read_text().split("\n## ")[0]
    return re.findall(r"^\| `([a-z][^`]*)` \| (.*) \| (.*) \|$", table, re.M)


# The words of each command, by its name.
WANTED = {name: words for name, *words in (row[0].split() for row in rows())}


def number(word):
    """The number of a word in decimal, without a sign or leading zeros; none of another word."""
    return int(word) if re.fullmatch("0|[1-9][0-9]{0,18}", word) else None


def first(name, wanted, is_bad):
    """The fault of the first pair of what is wanted and given that is bad."""
    for place, pair in enumerate(wanted, 1):
        if is_bad(*pair):
            raise Fault(name, place)


def is_no_number(kind, word):
    value = number(word) if kind in NUMBERS else None
    return kind in NUMBERS and (value is None or value not in NUMBERS[kind])


def check(name, given):
    """That these words may follow the name of a command."""
    wanted = WANTED[name]
    first("BadWord", enumerate(given), lambda _, word: not word or word.startswith("-"))
    if len(given) != len(wanted):
        raise Fault("WrongCount", f"{len(given)} {len(wanted)}")
    pairs = [*zip(wanted, given, strict=True)]
    first("BadNumber", pairs, is_no_number)
    first("BadId", pairs, lambda kind, word: kind in IDS and anchor_id(word) is None)
    first("TilesName", pairs, lambda kind, word: kind in JOURNALS and word.endswith(".tiles"))
    journals = [word for kind, word in pairs if kind in JOURNALS]
    if len(set(journals)) < len(journals):
        raise Fault("BadWord", 1)


def line_of_fault(words):
    """What stands on the line after `mtc: ` where words are no command in its form; none of a command."""
    try:
        texts = [word.decode() if isinstance(word, bytes) else word for word in words]
    except UnicodeDecodeError:
        return "NotUtf8"
    if not texts:
        return "NoCommand"
    if texts[0] not in WANTED:
        return "UnknownCommand"
    try:
        check(texts[0], texts[1:])
    except Fault as fault:
        return f"{texts[0]}: {fault}"
    return None


def inputs(words):
    """The input files of a command, each with the word of the page that it stands for."""
    return [(kind, word) for kind, word in zip(WANTED[words[0]], words[1:]) if kind not in (*JOURNALS, *IDS, *NUMBERS)]
