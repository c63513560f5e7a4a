"""The ledger of tests/edits/tried.txt: which edits were refused, in which way, and what each answer stands on.

A line of it is written by tests/edits.py, and by nothing else. Here the lines are compared with what stands now.
"""

import re
from collections import namedtuple
from functools import cache

from .citations import CRATES
from .edited import EDITS, Edit, Sums, edits_of, with_edits
from .sources import ROOT, THEOREMS

LEDGER = EDITS / "tried.txt"
# What a line says: when the edit was tried, whether a search or a proof by hand refused it, of what kind the clause is, and the sums.
# Of kind public is a clause of the changed call itself, and called that of a call in it.
Line = namedtuple("Line", "day way clause sums logic")
WAYS, CLAUSES = ("search", "hand", "either"), ("public", "called", "private", "-")
PARTS = Sums("the edit", "the function that it changes", "a definition or a type that it stands on", "the contract of a call in it",
             "its proof by hand")
IN_THE_WAY = "its functions are laws: their bodies are empty, so that no edit can make one wrong"
OF_LAWS = ("byte_formats", "command_plans", "file_events", "mtc_headline", "mtc_laws", "mtc_plans")
WITHOUT_EDITS = {name: IN_THE_WAY for name in OF_LAWS}
WITHOUT_EDITS["example_auditor"] = "an example of which no edit was written yet"
MOST, MOST_IN_THE_GATE = 16, 4


@cache
def logic():
    """The kit's logic, as README names it."""
    return re.search(r"logic ([0-9a-f]{8})", (ROOT / "README.md").read_text())[1]


@cache
def edits():
    """All edits by name."""
    found = [Edit(CRATES[name], path) for name in with_edits() for path in edits_of(name)]
    return {edit.key: edit for edit in found}


@cache
def sums_of(key):
    return edits()[key].sums()


# ---- the file


def parsed(text):
    """The lines by edit; nothing in the place of one that isn't of six sums and four words."""
    found = {}
    for line in text.split("\n"):
        if line and not line.startswith("#"):
            key, *words = line.split()
            fits = len(words) == 9 and words[1] in WAYS and words[2] in CLAUSES
            found[key] = Line(*words[:3], Sums(*words[3:8]), words[8]) if fits else None
    return found


@cache
def lines():
    return parsed(LEDGER.read_text())


def write(changed):
    """Puts these lines in the place of the old ones of their edits; with None an edit has no line any more."""
    text = LEDGER.read_text()
    found = {**parsed(text), **changed}
    head = [line for line in text.split("\n") if line.startswith("#")]
    LEDGER.write_text("\n".join([*head, *(f"{key} {' '.join([*line[:3], *line.sums, line.logic])}"
                                          for key, line in sorted(found.items()) if line and key in edits())]) + "\n")
    lines.cache_clear()
    why_it_waits.cache_clear()


def line_now(key, day, way, clause):
    """The line of an edit that was refused against what stands now."""
    sums = sums_of(key)
    return Line(day, way, clause, sums._replace(proofs="-") if way == "search" else sums, logic())


def changed_since(key, line):
    """What changed since the line of an edit was written."""
    now = line_now(key, *line[:3])
    return [what for what, was, one in zip(PARTS, line.sums, now.sums) if was != one] + ["the kit"] * (line.logic != now.logic)


@cache
def why_it_waits(key):
    """Why an edit has no line in force, or nothing."""
    line = lines().get(key)
    if not line:
        return "it was never tried"
    changed = changed_since(key, line)
    return f"{', '.join(changed)} changed since {line.day}" if changed else None


def waiting():
    """The edits that wait for their try: those without a line first, then the oldest."""
    found = [key for key in edits() if why_it_waits(key)]
    return sorted(found, key=lambda key: (lines()[key].day if lines().get(key) else "", list(edits()).index(key)))


def in_force():
    """The lines that are in force, by edit."""
    return {key: lines()[key] for key in edits() if not why_it_waits(key)}


def check_ledger():
    """each line of tests/edits/tried.txt is of an edit; a crate without edits is named with its reason"""
    where = LEDGER.relative_to(ROOT)
    for key, line in lines().items():
        if key not in edits():
            yield f"{where}: {key} is no edit: take its line out"
        elif not line:
            yield f"{where}: the line of {key} isn't in its form: tests/edits.py {key}"
    for name, crate in CRATES.items():
        if name in with_edits():
            yield from [f"{name}: has edits, and WITHOUT_EDITS names it"] * (name in WITHOUT_EDITS)
        elif not name.startswith("test_") and name not in WITHOUT_EDITS:
            yield f"{name}: has no edit, and WITHOUT_EDITS of tests/checks/ledger.py says no reason"
        elif WITHOUT_EDITS.get(name) == IN_THE_WAY and not all(one.name.startswith(THEOREMS) for one in crate.functions):
            yield f"{name}: has functions that are no laws, and no edit"


def remarks():
    """What fails nothing, and has to be read before a release."""
    found = waiting()
    by_crate = sorted({key.split("/")[0] for key in found}, key=list(CRATES).index)
    return [f"left out: edits: {len(found)} of {len(edits())} wait for their try, of {', '.join(by_crate)}"] if found else []
