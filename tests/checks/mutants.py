"""Mutants: wrong bodies of what no clause covers, each with the check that has to fail on it; and the ledger of those that were seen.

A mutant is a file tests/mutants/NAME.edit: one line `check: `, a command line from the root, and the lines of an edit. Each `file: ` is
a path from the root. A line of tests/mutants/tried.txt is written by tests/mutants.py, and by nothing else.
"""

import re
from collections import namedtuple
from functools import cache

from .citations import CRATES
from .edited import changes_of, sum_of
from .sources import ROOT

FOLDER = ROOT / "tests" / "mutants"
LEDGER = FOLDER / "tried.txt"
# What a line says: when the check failed on the mutant, and the sums of the mutant, of the files that it changes, and of the check.
Line = namedtuple("Line", "day mutant source check")
PARTS = ("the mutant", "a file that it changes", "its check")
# What no proof covers: each of these has a mutant.
EDGE = ("crates/mtc_files/", "crates/mtc_main/", "crates/mtc_c/", "tools/guarded_cosign.sh", "tools/authority_hour.sh",
        "tools/cosigner_day.sh", "mtc", ".ci/run")


class Mutant:
    """One mutant."""

    def __init__(self, path):
        self.path, self.name = path, path.name.removesuffix(".edit")
        self.changes = list(changes_of(path))
        self.checks = re.findall(r"^check: (.+)$", path.read_text(), re.M)
        homes = {file.split("/")[1] for file, *_ in self.changes if file.startswith("crates/")}
        self.crate = CRATES.get(homes.pop()) if len(homes) == 1 else None

    @property
    def check(self):
        return self.checks[0].split()

    def faults(self):
        """What is wrong with it as it stands."""
        if len(self.checks) != 1 or not (ROOT / self.check[0]).is_file():
            yield "has no line `check: ` with a script of tests/, or has several"
        elif len(files_of(self.check)) <= sum(word.isidentifier() for word in self.check[1:]):
            yield f"{self.checks[0]}: the script has no such check"
        texts = {file: (ROOT / file).read_text() for file, *_ in self.changes if (ROOT / file).is_file()}
        for file, old, new in self.changes:
            count = texts.get(file, "").count(old) if old else 0
            if count != 1 or old == new:
                yield f"an old text of it stands in {file} {count} times, and not once, or isn't changed"
            else:
                texts[file] = texts[file].replace(old, new)
        if not self.changes or any(file.startswith("crates/") for file, *_ in self.changes) and not self.crate:
            yield "changes nothing, or files of several crates"

    def applied(self, root):
        """Makes the mutant below a folder, and returns the texts that stood there."""
        before = {file: (root / file).read_text() for file, *_ in self.changes}
        for file, old, new in self.changes:
            (root / file).write_text((root / file).read_text().replace(old, new))
        return before

    def sums(self):
        sources = sorted({ROOT / file for file, *_ in self.changes})
        return tuple(sum_of(*(file.read_text() for file in files)) for files in ([self.path], sources, files_of(self.check)))


def files_of(check):
    """The script of a check, and the files of the checks that it is given the names of."""
    script, *words = check
    found = [ROOT / script]
    for word in words:
        found += [path for path in [ROOT / script, *sorted((ROOT / "tests").glob("*/*.py"))] if f"\ndef check_{word}(" in path.read_text()]
    return found


@cache
def mutants():
    """All mutants by name."""
    return {path.name.removesuffix(".edit"): Mutant(path) for path in sorted(FOLDER.glob("*.edit"))}


def parsed(text):
    rows = [line.split() for line in text.split("\n") if line and not line.startswith("#")]
    return {name: Line(*words) if len(words) == 4 else None for name, *words in rows}


@cache
def lines():
    return parsed(LEDGER.read_text())


def write(changed):
    """Puts these lines in the place of the old ones of their mutants; with None a mutant has no line any more."""
    text = LEDGER.read_text()
    head = [line for line in text.split("\n") if line.startswith("#")]
    found = {**parsed(text), **changed}
    LEDGER.write_text("\n".join([*head, *(f"{name} {' '.join(line)}" for name, line in sorted(found.items()) if line and name in mutants())])
                      + "\n")
    lines.cache_clear()


def why_it_waits(name):
    """Why a mutant has no line in force, or nothing."""
    line = lines().get(name)
    if not line:
        return "it was never tried"
    changed = [what for what, was, now in zip(PARTS, line[1:], mutants()[name].sums()) if was != now]
    return f"{', '.join(changed)} changed since {line.day}" if changed else None


def waiting():
    """The mutants that wait for their try."""
    return [name for name in mutants() if why_it_waits(name)]


def check_mutants():
    """each mutant can be made, each file of the unproved edge has one, and each line of tests/mutants/tried.txt is of one"""
    for name, mutant in mutants().items():
        yield from (f"{mutant.path.relative_to(ROOT)}: {why}" for why in mutant.faults())
    for name, line in lines().items():
        if name not in mutants() or not line:
            yield f"{LEDGER.relative_to(ROOT)}: {name} is no mutant, or its line isn't in its form"
    changed = {file for mutant in mutants().values() for file, *_ in mutant.changes}
    for place in EDGE:
        if not any(file == place or place.endswith("/") and file.startswith(place) for file in changed):
            yield f"{place}: no mutant changes it"


def remarks():
    """How many mutants are in force, where not all are."""
    found = waiting()
    return [f"left out: mutants: {len(mutants()) - len(found)} of {len(mutants())} are in force; tests/mutants.py --stale tries the others"] if found else []
