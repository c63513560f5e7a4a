"""Checks of the pages by themselves: links, quotations, places of a machine, an example."""

import re
import subprocess
from functools import cache
from hashlib import sha256

from .sources import ROOT

DOCS = ROOT / "docs"


def shown(path, line=None):
    where = str(path.relative_to(ROOT))
    return f"{where}:{line}" if line else where


@cache
def tracked():
    """The files that git keeps; where git isn't there or refuses, all but its own and what is made."""
    try:
        listed = subprocess.run(["git", "-C", str(ROOT), "ls-files", "-z"], capture_output=True).stdout
    except OSError:
        listed = b""
    names = [name for name in listed.decode().split("\0") if name]
    if names:
        return [ROOT / name for name in names if (ROOT / name).is_file()]
    made = {".git", "out", "tour", "__pycache__"}
    found = [path for path in sorted(ROOT.rglob("*")) if not made & set(path.relative_to(ROOT).parts)]
    return [path for path in found if path.is_file()]


@cache
def pages():
    return [path for path in tracked() if path.suffix == ".md"]


def by_hand():
    """The pages without those that a script makes from the sources."""
    return [path for path in pages() if path.parent != DOCS / "reference"]


def cells_of(row):
    return [cell.strip() for cell in re.split(r"(?<!\\)\|", row.strip())[1:-1]]


@cache
def anchors_of(path):
    """The headings of a page, as links name them."""
    headings = re.findall(r"^#+ +(.*)$", path.read_text(), re.M)
    return {re.sub(r"[^\w -]", "", heading.lower()).replace(" ", "-") for heading in headings}


def check_links():
    """what pages link to is there"""
    for path in pages():
        for number, line in enumerate(path.read_text().split("\n"), 1):
            for target, anchor in re.findall(r"\]\(([^)#]*)#?([^)]*)\)", line):
                if re.match(r"[a-z]+://", target):
                    continue
                there = path.parent / target if target else path
                if not there.exists():
                    yield f"{shown(path, number)}: nothing at {target}"
                elif anchor and anchor not in anchors_of(there):
                    yield f"{shown(path, number)}: {target} has no heading {anchor}"
            for target in re.findall(r"`((?:docs|tests|examples|bench|crates|tools|include)/[\w./-]+)`", line):
                if not (ROOT / target).exists() and "/out/" not in target:  # what a build makes stands in out
                    yield f"{shown(path, number)}: no file {target}"


def squeezed(text):
    return " ".join(text.split())


# What is quoted: these pages, and the languages of the blocks that stand in a file of the sources.
QUOTING = ("RUN.md", "LIBRARY.md")
QUOTED = ("antt", "rust")


def wrong_quotations(page):
    file, block, is_quoted, quotes = None, None, False, 0
    for number, line in enumerate(page.read_text().split("\n"), 1):
        if line.startswith("```") and block is None:
            block, is_quoted = [], line[3:] in QUOTED
        elif line.startswith("```") and not is_quoted:
            block = None
        elif line.startswith("```"):
            quotes += 1
            if not file or not file.exists():
                yield f"{shown(page, number)}: the file of this quotation isn't there"
            elif squeezed("\n".join(block)) not in squeezed(file.read_text()):
                yield f"{shown(page, number)}: what ends here doesn't stand in {shown(file)}"
            block = None
        elif block is not None:
            block.append(line)
        elif not line.startswith("|"):
            for path in re.findall(r"`((?:crates|tests/edits)/[\w./-]+)`", line):
                file = ROOT / path
    if quotes < 1:
        yield f"{shown(page)}: it quotes nothing"


def check_quotations():
    """what RUN and LIBRARY quote stands in the file that is named before it"""
    for name in QUOTING:
        yield from wrong_quotations(DOCS / name)


def written_in(page, what):
    """The bytes that a section writes out, and its text."""
    section = page.split(f"\n## {what} byte by byte\n")[1].split("\n## ")[0]
    lines = re.findall(r"^ {4} *((?:[0-9A-F]{2} ?)+)(?: |$)", section, re.M)
    return bytes.fromhex("".join(lines)), section


def check_examples():
    """what FORMATS writes out byte by byte are files that the program takes; the proof in TOUR is that of examples/www.cert"""
    shown_proof = re.findall(r"^ {4}([0-9a-f]+) +", (DOCS / "TOUR.md").read_text().split("A certificate\n")[1].split("\n## ")[0], re.M)
    if bytes.fromhex("".join(shown_proof)) != (ROOT / "examples/www.cert").read_bytes()[-84:]:
        yield "docs/TOUR.md: the bytes of the proof aren't the last 84 of examples/www.cert"
    page = (DOCS / "FORMATS.md").read_text()
    for what, name in (("A certificate", "first.cert"), ("A journal", "first.journal")):
        written, section = written_in(page, what)
        if written != (ROOT / "examples" / name).read_bytes():
            yield f"docs/FORMATS.md: {what.lower()} of other bytes stands in examples/{name}"
        if f"It has {len(written)} bytes." not in section:
            yield f"docs/FORMATS.md: {what.lower()} of {len(written)} bytes is written out"
    cert, section = written_in(page, "A certificate")
    version, names, key, extensions = cert[6:11], cert[28:89], cert[89:133], cert[133:162]
    entry = b"\0\1" + version + names + b"\4\x20" + sha256(key).digest() + extensions
    null, leaf = (sha256(b"\0" + item).digest() for item in (b"\0\0", entry))
    root = sha256(b"\1" + null + leaf).hexdigest()
    if f"Its entry has {len(entry)} bytes" not in section or page.count(root) != 2:
        yield f"docs/FORMATS.md: its entry has {len(entry)} bytes, the tree hash is {root}"


def check_paths():
    """no file names a place of a machine"""
    machine = re.compile(r"(?<![\w.$}/-])/(?:home|root|work|opt|Users|mnt)/\w")
    for path in tracked():
        try:
            text = path.read_text()
        except UnicodeDecodeError:
            continue
        for number, line in enumerate(text.split("\n"), 1):
            if machine.search(line):
                yield f"{shown(path, number)}: {line.strip()[:80]}"


# ---- figures

MEASURED = (DOCS / "SPEED.md", ROOT / "bench" / "TIMES.md")
FIGURE = re.compile(r"(\d[\d,]*(?:\.\d+)?) (?:of the )?(?:processor )?(s|seconds|MB|bytes)\b(?! (?:for|file))")


def number(text):
    return float(text.replace(",", ""))


@cache
def in_tables():
    """The figures of the tables that scripts make of bench/*/figures.txt, by their unit: seconds, MB and bytes."""
    found = {"s": set(), "MB": set(), "bytes": set()}
    for path in MEASURED:
        for mark, table in re.findall(r"<!-- (\w+): begin -->(.*?)<!-- \1: end -->", path.read_text(), re.S):
            found["MB"] |= set(map(number, re.findall(r"([\d,]+) MB", table)))
            found["bytes"] |= set(map(number, re.findall(r"\| ([\d,]+) ", table))) if mark == "sizes" else set()
            found["s"] |= set(map(number, re.findall(r"\| (\d+\.\d+) ", table)))
    return found


def is_measured(text, unit):
    """Whether a table has a number that is this one when it is rounded as the page rounds it."""
    places = len(text.partition(".")[2])
    return any(round(one, places) == number(text) for one in in_tables()["s" if unit == "seconds" else unit])


def check_figures():
    """a figure of a line that links SPEED or TIMES stands in a table of them, as rounded there"""
    for path in by_hand():
        for line_number, line in enumerate(path.read_text().split("\n"), 1):
            if path in MEASURED or not re.search(r"\]\([\w./]*(?:SPEED|TIMES)\.md\)", line):
                continue
            yield from (f"{shown(path, line_number)}: no table has {text} {unit}" for text, unit in FIGURE.findall(line)
                        if not is_measured(text, unit))
