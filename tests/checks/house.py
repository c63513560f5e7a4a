"""Checks of the sources: lengths, columns, comments, names that are imported and not used, edits; and of how many words a page has."""

import re
import shutil
import subprocess
import sys

from . import comments, edited, ledger, named
from .citations import CRATES
from .contracts import contract_of
from .pages import DOCS, cells_of, shown, tracked
from .sources import ROOT

sys.path.append(str(ROOT / "bench"))
import gate_costs

LIMITS = ROOT / "tests" / "limits.txt"
MOST_LINES = 500
MOST_COLUMNS = 100
MOST_FUNCTION_LINES = 40


def code_files(*folders):
    for name, crate in CRATES.items():
        for folder in folders:
            for path in sorted((crate.folder / folder).rglob("*")):
                if path.suffix in (".rt", ".antt"):
                    yield name, path


def documented(file):
    """(doc, lines) for each item of a file: its `///` lines as one text, and the lines from its head on."""
    lines = file.text.split("\n")
    doc = []
    for number, line in enumerate(lines):
        bare = line.strip()
        if bare.startswith("///"):
            doc.append(bare[3:].strip())
        elif doc and not bare.startswith("#["):
            yield " ".join(doc), lines[number:]
            doc = []


def variants_of(lines):
    end = next(number for number, line in enumerate(lines) if line.startswith("}"))
    return [match[1] for line in lines[1:end] if (match := re.match(r" {4}([A-Z]\w*)", line))]


def check_errors():
    """an enum of errors in the order of the tests has the order that its calls list"""
    claim = "in the order of the tests"
    for crate in CRATES.values():
        items = [item for file in crate.files for item in documented(file)]
        enums = {match[1]: variants_of(lines) for doc, lines in items
                 if claim in doc and (match := re.match(r"pub enum (\w+)", lines[0]))}
        for doc, lines in items:
            listed = re.search(claim + r": ([^.]*)\.", doc)
            for enum, variants in enums.items():
                if listed and enum in "".join(lines[:8]):
                    named = re.findall(r"(?:^|[;,] )`(\w+)`", listed[1])
                    places = [variants.index(one) for one in named if one in variants]
                    if places != sorted(places):
                        yield f"{crate.name}: {lines[0].strip()[:50]} lists {', '.join(named)}; {enum} has another order"


def promised(source):
    """The contracts of a file, without the values of its constants."""
    return re.sub(r"\bconst (\w+: [^=;]*)=[^;]*;", r"const \1;", contract_of(source))


def fault_of(crate, edit):
    """Why an edit can't be made or shows nothing, or nothing. Its changes are made one after the other, as `rt` makes
    them."""
    texts = {}
    for file, old, new in edited.changes_of(edit):
        path = crate.folder / file
        text = texts.get(file) or (path.read_text() if path.is_file() else "")
        if not old or text.count(old) != 1:
            return f"an old text of it doesn't stand once in {file}"
        if old == new:
            return f"it changes nothing in {file}"
        texts[file] = text.replace(old, new)
    for file, text in texts.items():
        if not file.startswith("src/") or promised(text) != promised((crate.folder / file).read_text()):
            return f"it changes a contract, a definition or a proof in {file}, and not bodies alone"
    return None if texts else "it has no change"


def strays():
    """What stands beside the edits: a file that is none, or the folder of no crate."""
    for folder in (folder for name in CRATES for folder in edited.folders_of(name) if folder.is_dir()):
        yield from (path for path in sorted(folder.iterdir()) if path.suffix != ".edit" or not path.is_file())
    for path in sorted(edited.EDITS.iterdir()):
        if path != ledger.LEDGER and not (path.is_dir() and path.name in CRATES):
            yield path


def counts_wrong(name):
    """Why a crate has too many edits."""
    count, in_the_gate = len(edited.edits_of(name)), len(list(edited.folders_of(name)[0].glob("*.edit")))
    if count > ledger.MOST:
        yield f"{name}: has {count} edits, and {ledger.MOST} are the most"
    if in_the_gate > ledger.MOST_IN_THE_GATE:
        yield f"{name}: has {in_the_gate} edits in must-fail/, and {ledger.MOST_IN_THE_GATE} is the most"


def check_edits():
    """each edit can be made: what it takes away stands once in its file; it changes bodies alone; a crate has few"""
    for name, crate in CRATES.items():
        names = set()
        for edit in edited.edits_of(name):
            why = fault_of(crate, edit) or ("stands in both folders" if edit.name in names else None)
            names.add(edit.name)
            if why:
                yield f"{edit.relative_to(ROOT)}: {why}"
        yield from counts_wrong(name)
    yield from (f"{path.relative_to(ROOT)}: is no edit of a crate" for path in strays())


# ---- what is let through as yet: its numbers may not grow


def long_parts():
    """(crate, what) for each file of more than 500 lines, each function of more than 40."""
    for name, path in code_files("src", "specs", "proofs"):
        count = path.read_text().count("\n")
        if count > MOST_LINES:
            yield name, f"{shown(path)}: {count} lines"
    for name, crate in CRATES.items():
        for one in crate.functions:
            if one.length > MOST_FUNCTION_LINES and not one.is_test:
                yield name, f"{shown(one.path, one.line)}: {one.name} has {one.length} lines"


def wide_lines():
    """(crate, what) for each line that is too long; imports of one name are let through."""
    for name, path in code_files("src", "specs", "proofs"):
        for number, line in enumerate(path.read_text().split("\n"), 1):
            is_import = re.match(r"\s*(pub |ghost )*use ", line) and "," not in line
            if len(line) > MOST_COLUMNS and not is_import:
                yield name, f"{shown(path, number)}: {len(line)} columns"


def unused_names():
    """(crate, what) for each name of a `ghost use` that occurs nowhere else in its file."""
    use = re.compile(r"^\s*ghost use ([\w.]+)\.\{([^}]*)\};", re.M)
    for name, crate in CRATES.items():
        for file in crate.files:
            rest = use.sub("", file.text)
            for match in use.finditer(file.text):
                line = file.text.count("\n", 0, match.start()) + 1
                for item in filter(str.strip, match.group(2).split(",")):
                    one = item.strip().split(" as ")[-1].strip()
                    if not re.search(occurrence(one), rest):
                        yield name, f"{shown(file.path, line)}: {one}"


def occurrence(name):
    """A pattern for a name where it is used; an operator stands there without its gaps."""
    sign = "if" if name.startswith("if◌") else name.replace("◌", "")
    escaped = re.escape(sign)
    return rf"(?<![\w-]){escaped}(?![\w-])" if re.fullmatch(r"[\w-]+", sign) else escaped


def bare_definitions(crate):
    """The definitions of which nothing is said, nor of those before them; and the files of specs/ that begin with nothing."""
    for path in sorted((crate.folder / "specs").rglob("*.antt")):
        groups = comments.groups_of(path)
        if groups and not comments.file_sentence(path):
            yield f"{shown(path)}: says nothing of itself"
        yield from (f"{shown(path)}: {one}" for group in groups if not group.comment and not group.title for one in group.shown)


def without_comment():
    """(crate, what) for each call, word of a trait and definition of which the sources say nothing."""
    for name, crate in CRATES.items():
        said = [(key, one.path, one.line) for key, one in crate.calls.items()]
        said += [(f"{owner}.{word}", file.path, line) for file in crate.files for owner, word, line in file.trait_words]
        yield from ((name, f"{shown(path, line)}: {key}") for key, path, line in said
                    if not comments.doc_of(path.read_text().split("\n"), line))
        yield from ((name, what) for what in bare_definitions(crate))


def warnings_of_scripts():
    """(script, what) for each warning of shellcheck on the shell scripts."""
    scripts = [path for path in tracked() if path.suffix in ("", ".sh") and re.match(rb"#!/bin/(ba)?sh\b", path.read_bytes()[:12])]
    if shutil.which("shellcheck"):
        said = subprocess.run(["shellcheck", "-x", "-S", "warning", "-f", "gcc", *scripts], cwd=ROOT, capture_output=True, text=True, check=False).stdout
        yield from ((line.split(":")[0].removeprefix(f"{ROOT}/"), line) for line in said.split("\n") if line)


def waiting_edits():
    """("edits", what) for each edit without a line in force."""
    yield from (("edits", f"{key}: {ledger.why_it_waits(key)}") for key in ledger.waiting())


def without_costs():
    """(crates or checks, what) for each crate and check without a row in bench/COSTS.md, and each row without one."""
    yield from ((kind, f"{name} stands in one of {source} and bench/COSTS.md alone") for (kind, names), source in
                zip(gate_costs.differing().items(), ("crates.txt", ".ci/run")) for name in names)


# What scripts make in a page by hand, and what it quotes of the sources, is left out of its words.
MADE = re.compile(r"<!-- (\w+): begin.*?<!-- \1: end -->|^```(?:antt|rust)$.*?^```$", re.S | re.M)
MOST_IN_A_CELL = 25


def words_of(text):
    """How many words a text has, but those of the targets of its links."""
    return len(re.findall(r"\S*\w\S*", re.sub(r"\]\([^)]*\)", "]", text)))


def counted_pages():
    """README and the pages of docs by hand, each with its text but what is left out."""
    return [(path.name, MADE.sub("", path.read_text())) for path in [ROOT / "README.md", *sorted(DOCS.glob("*.md"))]]


def long_cells():
    """(page, what) for each cell of a table that has too many words to be compared with others."""
    for name, text in counted_pages():
        for row in (line for line in text.split("\n") if line.startswith("|")):
            yield from ((name, f"{name}: {cell[:80]}") for cell in cells_of(row) if words_of(cell) > MOST_IN_A_CELL)


LIMITED = {"lengths": long_parts, "columns": wide_lines, "imports": unused_names, "comments": without_comment, "costs": without_costs,
           "waiting": waiting_edits, "scripts": warnings_of_scripts, "chain": named.longest_chain, "cells": long_cells}


def by_crate(check):
    found = {}
    for name, what in LIMITED[check]():
        found.setdefault(name, []).append(what)
    return found


def limits():
    rows = [line.split() for line in LIMITS.read_text().split("\n") if line and not line.startswith("#")]
    return {(check, name): int(count) for check, name, count in rows}


def over_limit(check):
    for name, lines in by_crate(check).items():
        limit = limits().get((check, name), 0)
        if len(lines) > limit:
            yield f"{name} has {len(lines)}, and tests/limits.txt lets {limit} through"
            yield from (lines if limit == 0 else [])


def check_lengths():
    """files have at most 500 lines, functions 40 without their contract"""
    yield from over_limit("lengths")


def check_columns():
    """lines have at most 100 columns, imports of one name left out"""
    yield from over_limit("columns")


def check_imports():
    """names that are imported for contracts are used"""
    yield from over_limit("imports")


def check_chain():
    """no chain of crates, each of which stands on the one before, is longer than tests/limits.txt lets it be"""
    yield from over_limit("chain")


def check_comments():
    """each call, word of a trait and definition has a comment, from which docs/reference/ is made"""
    yield from over_limit("comments")


def check_scripts():
    """shellcheck has no warning on a shell script"""
    yield from over_limit("scripts")


def remarks_of_scripts():
    return [] if shutil.which("shellcheck") else ["left out: scripts: shellcheck isn't here"]


def check_waiting():
    """edits that wait for their try don't grow in number: tests/edits.py --stale tries them"""
    yield from over_limit("waiting")


def check_costs():
    """bench/COSTS.md has a row for each crate and each check of .ci/run, and no other"""
    yield from over_limit("costs")


def remarks_of_costs():
    lacking = [f"{len(lines)} {kind}" for kind, lines in by_crate("costs").items()]
    return [f"left out: costs: bench/COSTS.md and the sources differ in {' and '.join(lacking)}"] if lacking else []


def check_words():
    """README and each page of docs by hand has no more words than tests/limits.txt lets through"""
    for name, text in counted_pages():
        count, most = len(re.findall(r"\S*\w\S*", text)), limits().get(("words", name), 0)
        if count > most:
            yield f"{name} has {count} words, and tests/limits.txt lets {most} through"


def check_cells():
    """a cell of a table in these pages has at most 25 words"""
    yield from over_limit("cells")


def lower_limits():
    """Lowers each number to what there is, but how long one page may be. Where there is no number, nothing is let through."""
    rows = [line for line in LIMITS.read_text().split("\n") if line.startswith("#")]
    for (check, name), most in sorted(limits().items()):
        count = most if check == "words" else min(most, len(by_crate(check).get(name, ())))
        rows += [f"{check} {name} {count}"] * (count > 0)
    LIMITS.write_text("\n".join(rows) + "\n")
