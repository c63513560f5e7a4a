"""The contract text of a file, of a function and of a type: what others can rely on, without comments."""

import re

from .sources import CLAUSE, FUNCTION, WHERE, after_braces, after_head, blanked

TOKEN = re.compile(r"""b?"(?:\\.|[^"\\])*"|b?'(?:\\.[^']*|[^'\\])'|//[^\n]*|/\*.*?\*/""", re.S)
HINT = re.compile(r"#!?\[(?:tactic|inline|cycle|allow|must_use)\b[^\]]*\]")
IMPORT = re.compile(r"^[ \t]*(pub(?:\([a-z]+\))? +)?(?:ghost )?use ([^;]+);", re.M)
MODULE = re.compile(r"^[ \t]*(?:pub(?:\([a-z]+\))? +)?mod \w+;", re.M)
WORD = re.compile(r"[^\s(){}\[\],;:.<>&]+")


def without(text, spans):
    """The text without these parts."""
    out, at = [], 0
    for start, end in sorted(spans):
        out.append(text[at:max(at, start)])
        at = max(at, end)
    return "".join([*out, text[at:]])


def plain(text):
    """The text without comments and hints."""
    return HINT.sub("", TOKEN.sub(lambda match: "" if match[0].startswith("/") else match[0], text))


def after_contract(bare, place, proofs):
    """The place after the clauses that stand here; the proofs among them are added to the list."""
    while True:
        where = WHERE.match(bare, place)
        place = where.end() if where and where.end() > place else place
        clause = CLAUSE.match(bare, place)
        if not clause:
            return place
        place = after_braces(bare, clause.end() - 1)
        by = re.match(r"\s*by\s*\{", bare[place:])
        if by:
            end = after_braces(bare, place + by.end() - 1)
            proofs.append((place, end))
            place = end


def bodies_of(bare):
    """The parts of a file that no contract sees: bodies, proofs beside clauses, private functions without a clause."""
    parts = []
    for match in FUNCTION.finditer(bare):
        head = after_head(bare, match.end())
        place = after_contract(bare, head, parts)
        opened = re.match(r"\s*\{", bare[place:])
        if opened:
            is_shown = match[2] or CLAUSE.match(bare[head:place]) or WHERE.match(bare[head:place])
            parts.append((place if is_shown else match.start(), after_braces(bare, place + opened.end() - 1)))
    return parts


def items_of(group):
    """(path, item) for each item of an import."""
    inside = re.match(r"(.*?)\{(.*)\}\s*$", group, re.S)
    head, items = (inside[1], inside[2].split(",")) if inside else ("", [group])
    for item in filter(None, (" ".join(item.split()) for item in items)):
        yield "".join(head.split()), item


def imported(group, words):
    """The names of one import that the text uses, each with what it comes from."""
    for head, item in items_of(group):
        name = re.split(r"::|\.(?=\w)", item)[-1].split(" as ")[-1].strip()
        if any(part in words for part in filter(None, name.split("◌"))):
            yield f"use {head}{item}"


def contract_of(source):
    """What callers of a file's functions can rely on: all of it but comments, bodies, proofs, hints and unused imports."""
    text = plain(without(source, bodies_of(blanked(source))))
    imports = IMPORT.findall(text)
    text = MODULE.sub("", IMPORT.sub("", text))
    words = set(WORD.findall(text))
    uses = [one for public, group in imports if not public for one in imported(group, words)]
    uses += [f"{public.strip()} use {head}{item}" for public, group in imports if public for head, item in items_of(group)]
    return " ".join([*sorted(uses), *text.split()])
