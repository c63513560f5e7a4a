#!/usr/bin/env python3
"""The pages of docs/reference/, made from the sources: definitions, clauses, crates, and what has to be trusted; and parts of other
pages, as the tables of speeds that bench/figures.py makes.

Usage: tests/reference_pages.py            says which pages are not what it makes
       tests/reference_pages.py --write    writes them, as tests/documents.sh --write does
"""

import sys

import beliefs
from checks import citations, comments, places
from checks.citations import CRATES, below
from checks.sources import ROOT, THEOREMS

sys.path.append(str(ROOT / "bench"))
import figures
import sizes

FOLDER = ROOT / "docs" / "reference"
MADE = "<!-- made by tests/reference_pages.py: change the sources and run tests/documents.sh --write -->"


def cell(text):
    return text.replace("|", "\\|")


def code(text):
    return f"`{text}`"


def row(*cells):
    return f"| {' | '.join(map(cell, cells))} |"


def link(path):
    return f"../../{path.relative_to(ROOT)}"


def written(lines):
    return "\n".join(lines).rstrip() + "\n"


def contents(has_part):
    """A line for each group of crates, with a link to the part of each crate that has one."""
    for group, names in comments.groups_of_crates():
        found = [f"[{name}](#{name})" for name in names if has_part(CRATES[name])]
        if found:
            yield f"- {group}: {', '.join(found)}"


# ---- definitions


def definition_rows(groups):
    over = ""
    for group in groups:
        if group.over != over and group.over:
            yield row(f"*with* {code(group.over)}", "")
        over = group.over
        said = f"**{group.title.rstrip('.')}.** {group.comment}" if group.title else group.comment
        yield row("<br>".join(map(code, group.shown)), said.strip())


def definitions_of_crate(crate):
    yield f"## {crate.name}"
    for path in sorted((crate.folder / "specs").rglob("*.antt")):
        groups = comments.groups_of(path)
        if groups:
            name = str(path.relative_to(crate.folder / "specs")).removesuffix(".antt")
            yield from ("", f"### [{name}]({link(path)})", "", comments.file_sentence(path), "")
            yield from ("| Definition | What it says |", "|---|---|")
            yield from definition_rows(groups)
    yield ""


def definitions_page():
    with_some = [crate for crate in CRATES.values() if crate.definitions]
    count = sum(len(crate.definitions) for crate in with_some)
    return written([
        "# The definitions", "", MADE, "",
        f"The {count:,} definitions that contracts name: each with its type, and the comment above it in its file. Where several stand "
        "in a row, one comment is of all; *with* has the parameters that the rows below it share. [DEFINITIONS](../DEFINITIONS.md) says "
        "how to read them.", "",
        *contents(lambda crate: crate.definitions), "",
        *(line for crate in with_some for line in definitions_of_crate(crate))])


# ---- clauses


def clauses_of(one):
    """What a call ensures: the labels of its clauses; and whether it has a condition."""
    named = [code(label) for label in one.ensures if label]
    said = ", ".join(named + ["one clause"] * (len(one.ensures) - len(named)))
    return "; ".join(filter(None, [said, "*it requires*" if one.requires else ""]))


def doc_of(path, line):
    return comments.first_sentence(comments.doc_of(path.read_text().split("\n"), line))


def said_of(crate, one):
    """What a call does, and all that a law says; of a call of a trait without a comment, that it is one."""
    if one.name.startswith(THEOREMS):
        return comments.doc_of(one.path.read_text().split("\n"), one.line)
    of_trait = (f"As {code(key)}." for key in crate.calls if one.of_trait and key.endswith(f"::{one.name}"))
    return doc_of(one.path, one.line) or next(of_trait, "")


def call_rows(crate, head, calls):
    yield from ("", f"| {head} | It ensures | What it does |", "|---|---|---|")
    yield from (row(f"[{code(key)}]({link(one.path)})", clauses_of(one), said_of(crate, one)) for key, one in calls)


def in_order(calls):
    return sorted(calls.items(), key=lambda call: (str(call[1].path), call[1].line))


def is_law(call):
    return call[0].split("::")[-1].startswith(THEOREMS)


def word_rows(crate):
    words = [(owner, name, file.path, line) for file in crate.files for owner, name, line in file.trait_words]
    if words:
        yield from ("", "| Word of a trait | What it means |", "|---|---|")
        yield from (row(code(f"{owner}.{name}"), doc_of(path, line)) for owner, name, path, line in words)


def clauses_of_crate(crate):
    calls = in_order(crate.calls)
    yield from (f"## {crate.name}", "", f"{comments.crate_sentence(crate)} {comments.crate_note(crate)}".strip())
    yield from word_rows(crate)
    parts = {"Call": [call for call in calls if not is_law(call)], "Call of a trait": in_order(crate.fulfilled),
             "Law": [call for call in calls if is_law(call)]}
    for head, those in parts.items():
        if those:
            yield from call_rows(crate, head, those)
    yield ""


def clauses_page():
    with_some = [crate for crate in CRATES.values() if crate.calls or comments.crate_note(crate)]
    count = sum(len(crate.calls) for crate in with_some)
    return written([
        "# The calls and their clauses", "", MADE, "",
        f"The {count} public calls, crate by crate: the labels of what each ensures, and the first sentence of its comment, of a law all of it. Each clause "
        "is proved for all inputs that meet the call's condition, and so is that the call is safe and returns. *It requires* marks "
        "a call with a condition. The clauses of a trait are owed by each type that implements it. "
        "A call of a trait is listed once more where a type ensures more than the trait does. A law does nothing, and so does a witness: its clause is a "
        "theorem. "
        "[PROMISES](../PROMISES.md) says what these come to, and what no clause says.", "",
        *contents(lambda crate: crate in with_some), "",
        *(line for crate in with_some for line in clauses_of_crate(crate))])


# ---- promises


def promises_page():
    lines = ["# What carries each promise", "", MADE.replace("the sources", "tests/promises.txt"), "",
             "The calls of each promise of [PROMISES](../PROMISES.md), with the clauses that carry it; where no clause is named, the whole "
             "contract of the call does. [CLAUSES](CLAUSES.md) has each call.", ""]
    section = ""
    for _, part, title in citations.promises():
        if part != section:
            lines += [f"## {part}", ""]
            section = part
        lines += [f"### {title}", "", *(f"- {one}" for one in citations.carried().get(title, ())), ""]
    return written(lines)


# ---- crates


def named_needs(name):
    """The crates that one names, but those on which another of them stands; and the kit's."""
    needs = [need for need in CRATES[name].needs if need in CRATES]
    under = set().union(*(below(need) for need in needs))
    kit = [need for need in CRATES[name].needs if need not in CRATES]
    said = [", ".join(map(code, (need for need in needs if need not in under))), "kit's " + ", ".join(map(code, kit)) if kit else ""]
    return "; ".join(filter(None, said))


def crates_page():
    lines = ["# The crates", "", MADE, "",
             "Lowest first, by the groups of `crates.txt`. The last column leaves out a crate on which another one in it stands. "
             "[ARCHITECTURE](../ARCHITECTURE.md) says how a command goes through them.", ""]
    for group, names in comments.groups_of_crates():
        lines += [f"## {group}", "", "| Crate | What it is | It stands on |", "|---|---|---|"]
        lines += [row(f"[{code(name)}]({link(comments.crate_file(CRATES[name]))})", comments.crate_sentence(CRATES[name]),
                      named_needs(name)) for name in names]
        lines.append("")
    return written(lines)


def layers():
    """The groups of crates as a picture of lines, lowest first: each with the groups on which its crates stand, but those that follow."""
    groups = dict(comments.groups_of_crates())
    group_of = {name: group for group, names in groups.items() for name in names}
    under = {group: {group_of[need] for name in names for need in CRATES[name].needs if need in group_of} - {group}
             for group, names in groups.items()}
    width = max(map(len, groups)) + 2
    lines = [f"{group:{width}}" + ", ".join(one for one in groups if one in under[group] and not any(one in under[other] for other in under[group]))
             for group in groups]
    return "\n".join(["```text", *map(str.rstrip, lines), "```"])


# ---- all pages


def pages():
    return {"DEFINITIONS.md": definitions_page, "CLAUSES.md": clauses_page, "CRATES.md": crates_page, "PROMISES.md": promises_page,
            "TRUSTED.md": lambda: beliefs.page(MADE)}


def parts():
    """The parts of pages by hand that are made: (page, its mark, what stands there)."""
    return [("BELIEFS.md", "trusted", beliefs.summary()), ("BELIEFS.md", "edits", beliefs.edits_summary()),
            ("CONTRIBUTING.md", "places", places.table()), ("ARCHITECTURE.md", "layers", layers()),
            *((page, mark, "\n".join(lines)) for page, mark, lines in figures.parts())]


def with_part(text, mark, part):
    """The text of a page with its made part, or nothing where it has no place for it."""
    begin, end = f"<!-- {mark}: begin -->", f"<!-- {mark}: end -->"
    if begin not in text or end not in text:
        return None
    before, _, rest = text.partition(begin)
    return f"{before}{begin}\n{part}\n{end}{rest.partition(end)[2]}"


def made():
    """(path, what it should be) for each page; nothing in the place of the text where a part has no place."""
    for name, page in pages().items():
        yield FOLDER / name, page()
    for name in sorted({name for name, _, _ in parts()}):
        text = (ROOT / "docs" / name).read_text()
        for _, mark, part in (one for one in parts() if one[0] == name):
            text = text and with_part(text, mark, part)
        yield (ROOT / "docs" / name).resolve(), text
    yield ROOT / "docs" / "speed.svg", figures.picture()


def differences():
    yield from (*beliefs.faults(), *sizes.faults())
    for path, text in made():
        shown = path.relative_to(ROOT)
        if text is None:
            yield f"{shown} has no place for what is made"
        elif not path.exists() or path.read_text() != text:
            yield f"{shown} is not what the sources say (tests/documents.sh --write)"
    for path in sorted(FOLDER.iterdir()):
        if path.name not in pages():
            yield f"{path.relative_to(ROOT)} is made by no script"


def write():
    FOLDER.mkdir(exist_ok=True)
    for path, text in made():
        if text is not None:
            path.write_text(text)


def renew_edits():
    """Writes what pages say of edits, and nothing else of them."""
    page, title = FOLDER / "TRUSTED.md", "\n## Edits by crate\n"
    page.write_text(page.read_text().split(title)[0] + title + beliefs.page(MADE).split(title)[1])
    page = ROOT / "docs" / "BELIEFS.md"
    page.write_text(with_part(page.read_text(), "edits", beliefs.edits_summary()))


def main(words):
    if words == ["--write"]:
        write()
    found = list(differences())
    print(*found, sep="\n", end="\n" if found else "")
    return bool(found)


if __name__ == "__main__":
    sys.exit(main(sys.argv[1:]))
