"""Checks that what pages cite is there: calls, clauses and words of crates, groups of crates, commands, refusals."""

import re
from functools import cache
from itertools import groupby, zip_longest

from .comments import groups_of_crates
from .pages import DOCS, by_hand, cells_of, shown
from .sources import ROOT, WORD, crates

CRATES = {crate.name: crate for crate in crates()}
SPAN = re.compile(r"`([^`]+)`")
# The files of definitions to which DEFINITIONS leads: their names, and the crate with its link.
FILES_OF = re.compile(r"((?:`\w+`(?:, | and )?)+) of \[(\w+)\]\(reference/DEFINITIONS")

# Words of the language, of its tools and of the kit that a page may put in code marks.
PLAIN = {"Ok", "Err", "None", "Some", "Drop", "ensures", "requires", "limit", "out", "sync_all", "put_"}


# ---- what a span names


def expanded(span):
    """`crate::Disk::{len, sync}` as its calls."""
    match = re.match(r"(.*)\{(.*)\}$", span)
    if not match:
        return [span]
    return [match.group(1) + part.strip() for part in match.group(2).split(",")]


def call_of(span, names):
    """The call that a span names, with its crate: `crate::Type::name`, `Type::name`, `name`."""
    parts = span.split("::")
    if parts[0] in CRATES and len(parts) > 1:
        names, parts = [parts[0]], parts[1:]
    key = "::".join(parts)
    found = [(name, key) for name in names if key in CRATES[name].calls]
    found += [(name, one) for name in names for one in CRATES[name].calls if one.split("::")[-1] == key]
    found += [(name, key) for name in names if "::" in key and key in CRATES[name].methods]
    return (found + [None])[0]


@cache
def labels_of(crate, name):
    """The clauses of a call; a call of a trait has also those of its impls."""
    return frozenset(label for one in CRATES[crate].functions if one.name == name for label in one.labels)


def is_label(span, calls):
    return any(span in labels_of(crate, key.split("::")[-1]) for crate, key in calls)


@cache
def texts_of(name):
    """The texts of the definitions of a crate, by their names: each ends where the next begins."""
    found = {}
    for path, group in groupby(CRATES[name].definitions, lambda one: one.path):
        lines, group = path.read_text().split("\n"), list(group)
        for one, after in zip_longest(group, group[1:]):
            text = "\n".join(lines[one.line - 1:after.line - 1 if after else None])
            found[one.name] = re.sub(r"--( .*)?$", "", text, flags=re.M)
    return found


@cache
def said_of(crate, name):
    """The words of a call's clauses, and of the definitions that these name, and of those that these name in turn."""
    below = [one for one in [crate, *CRATES[crate].needs] if one in CRATES]
    words = set().union(*(one.words for one in CRATES[crate].functions if one.name == name))
    for _ in range(2):
        texts = (texts_of(one).get(word, "") for one in below for word in words)
        words = words.union(*(WORD.findall(text) for text in texts))
    return words


def is_said(word, calls):
    return any(word in said_of(crate, key.split("::")[-1]) for crate, key in calls)


@cache
def words_of(name):
    """What a page may say of a crate beside its calls."""
    crate = CRATES[name]
    words = crate.labels | crate.members | crate.types | crate.variants
    words |= {one.name for one in crate.definitions} | {one.name for one in crate.functions}
    declared = re.compile(r"^ *(?:[a-z ]*pub (?:record |data |abbrev )?)?([^\s:({]+)", re.M)
    for folder in ("specs", "proofs"):
        for path in (crate.folder / folder).rglob("*.antt"):
            words |= {path.stem, *declared.findall(path.read_text())}
    return words


def is_known(span, names):
    """Each part of a span is a word of these crates, or of all."""
    needs = [need for name in names for need in CRATES[name].needs]
    known = set().union(PLAIN, CRATES, needs, commands(), *(words_of(name) for name in names))
    if any(call_of(part, names) for part in expanded(span)):
        return True
    return all(part in known for part in re.split(r"::|\.|/", span) if part)


# ---- PROMISES, and tests/promises.txt, which has what carries each promise

CARRIED = ROOT / "tests" / "promises.txt"


PROMISE = re.compile(r"\*\*\[(.*?)\]\(reference/PROMISES\.md#[\w-]+\)\.\*\* .+ \*Supposes(?: nothing\.\*|:\* .+)")


def promises():
    """(line, section, title) for each promise of the page; no title where one of its parts is missing."""
    section = ""
    for number, line in enumerate((DOCS / "PROMISES.md").read_text().split("\n"), 1):
        section = line.removeprefix("## ") if line.startswith("## ") else section
        if line.startswith("**["):
            found = PROMISE.fullmatch(line)
            yield number, section, found and found[1]


@cache
def carried():
    """What carries each promise, by its title: for each part the calls and their clauses, as they are written."""
    found, title = {}, ""
    for line in CARRIED.read_text().split("\n"):
        if line.startswith("    "):
            found[title].append(line.strip())
        elif line and not line.startswith("#"):
            title = line
            found[title] = []
    return found


def cited_in(parts):
    """(calls, clauses) for each part: `crate::call`, `crate::call`: `clause`, `clause`"""
    for part in parts:
        calls, _, clauses = part.partition(": ")
        yield [one for span in SPAN.findall(calls) for one in expanded(span)], SPAN.findall(clauses)


def wrong_parts(parts):
    for calls, clauses in cited_in(parts):
        found = [call_of(one, []) for one in calls]
        yield from (f"there is no call `{one}`" for one, call in zip(calls, found) if not call)
        if not calls:
            yield f"no call carries {', '.join(clauses) or parts}"
        named = [call for call in found if call]
        for clause in clauses:
            if not is_label(clause, named) and not is_said(clause, named):
                yield f"`{clause}` is no clause of {', '.join(calls)}"


def check_promises():
    """each promise of PROMISES has its words, what it supposes, and in tests/promises.txt a call with its clauses, which are there"""
    titles = []
    for number, _, title in promises():
        titles.append(title)
        if not title:
            yield f"docs/PROMISES.md:{number}: a promise is a title that is a link, a text, and what it supposes"
    shown_as = [title for title in titles if title]
    if shown_as != list(carried()):
        yield f"docs/PROMISES.md and tests/promises.txt differ, or their order does: {', '.join(sorted(set(shown_as) ^ set(carried())))}"
    for title, parts in carried().items():
        yield from (f"tests/promises.txt, {title}: {what}" for what in wrong_parts(parts))
        if not parts:
            yield f"tests/promises.txt, {title}: nothing carries it"
    if not titles:
        yield "docs/PROMISES.md: no promise was found"


def check_names():
    """what a page cites as crate::name, or as a file of a crate's definitions, is there"""
    for path in by_hand():
        for number, line in enumerate(path.read_text().split("\n"), 1):
            for part in (part for span in SPAN.findall(line) for part in expanded(span)):
                match = re.fullmatch(r"(\w+)::[\w:]+", part)
                if match and match.group(1) in CRATES and not is_known(part, [match.group(1)]):
                    yield f"{shown(path, number)}: there is no `{part}`"
            for names, crate in FILES_OF.findall(line):
                yield from (f"{shown(path, number)}: {crate} has no specs/{name}.antt" for name in SPAN.findall(names)
                            if not (ROOT / "crates" / crate / "specs" / f"{name}.antt").exists())


# ---- definitions


def check_meanings():
    """no two definitions of all crates share a name"""
    places = {}
    for crate in CRATES.values():
        for one in crate.definitions:
            places.setdefault(one.name, []).append(shown(one.path, one.line))
    for word, found in sorted(places.items()):
        if len(found) > 1:
            yield f"`{word}`: {', '.join(found)}"


# ---- ARCHITECTURE, COMMANDS, crates.txt


def check_architecture():
    """ARCHITECTURE names each group of crates.txt, and no crate that isn't there"""
    text = (DOCS / "ARCHITECTURE.md").read_text()
    named = set(re.findall(r"^\| \[([^\]]*)\]\(reference/CRATES\.md#", text, re.M))
    for group in sorted({group for group, _ in groups_of_crates()} ^ named):
        yield f"docs/ARCHITECTURE.md: {group} is {'no group' if group in named else 'a group without a row'}"


@cache
def commands():
    source = (CRATES["mtc_words"].folder / "src" / "name.rt").read_text()
    return set(re.findall(r'^\s*"([a-z0-9-]+)" =>', source, re.M))


def check_commands():
    """COMMANDS has the commands that the words can name, each once"""
    table = (DOCS / "COMMANDS.md").read_text().split("\n## ")[0]
    rows = re.findall(r"^\| `([a-z0-9-]+)[ A-Z`]", table, re.M)
    for name in sorted(commands() ^ set(rows)):
        yield f"docs/COMMANDS.md: {name} is {'not in the table' if name in commands() else 'no command'}"
    if len(rows) != len(set(rows)) or not commands():
        yield "docs/COMMANDS.md: a command stands twice, or none was found"


# Refusals of a log that no command can meet: it appends once, and asks for no entry.
NEVER = {"Broken"}


def reasons():
    """The words of refusals by the definition that gives them: all definitions of the files Reasons.antt."""
    return {one.name: texts_of(name)[one.name] for name, crate in CRATES.items() for one in crate.definitions
            if one.path.name == "Reasons.antt"}


def printed_texts():
    """The texts that the program prints: those of its own crates, and of the reasons that these name, also through others."""
    texts = [file.text for name, crate in CRATES.items() if name.startswith("mtc_") and name != "mtc_c" for file in crate.files]
    texts += [path.read_text() for name, crate in CRATES.items() if name.startswith("mtc_") and name != "mtc_c"
              for path in (crate.folder / "specs").rglob("*.antt") if path.name != "Reasons.antt"]
    found, more = reasons(), texts
    while more:
        words = set(WORD.findall(" ".join(more)))
        more = [found.pop(name) for name in list(found) if name in words]
        texts = texts + more
    return texts


def printed_names():
    """The names of refusals and failures in the texts that contracts and definitions write."""
    found = {"NotUtf8"}  # printed by `main`, of which no clause speaks
    for text in printed_texts():
        found |= set(re.findall(r'codes "(?:mtc: |refused )?([A-Z]\w+)', text))
    return found - NEVER


def check_refusals():
    """COMMANDS names each refusal that the program can print, and no other"""
    spans = SPAN.findall((DOCS / "COMMANDS.md").read_text())
    named = {word for span in spans for word in re.findall(r"\b[A-Z][a-z]\w+\b", span)}
    printed = printed_names()
    for name in sorted(printed - named):
        yield f"docs/COMMANDS.md: `{name}` isn't named"
    for name in sorted(named - printed):
        yield f"docs/COMMANDS.md: nothing prints `{name}`"


@cache
def below(name):
    """The crates of this repository that a crate stands on, also through others."""
    found = {need for need in CRATES[name].needs if need in CRATES}
    return sorted(found.union(*(below(need) for need in found)))


def in_order():
    """The crates, each after those that it stands on; else in the order of crates.txt."""
    found = []

    def put(name):
        for need in CRATES[name].needs:
            if need in CRATES and need not in found:
                put(need)
        if name not in found:
            found.append(name)

    for name in CRATES:
        put(name)
    return found


def check_order():
    """crates.txt has each crate after those that it stands on"""
    before = set()
    for name, crate in CRATES.items():
        for need in crate.needs:
            if need in CRATES and need not in before:
                yield f"crates.txt: {name} stands before {need} (tests/documents.py --order)"
        before.add(name)
