"""Reads the sources of the crates: functions with the labels of their clauses, and definitions."""

import re
from dataclasses import dataclass, field
from functools import cached_property
from pathlib import Path

ROOT = Path(__file__).resolve().parents[2]
NAME = r"[A-Za-z_][A-Za-z0-9_]*"
# How the names of functions begin that do nothing, so that their clauses are theorems: laws, and witnesses of what laws suppose.
THEOREMS = ("law_", "witness_")


@dataclass(eq=False)
class Function:
    name: str
    owner: str  # the type or the trait that it stands in, or nothing
    public: bool
    path: Path
    line: int
    length: int = 0  # lines, without those of the contract
    labels: list = field(default_factory=list)
    ensures: list = field(default_factory=list)  # the labels of what it ensures, nothing for a clause without one
    words: set = field(default_factory=set)  # the words of its clauses
    requires: bool = False
    of_trait: bool = False  # it stands in the impl of a trait
    is_test: bool = False
    span: tuple = ()  # where it begins in its file, where its contract ends, and where its body does


@dataclass
class Definition:
    name: str
    path: Path
    line: int


def blanked(text):
    """The text with comments, strings and characters blanked out; lines and columns stay."""
    out = list(text)

    def blank(start, end):
        for i in range(start, min(end, len(out))):
            if out[i] != "\n":
                out[i] = " "

    token = re.compile(r'//[^\n]*|/\*.*?\*/|b?"(?:\\.|[^"\\])*"|b?\'(?:\\.[^\']*|[^\'\\])\'', re.S)
    for match in token.finditer(text):
        blank(match.start(), match.end())
    return "".join(out)


def after_braces(text, place):
    """The place after the braces that open here."""
    depth = 0
    for match in re.compile(r"[{}]").finditer(text, place):
        depth += 1 if match.group() == "{" else -1
        if depth == 0:
            return match.end()
    return len(text)


def after_head(text, place):
    """The place of what follows a function's parameters and result: a clause, its body, or a semicolon."""
    depth = 0
    for match in re.compile(r"[()\[\]{;]|\b(?:requires|ensures|where)\b").finditer(text, place):
        token = match.group()
        if token in "([":
            depth += 1
        elif token in ")]":
            depth -= 1
        elif depth == 0:
            return match.start()
    return len(text)


WORD = re.compile(r"[^\W\d][\w-]*")
CLAUSE = re.compile(rf"\s*(requires|ensures)\*?\s*({NAME})?\s*\{{")
WHERE = re.compile(r"\s*where\b[^{;]*?(?=\{|;|\brequires\b|\bensures\b)", re.S)
FUNCTION = re.compile(rf"^([ \t]*)(pub(?:\([a-z]+\))? +)?(?:const +)?(?:extern +(?:\x22C\x22 +)?)?fn +({NAME})", re.M)
OWNER = re.compile(rf"^(pub(?:\([a-z]+\))? +)?(impl|trait)\b([^{{;]*)\{{", re.M)
MEMBER = re.compile(rf"^[ \t]+(?:pub +)?ghost +({NAME})\s*[:=]", re.M)
BORROWED_SLICE = re.compile(r"&(?:'\w+ +)?\[")


def owner_name(kind, head):
    """The type of an impl, `RefSlice` for a borrowed slice, or the name of a trait."""
    head = re.sub(r"\bwhere\b.*", "", head, flags=re.S).strip()
    while head.startswith("<"):
        depth = 0
        for i, sign in enumerate(head):
            depth += {"<": 1, ">": -1}.get(sign, 0)
            if depth == 0:
                head = head[i + 1:].strip()
                break
    if kind == "impl" and " for " in head:
        head = head.split(" for ", 1)[1]
    if BORROWED_SLICE.match(head):
        return "RefSlice"
    match = re.search(NAME, head.split("<")[0])
    return match.group() if match else ""


class SourceFile:
    """One .rt file."""

    def __init__(self, path):
        self.path = path
        self.text = path.read_text()
        self.bare = blanked(self.text)

    @cached_property
    def owners(self):
        found = []
        for match in OWNER.finditer(self.bare):
            public = bool(match.group(1)) and match.group(2) == "trait"
            span = (match.start(), after_braces(self.bare, match.end() - 1))
            kind = "impl of a trait" if match.group(2) == "impl" and " for " in match.group(3) else match.group(2)
            found.append((span, owner_name(match.group(2), match.group(3)), kind, public))
        return found

    def owner_at(self, place):
        for (start, end), name, kind, public in self.owners:
            if start <= place < end:
                return name, kind, public
        return "", "", False

    @cached_property
    def functions(self):
        found = []
        for match in FUNCTION.finditer(self.bare):
            owner, kind, open_trait = self.owner_at(match.start())
            public = (match.group(2) or "").strip() == "pub" or (kind == "trait" and open_trait)
            line = self.bare.count("\n", 0, match.start()) + 1
            one = Function(match.group(3), owner, public, self.path, line, of_trait=kind == "impl of a trait")
            one.is_test = "#[test]" in self.text[:match.start()].rstrip().rsplit("\n\n", 1)[-1][-200:]
            place = after_head(self.bare, match.end())
            begin = place
            while True:
                where = WHERE.match(self.bare, place)
                if where and where.end() > place:
                    place = where.end()
                clause = CLAUSE.match(self.bare, place)
                if not clause:
                    break
                one.labels.append(clause.group(2) or "")
                one.requires |= clause.group(1) == "requires"
                one.ensures += [clause.group(2) or ""] * (clause.group(1) == "ensures")
                place = after_braces(self.bare, clause.end() - 1)
                one.words |= set(WORD.findall(self.bare[clause.end():place]))
                by = re.match(r"\s*by\s*\{", self.bare[place:])
                if by:
                    place = after_braces(self.bare, place + by.end() - 1)
            contract = self.bare.count("\n", begin, place) if one.labels else 0
            rest = re.match(r"\s*([{;])", self.bare[place:])
            end = place
            if rest and rest.group(1) == "{":
                end = after_braces(self.bare, place + rest.end() - 1)
            one.length = self.bare.count("\n", match.start(), end) + 1 - contract
            one.span = (match.start(), place, end)
            found.append(one)
        return found

    @cached_property
    def members(self):
        """Ghost members of traits and types: meanings and laws."""
        return {match.group(1) for match in MEMBER.finditer(self.bare)}

    @cached_property
    def trait_words(self):
        """(trait, name, line) for each ghost member of a public trait."""
        found = []
        for match in MEMBER.finditer(self.bare):
            owner, _, is_open = self.owner_at(match.start())
            if is_open:
                found.append((owner, match.group(1), self.bare.count("\n", 0, match.start(1)) + 1))
        return found


DEFINED = re.compile(r"^( *)(?:abbrev pub|unfoldable pub|opaque pub|pub record|pub data) +([^\s:({]+)")


def definitions_of(path):
    """The public definitions of a file of specs/."""
    found = ((number, DEFINED.match(text)) for number, text in enumerate(path.read_text().split("\n"), 1))
    return [Definition(match[2], path, number) for number, match in found if match]


class Crate:
    """One crate, with its door: what lib.rt offers."""

    def __init__(self, name, needs):
        self.name = name
        self.needs = needs
        self.folder = ROOT / "crates" / name

    @cached_property
    def files(self):
        return [SourceFile(path) for path in sorted((self.folder / "src").rglob("*.rt"))]

    @cached_property
    def definitions(self):
        found = []
        for path in sorted((self.folder / "specs").rglob("*.antt")):
            found += definitions_of(path)
        return found

    @cached_property
    def members(self):
        return set().union(*(file.members for file in self.files)) if self.files else set()

    @cached_property
    def functions(self):
        return [one for file in self.files for one in file.functions]

    def offered_by(self, path):
        """The names that a file and the modules that it opens offer."""
        text = blanked(path.read_text())
        names = set(re.findall(rf"^pub +(?:const +)?(?:extern +(?:\x22C\x22 +)?)?fn +({NAME})", text, re.M))
        names |= set(re.findall(rf"^pub +(?:struct|enum|trait|type|const|static) +({NAME})", text, re.M))
        for group in re.findall(r"^pub use ([^;]+);", text, re.M):
            for part in re.findall(NAME, re.sub(r"[\w]+::", "", re.sub(r"\w+ as ", "", group))):
                names.add(part)
        for module in re.findall(rf"^pub mod ({NAME});", text, re.M):
            folder = path.parent if path.stem in ("lib", "main", "mod") else path.parent / path.stem
            for inner in (folder / f"{module}.rt", folder / module / "mod.rt"):
                if inner.exists():
                    names |= self.offered_by(inner)
        return names

    @cached_property
    def door(self):
        root = self.folder / "src" / "lib.rt"
        return self.offered_by(root) if root.exists() else set()

    @cached_property
    def calls(self):
        """The functions that others can call, by Type::name or name."""
        found = {}
        for one in self.functions:
            shown = one.owner or one.name
            if not one.public or one.is_test or shown not in self.door:
                continue
            key = f"{one.owner}::{one.name}" if one.owner else one.name
            found.setdefault(key, one)
        return found

    @cached_property
    def fulfilled(self):
        """The calls of traits of which a type that others see ensures more than the trait does, by Type::name."""
        found = {}
        for one in self.functions:
            if one.of_trait and one.ensures and one.owner in self.door and not one.is_test:
                found.setdefault(f"{one.owner}::{one.name}", one)
        return found

    @cached_property
    def methods(self):
        """Type::name of each function that stands in an impl or a trait."""
        return {f"{one.owner}::{one.name}" for one in self.functions if one.owner and not one.is_test}

    @cached_property
    def labels(self):
        return {label for one in self.functions for label in one.labels if label}

    @cached_property
    def text(self):
        return "".join(file.bare for file in self.files)

    @cached_property
    def types(self):
        return set(re.findall(rf"\b(?:struct|enum|trait|type) +({NAME})", self.text))

    @cached_property
    def variants(self):
        return set(re.findall(r"^ +([A-Z]\w*)(?:\([^)]*\)|\s*\{[^}]*\})?,", self.text, re.M))


def crates():
    """The crates of crates.txt, in its order."""
    found = []
    for line in (ROOT / "crates.txt").read_text().split("\n"):
        line = line.split("#")[0].strip()
        if line:
            name, _, needs = line.partition(":")
            found.append(Crate(name.split()[0], needs.split()))
    return found
