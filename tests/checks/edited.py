"""Edits, the functions that they change, and the sums of what the answer to an edit stands on."""

import hashlib
import re
from collections import namedtuple
from functools import cache

from .citations import CRATES
from .contracts import plain
from .definitions import TOKEN, declared, imports_of, module_of, sign_of
from .sources import BORROWED_SLICE, NAME, ROOT, after_braces

EDITS = ROOT / "tests" / "edits"
# What a function is to a check: its file with its lines, the folders that its proofs may have, and itself in the sources.
Place = namedtuple("Place", "file begin end places source function")
# What an answer stands on: the edit, the functions that it changes, the definitions and types that these and the contracts of what
# they call name, with all below, these contracts, and the proofs by hand of the functions.
Sums = namedtuple("Sums", "edit function definitions called proofs")
ITEM = re.compile(rf"^[ \t]*(?:pub(?:\([a-z]+\))? +)?(?:struct|enum|trait|type|const|static) +({NAME})", re.M)
USE = re.compile(r"\buse +(\w+)::([^;]+);")
CALLED = re.compile(rf"\b({NAME})\s*(?:::<[^;(){{}}]*>)?\(")


# ---- edits


def folders_of(name):
    """The two folders in which edits of a crate stand: those that the gate tries, and those that it does not."""
    return ROOT / "crates" / name / "must-fail", EDITS / name


def edits_of(name):
    """The edits of a crate, of both folders."""
    return sorted((path for folder in folders_of(name) for path in folder.glob("*.edit")), key=lambda path: path.name)


def with_edits():
    """The crates that have an edit in either folder."""
    return [name for name in CRATES if edits_of(name)]


def changes_of(edit):
    """(file, old, new) for each change of an edit, as `rt` reads them."""
    file = old = ""
    for line in edit.read_text().split("\n"):
        if line.startswith("file: "):
            file = line.removeprefix("file: ").strip()
        elif line.startswith("old: "):
            old = line.removeprefix("old: ")
        elif line.startswith("new:"):
            yield file, old, line.removeprefix("new:").removeprefix(" ")


def begin_of(function, lines):
    """The line of a function's first attribute or comment: a check names that line for the whole function."""
    begin = function.line
    while begin > 1 and lines[begin - 2].strip().startswith(("#[", "//")):
        begin -= 1
    return begin


def modules_of(crate, file):
    """The modules of a file, as a folder."""
    parts = file.path.relative_to(crate.folder).with_suffix("").parts[1:]
    return "/".join(it for it in parts if it not in ("lib", "main", "mod"))


def places_of(crate, function, file):
    """The folders that a function's proofs may have: its modules or those of its type, its type with its trait, its name."""
    if not function.owner:
        return (f"{modules_of(crate, file)}/{function.name}".removeprefix("/"),)
    is_declared = re.compile(rf"\b(?:struct|enum|trait) +{function.owner}\b")
    homes = {modules_of(crate, it) for it in crate.files if it is file or is_declared.search(it.bare)}
    owner = BORROWED_SLICE.pattern if function.owner == "RefSlice" else rf"{function.owner}\b"
    traits = re.findall(rf"^impl\b[^{{;]*?\b(\w+)(?:<[^{{;]*?>)? for {owner}", file.bare, re.M)
    return tuple(sorted(f"{home}/{function.owner}{trait}/{function.name}".removeprefix("/")
                        for home in homes for trait in {"", *traits}))


class Edit:
    """One edit, with the functions that it changes."""

    def __init__(self, crate, path):
        self.crate, self.path, self.name = crate, path, path.name.removesuffix(".edit")
        self.changes = list(changes_of(path))
        self.functions = {self.function_at(file, old) for file, old, _ in self.changes}

    @property
    def key(self):
        return f"{self.crate.name}/{self.name}"

    def function_at(self, name, old):
        """The function that holds a text of a file, or nothing; each ends where the next begins."""
        file = next((it for it in self.crate.files if it.path == self.crate.folder / name), None)
        if file is None or old not in file.text:
            return None
        line = file.text.count("\n", 0, file.text.index(old)) + 1
        begins = [begin_of(one, file.text.split("\n")) for one in file.functions]
        for one, begin, end in zip(file.functions, begins, [*begins[1:], file.text.count("\n") + 2]):
            if begin <= line < end:
                return Place(name, begin, end, places_of(self.crate, one, file), file, one)
        return None

    @property
    def stands_alone(self):
        return None in self.functions

    def names(self):
        """What a check names the functions that it changes, and those that use a constant that it changes; None for one that isn't clear."""
        places = [it for it in self.functions if it]
        for name in self.constants():
            uses = re.compile(rf"\b{name}\b")
            places += [Place("", 0, 0, places_of(self.crate, one, file), file, one) for file in self.crate.files
                       for one in file.functions if not one.is_test and uses.search(file.bare[slice(*one.span[::2])])]
        return {name_of(self.crate, it) for it in places} or {None}

    def constants(self):
        """The constants outside of functions that it changes."""
        for name, old, _ in self.changes:
            file = next((it for it in self.crate.files if it.path == self.crate.folder / name), None)
            if file and old in file.text and not self.function_at(name, old):
                before = list(ITEM.finditer(file.bare, 0, file.text.index("\n", file.text.index(old))))
                yield from [before[-1][1]] if before else []

    def applied(self, folder):
        """Makes the edit below a folder, or says why it can't be made."""
        for file, old, new in self.changes:
            path = folder / file
            count = path.read_text().count(old) if path.is_file() else 0
            if count != 1:
                return f"an old text of it stands in {file} {count} times, and not once"
            path.write_text(path.read_text().replace(old, new))
        return None if self.changes else "it changes nothing"

    def sums(self):
        own = sorted((it for it in self.functions if it), key=lambda it: (it.file, it.begin))
        if self.stands_alone:  # a constant: all of the crate may use it
            own = [Place(str(file.path.relative_to(self.crate.folder)), 0, 0, (), file, one) for file in self.crate.files
                   for one in file.functions if not one.is_test]
        texts, known, waiting, called = [], set(), [], set()
        for place in own:
            begin, contract, end = place.function.span
            texts.append(f"{place.file} {head_of(place.source, place.function)} {plain(place.source.text[begin:end])}")
            waiting.append((self.crate.name, place.source, place.source.bare[begin:end], place.function.owner))
            called |= contracts_of_calls(self.crate.name, place.source.bare[contract:end])
        waiting += [(crate, file, file.bare[slice(*span)], owner) for crate, file, span, owner, _ in called]
        if self.stands_alone:
            texts += [plain(file.text) for file in self.crate.files]
        return Sums(sum_of(self.path.read_text()), sum_of(*map(squeezed, texts)), sum_of(*reached(waiting, known)),
                    sum_of(*sorted(text for *_, text in called)), proofs_sum(self.crate, own))


# ---- what a function stands on


def sum_of(*texts):
    """A short sum of texts: the first 12 signs of their SHA-256."""
    return hashlib.sha256("\0".join(texts).encode()).hexdigest()[:12]


def squeezed(text):
    return " ".join(text.split())


def head_of(file, function):
    """The head of the impl or the trait in which a function stands."""
    spans = [span for span, *_ in file.owners if span[0] <= function.span[0] < span[1]]
    return plain(file.text[spans[0][0]:file.bare.index("{", spans[0][0])]) if spans else ""


def name_of(crate, place):
    """A function as a check names it, or nothing where the sources don't say which of its places is the one."""
    owner, trait = place.function.owner, re.search(r"\b(\w+)(?:<.*>)? for ", head_of(place.source, place.function))
    wanted = f"/{owner}{trait[1] if trait else ''}/{place.function.name}" if owner else f"/{place.function.name}"
    found = [it for it in place.places if f"/{it}".endswith(wanted)]
    if len(found) > 1 and not trait:  # what a type can do stands where the type is declared
        found.remove(f"{modules_of(crate, place.source)}{wanted}")
    return "::".join([crate.name, *found[0].split("/")]) if len(found) == 1 else None


def near(name):
    """A crate, and those of this repository that it names."""
    return [name, *(need for need in CRATES[name].needs if need in CRATES)]


@cache
def calls_by_name(crate):
    """(crate, file, span, owner, text) for each function of a crate that requires or ensures something, by its name."""
    found = {}
    for file in CRATES[crate].files:
        for one in file.functions:
            if one.labels and not one.is_test:
                span = one.span[:2]
                text = f"{crate} {head_of(file, one)} {plain(file.text[slice(*span)])}"
                found.setdefault(one.name, []).append((crate, file, span, one.owner, squeezed(text)))
    return found


def contracts_of_calls(crate, body):
    """The contracts of all functions that a body may call, by their names."""
    names = set(CALLED.findall(body))
    return {one for home in near(crate) for name in names for one in calls_by_name(home).get(name, ())}


@cache
def items_of(crate):
    """(file, text) for each type, trait and constant of a crate, by name: with what impls say of a type but its functions."""
    found = {}
    for file in CRATES[crate].files:
        for match in ITEM.finditer(file.bare):
            opened = re.compile(r"[{;]").search(file.bare, match.end())
            end = len(file.bare) if not opened else after_braces(file.bare, opened.start()) if opened[0] == "{" else opened.end()
            found.setdefault(match[1], []).append((file, match.start(), end))
        for (begin, end), owner, kind, _ in file.owners:
            if kind.startswith("impl") and re.search(r"^[ \t]+(?:pub )?ghost ", file.bare[begin:end], re.M):
                first = next((one.span[0] for one in file.functions if begin <= one.span[0] < end), end)
                found.setdefault(owner, []).append((file, begin, first))
    return found


@cache
def homes_of(file):
    """The crate from which each name of a file comes, as its imports say."""
    found = {}
    for source, names in USE.findall(file.bare):
        for name in re.findall(rf"({NAME})(?= *[,}}]| *$)", names.strip()):
            found[name] = source
    return found


def items_named(crate, file, token):
    """(crate, name) for each type, trait or constant that a word of a file may mean."""
    if token in items_of(crate):
        return [(crate, token)]
    home = homes_of(file).get(token)
    others = [home] if home in CRATES and token in items_of(home) else near(home if home in CRATES else crate)
    return [(one, token) for one in others if token in items_of(one)]


@cache
def names_of_file(file):
    return {sign_of(name): origin for name, origin in imports_of(file.text).items()}


def named_in(crate, file, bare):
    """What a text of a file names: ("spec", module, name), ("item", crate, name)."""
    tokens, names = set(TOKEN.findall(bare)) | set(re.findall(NAME, bare)), names_of_file(file)
    for token in tokens:
        if token in names:
            yield from origin_of(*names[token])
        if re.match(r"[A-Z]", token):
            yield from (("item", *one) for one in items_named(crate, file, token))


def origin_of(dotted, name):
    if ".specs.declared." in dotted:
        crate, owner = declared(dotted)
        yield "item", crate, name if owner == "TheConstants" else owner
    elif module_of(dotted):
        yield "spec", dotted, name


def said_by(kind, home, name):
    """The text of a definition, or of a type with what is said of it, and what that names."""
    if kind == "spec":
        module = module_of(home)
        whole = module.owners.get(sign_of(name), name)
        body = [re.sub(r"\s--( .*)?$", "", line) for line in module.bodies.get(whole, ())]
        yield f"{home}.{whole} {module.heads} {squeezed(' '.join(body))}", [
            one for dotted, other in module.names_in("\n".join(body) + module.heads) for one in origin_of(dotted or home, other)]
    elif home in CRATES:
        for file, begin, end in items_of(home).get(name, ()):
            yield f"{home} {squeezed(plain(file.text[begin:end]))}", list(named_in(home, file, file.bare[begin:end]))


@cache
def said(kind, home, name):
    return list(said_by(kind, home, name))


def reached(waiting, found):
    """The texts of all definitions and types that texts name, also through others."""
    waiting = [one for crate, file, bare, owner in waiting for one in named_in(crate, file, f"{bare} {owner}")]
    texts = set()
    while waiting:
        one = waiting.pop()
        if one not in found:
            found.add(one)
            for text, more in said(*one):
                texts.add(text)
                waiting += more
    return sorted(texts)


def proofs_sum(crate, places):
    """The sum of the proofs by hand of these functions."""
    texts = []
    for place in sorted({one for it in places for one in it.places}):
        parent, _, name = place.rpartition("/")
        for folder in (crate.folder / "proofs" / parent / name, crate.folder / "proofs" / parent / f"+{name}"):
            texts += [f"{path.name} {path.read_text()}" for path in sorted(folder.rglob("*.antt"))]
    return sum_of(*texts) if texts else "-"
