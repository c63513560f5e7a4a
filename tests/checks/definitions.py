"""The definitions of specs/, and what each of them names."""

import re
from functools import cache

from .sources import ROOT

USE = re.compile(r"^\s*(?:pub |ghost )*(?:use|open) Rattle\.([\w.]+)\.\{([^}]*)\};?", re.M)
HEAD = re.compile(r"^ *(abbrev|unfoldable|opaque|(?:pub )?(?:record|data))(?: pub)? +([^\s:({]+)")
TOKEN = re.compile(r"[^\s(){}\[\].,;∷]+|∷")


def imports_of(text):
    """Where each name comes from: the module, and its name there."""
    found = {}
    for match in USE.finditer(text):
        for item in match.group(2).split(","):
            there, _, here = item.strip().partition(" as ")
            if there:
                found[(here or there).strip()] = (match.group(1), there)
    return found


def sign_of(name):
    """How an operator is written where it is used."""
    if "◌" not in name:
        return name
    return next((part for part in name.split("◌") if part), name)


class Module:
    """A file of specs/, cut into its definitions."""

    def __init__(self, path):
        self.path = path
        # the definitions, and the one to which each of their names and constructors belongs
        self.bodies, self.owners = {}, {}
        text = path.read_text()
        self.imports = {sign_of(name): origin for name, origin in imports_of(text).items()}
        # the parameters that definitions have in common
        self.heads = " ".join(" ".join(re.findall(r"^ *module _ .*?\bwhere$", text, re.M | re.S)).split())
        name, lines = None, text.split("\n")
        for line in lines:
            if line.strip().startswith("--") or line.startswith(("use ", "open ", "module ", "infix", "import ")):
                if not line.strip().startswith("--"):
                    name = None
                continue
            match = HEAD.match(line)
            if match:
                kind, name = match.groups()
                self.bodies[name] = []
                self.owners[sign_of(name)] = name
            if name and line.strip():
                self.bodies[name].append(line)
                inner = re.match(r"^ +(?:pub )?([^\s:(){}=]+) *:", line)
                if inner and not match and kind.endswith("data"):
                    self.owners.setdefault(inner.group(1), name)

    def names_in(self, text):
        """The definitions that a text names, as (module, name); the module is a file or a module of the kit."""
        for token in set(TOKEN.findall(text)):
            if token in self.imports:
                yield self.imports[token]
            elif token in self.owners:
                yield None, self.owners[token]


@cache
def module_of(dotted):
    """The file of a module of this repository, or nothing where it is the kit's."""
    crate, _, rest = dotted.partition(".")
    if rest.startswith("specs.") and not rest.startswith("specs.declared."):
        path = ROOT / "crates" / crate / "specs" / (rest[len("specs."):].replace(".", "/") + ".antt")
        if path.exists():
            return Module(path)
    return None


def declared(dotted):
    """The crate and the name of a type of the code, from the module in which contracts see it."""
    crate, _, place = dotted.partition(".specs.declared.")
    return crate, place.removesuffix(".TheVariants").split(".")[-1]
