"""Types that hold a secret, and what may not be done with one."""

import re

from .citations import CRATES
from .pages import shown
from .sources import NAME, after_braces

# The types that a private key is made of. Each type that has one of them in it holds a secret too.
SECRETS = {("lms_core", "Secret"), ("lms_core", "PrivateKey")}
# What would copy a secret, print it, or show something of it by the time that it takes.
FORBIDDEN = {"Clone", "Copy", "Debug", "Display", "PartialEq", "Eq", "PartialOrd", "Ord", "Hash", "Serialize"}
TYPE = re.compile(rf"((?:#\[[^\]]*\]\s*)*)(?:pub(?:\([a-z]+\))? +)?(?:struct|enum) +({NAME})[^{{;(]*([{{(])")
IMPL = re.compile(rf"\bimpl\b(?:<[^{{]*?>)? +(?:{NAME}::)*({NAME})(?:<[^{{]*?>)? +for +({NAME})")
USE = re.compile(r"\buse +(\w+)::([^;]+);")


def imports_of(crate, file):
    """The crate from which each name of a file comes."""
    found = {}
    for source, names in USE.findall(file.bare):
        home = source if source in CRATES else crate.name
        for name in re.findall(rf"({NAME})(?= *[,}}]| *$)", names.strip()):
            found[name] = home
    return found


def home_of(name, home):
    """The crate and the name of a type, after what a crate re-exports of others."""
    root = next((file for file in CRATES[home].files if file.path.stem in ("lib", "main")), None)
    further = imports_of(CRATES[home], root).get(name, home) if root else home
    return (home, name) if further == home else home_of(name, further)


def types_of(crate):
    """(file, line, name, derived, held) for each type: the traits that it derives, and the types that it has in it."""
    for file in crate.files:
        imports = imports_of(crate, file)
        for match in TYPE.finditer(file.bare):
            begin = match.end() - 1
            end = after_braces(file.bare, begin) if match[3] == "{" else file.bare.find(";", begin)
            derived = set(re.findall(NAME, " ".join(re.findall(r"derive\(([^)]*)\)", match[1]))))
            names = re.findall(rf"\b[A-Z]{NAME}", file.bare[begin:end])
            held = {home_of(name, imports.get(name, crate.name)) for name in names}
            yield file, file.bare.count("\n", 0, match.start(2)) + 1, match[2], derived, held


def holders(types):
    """The types that hold a secret, those of SECRETS among them."""
    found = set(SECRETS)
    while True:
        more = {key for key, (_, _, _, held) in types.items() if held & found} - found
        if not more:
            return found
        found |= more


def impls():
    """(type, trait, file, line) for each implementation of a trait that may not be."""
    for crate in CRATES.values():
        for file in crate.files:
            imports = imports_of(crate, file)
            for match in IMPL.finditer(file.bare):
                if match[1] in FORBIDDEN:
                    home = home_of(match[2], imports.get(match[2], crate.name))
                    yield home, match[1], file, file.bare.count("\n", 0, match.start()) + 1


def check_secrets():
    """no type that holds a secret can be copied, compared or printed"""
    types = {(crate.name, name): (file, line, derived, held) for crate in CRATES.values()
             for file, line, name, derived, held in types_of(crate)}
    yield from (f"{crate}: has no type {name}" for crate, name in sorted(SECRETS - types.keys()))
    found = holders(types)
    for key in sorted(found & types.keys()):
        file, line, derived, _ = types[key]
        yield from (f"{shown(file.path, line)}: {key[1]} derives {name}" for name in sorted(derived & FORBIDDEN))
    yield from (f"{shown(file.path, line)}: {key[1]} has {name}" for key, name, file, line in impls() if key in found)
