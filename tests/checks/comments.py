"""Reads what the sources say of themselves: the comments above definitions and calls, and the `//!` lines of crates."""

import re
from dataclasses import dataclass, field

from .sources import DEFINED, ROOT

SECTION = re.compile(r"\s*-- -{2,} *(.*)")
MODULE = re.compile(r"^( *)module _ ")
HEADING = re.compile(r"# (\w[\w ]*)$")


@dataclass
class Group:
    """Definitions that one comment says, or none where nothing is said of them."""
    comment: str
    shown: list = field(default_factory=list)  # the name of each with its type
    title: str = ""  # the section of the file that begins here
    over: str = ""  # the parameters that it has in common with all of its module


def as_prose(text):
    """A comment as a page has it: links of the code's tools become code marks."""
    text = re.sub(r"\[(`[^`]+`)\](?:\([^)]*\)|\[[^\]]*\])?", r"\1", text)
    return " ".join(text.split())


def first_sentence(text):
    """The first sentence of a text; a point within code marks or parentheses ends none."""
    bare = re.sub(r"`[^`]*`|\([^()]*\)", lambda match: "x" * len(match.group()), text)
    end = re.search(r"[.!?](?=\s+[A-Zx`\[]|$)", bare)
    return text[:end.end()] if end else text


def head_of(text, mark):
    """The comment with which a file begins, up to its first empty line."""
    lines = []
    for line in text.split("\n"):
        if not line.startswith(mark) or not line[len(mark):].strip():
            break
        lines.append(line[len(mark):].strip())
    return as_prose(" ".join(lines))


def crate_file(crate):
    """The file with which a crate begins."""
    return next(path for name in ("lib.rt", "main.rt") if (path := crate.folder / "src" / name).exists())


def crate_sentence(crate):
    return first_sentence(head_of(crate_file(crate).read_text(), "//!"))


def crate_note(crate):
    """What a crate's head says that no clause says: its paragraph that begins so, or nothing."""
    head = re.match(r"(?://!.*\n)*", crate_file(crate).read_text()).group()
    parts = "\n".join(line[3:].strip() for line in head.split("\n")).split("\n\n")
    return next((as_prose(part) for part in parts if part.startswith("No clause says")), "")


def file_sentence(path):
    return head_of(path.read_text(), "--")


def head_of_definition(lines, number):
    """A definition's name with its type, and what kind it is where that is a record or a list of cases."""
    indent = len(lines[number]) - len(lines[number].lstrip())
    end = number + 1
    while end < len(lines) and lines[end].strip() and len(lines[end]) - len(lines[end].lstrip()) > indent:
        if re.search(r"\bwhere$", lines[end - 1]):
            break
        end += 1
    text = " ".join(" ".join(lines[number:end]).split())
    text = re.sub(r"^(?:abbrev|unfoldable|opaque) pub ", "", text)
    text = re.sub(r"^pub (record|data) ", r"\1 ", text)
    return re.sub(r" where$", "", re.split(r" = ", text)[0] if text.startswith(("record", "data")) else text)


def parameters_of(lines):
    """The parameters of the module that begins here."""
    end = next(number for number, line in enumerate(lines) if line.endswith("where"))
    return " ".join(" ".join(lines[:end + 1]).split()).removeprefix("module _ ").removesuffix(" where")


def groups_of(path):
    """The definitions of a file of specs/, each with those after it that have no comment of their own."""
    lines = path.read_text().split("\n")
    groups, comment, title, over, depth, body = [], [], "", "", 0, None
    for number, line in enumerate(lines):
        section, module, defined = SECTION.match(line), MODULE.match(line), DEFINED.match(line)
        indent = len(line) - len(line.lstrip())
        if section:
            comment, title = [], section.group(1)
        elif line.strip().startswith("--"):
            if body is None or indent <= body:  # what stands within a definition is of its fields or cases
                comment.append(line.strip()[2:].strip())
        elif module:
            depth, over, body = len(module.group(1)) + 1, parameters_of(lines[number:]), None
            title, comment = title or " ".join(comment), []
        elif defined:
            over = over if len(defined.group(1)) >= depth else ""
            if comment or title or not groups or groups[-1].over != over:
                groups.append(Group(as_prose(" ".join(comment)), [], as_prose(title), over))
            groups[-1].shown.append(head_of_definition(lines, number))
            comment, title, body = [], "", indent
        elif line.startswith(("use ", "open ")):
            comment = []
        elif not line.strip() and comment:
            comment, title = [], " ".join(comment)
    return groups


def doc_of(lines, line):
    """The comment above an item that begins in this line, counted from 1."""
    found = []
    for text in reversed(lines[:line - 1]):
        bare = text.strip()
        if bare.startswith("//"):
            found.append(bare.lstrip("/").strip())
        elif not bare.startswith(("#[", "ghost use ")) or not bare:
            break
    return as_prose(re.split(r"```|\n# ", "\n".join(reversed(found)))[0])


def groups_of_crates():
    """(group, names) in the order of crates.txt."""
    found = []
    for line in (ROOT / "crates.txt").read_text().split("\n"):
        heading = HEADING.match(line)
        if heading:
            found.append((heading.group(1), []))
        elif re.match(r"\w+( staticlib)?:", line):
            found[-1][1].append(line.split(":")[0].split()[0])
    return found
