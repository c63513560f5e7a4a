"""The places of a new command: what has to stand where, and which of them lack one."""

import re
from dataclasses import dataclass

from .citations import commands
from .sources import ROOT

MOST = 12
# commands whose value is that of another one
VALUES = {"init-cosigner2": "init-cosigner"}


@dataclass
class Place:
    where: str  # a file or a folder
    what: str
    # (file in it, pattern), in which {word} is the command's word, {Name} its name, {Command} its variant and {value} its value
    wanted: list
    on_log: bool = False  # only for work on an open log
    or_in: str = ""  # another file that will do


WORDS, TOP = "crates/mtc_words", "crates/mtc_top"
PLACES = [
    Place(f"{WORDS}/src", "a variant of `Command`; a variant of `Name`, with its word, how many arguments it takes and whether the first "
          "is a journal; a line of `build`, and of `journal_fault` where it names a journal",
          [("command.rt", r"/// `{word}[ `]"), ("command.rt", r"^    {Command}[,(]"), ("name.rt", r'"{word}" => Some\(Name::{Name}\)'),
           ("name.rt", r"Name::{Name}\b.* => \d"), ("name.rt", r"Name::{Name}\b.* => (?:true|false)"), ("building.rt", r"Name::{Name}\b")]),
    Place(f"{WORDS}/specs", "the same tables: its value with its ranges and its journals, its name, and what its arguments say",
          [("Commands.antt", r"^  {value} :"), ("Commands.antt", r"^command_value \(?{Command}\b"), ("Commands.antt", r"^IsInRange \(?{value}\b"),
           ("Commands.antt", r"^journals_of \(?{value}\b"), ("Names.antt", r'codes "{word}"'), ("Names.antt", r"^word_count {Name} ="),
           ("Names.antt", r"^takes_journal {Name} ="), ("Words.antt", r"^command_from {Name} ")]),
    Place(f"{TOP}/src/top.rt", "a line of `perform`, or of `perform_reading` if it has no journal: the call, in the crate of its role", [("", r"Command::{Command}\b(?!.*unreachable)")]),
    Place("crates/mtc_plans", "in `specs/Commands.antt` a line of `plan_of`: the plan, which stands beside it in `specs/`, has its inputs, "
          "its journals and its steps. In `specs/Cited.antt` a line of `command_outcome`: the outcome that its contract cites, a nest of the "
          "steps of `Steps`, in `specs/` of its crate. In `proofs/Planned.antt` a line of `outcome_planned`: that is what comes of the plan. "
          "Where it opens a cosigner's journal, or is given a secret file, a line of `says_so` in `crates/mtc_laws/proofs/Secrets.antt`: what "
          "it prints",
          [("specs/Commands.antt", r"^plan_of h \(?{value} "), ("specs/Cited.antt", r"^command_outcome h \(?{value} "),
           ("proofs/Planned.antt", r"^ *outcome_planned \(?{value} ")]),
    Place("crates/mtc_authority/src/work.rt", "where it works on an open log: a variant of `Work`, and a line of `carry_out`",
          [("", r"^    {Name}[,(]"), ("", r"Work::{Name}\b")], on_log=True),
    Place("crates/test_run/src", "each of its statuses and lines, over a file system in memory", [("", r'^\$ {word}\b|"{word}[ "]')]),
    Place("docs/COMMANDS.md", "a row of the table; a section with each refusal in the order of the tests",
          [("", r"^\| `{word}[ `]"), ("", r"^## (?:.*, )?{word}(?:,|$)")]),
    Place("docs/mtc.1", "nothing by hand: `tests/manual.sh --write` makes it, with `docs/mtc.bash` and the text of `help`, from that table",
          [("", r"^\\fB{man}\\fR(?: \\fI|$)")]),
    Place("tests/commands.sh", "a line with values from outside; or a step of `docs/TOUR.md`", [("", r"^{word} |mtc {word} ")],
          or_in="docs/TOUR.md"),
    Place("tests/allocations.py", "its arguments, for each way in which it ends", [("", r'"{word}[ "]')]),
]


def variant(word):
    return "".join(part.capitalize() for part in word.split("-"))


def filled(pattern, word):
    """A pattern for one command."""
    meant = VALUES.get(word, word)
    names = {"word": word, "value": meant.replace("-", "_"), "man": word.replace("-", r"\\-"), "Name": variant(word),
             "Command": variant(meant)}
    for sign, name in names.items():
        pattern = pattern.replace(f"{{{sign}}}", name)
    return pattern


def text_at(path):
    files = sorted(path.rglob("*.rt")) if path.is_dir() else [path]
    return "\n".join(file.read_text() for file in files if file.exists())


def works_on_a_log(word):
    """Whether its line of `command_outcome` asks for work on an open log."""
    cited = text_at(ROOT / "crates/mtc_plans/specs/Cited.antt")
    line = re.search(filled(r"^command_outcome h \({value} .*?(?=^\S|\Z)", word), cited, re.M | re.S)
    return bool(line) and re.search(r"\boutcome_on_log\b", line.group()) is not None


def missing_at(place, word):
    """What a place lacks of a command: a text for each pattern that stands nowhere in it."""
    for file, pattern in place.wanted:
        texts = text_at(ROOT / place.where / file) + (text_at(ROOT / place.or_in) if place.or_in else "")
        if not re.search(filled(pattern, word), texts, re.M):
            yield f"nothing in {place.where}{'/' * bool(file)}{file} is like {filled(pattern, word)}"


def lacking(word):
    """(place, why) for each place that lacks this command."""
    for place in PLACES:
        missing = [] if place.on_log and not works_on_a_log(word) else list(missing_at(place, word))
        if missing:
            yield place, missing


def table():
    """The list of CONTRIBUTING."""
    return "\n".join(["| Where | What |", "|---|---|", *(f"| `{place.where}` | {place.what} |" for place in PLACES)])


def report(word):
    """Prints which places lack a command, and how many do."""
    found = list(lacking(word))
    for place, why in found:
        print(f"wrong: {place.where} lacks {word}: {place.what}", *why, sep="\n    ")
    print(f"{len(PLACES) - len(found)} of {len(PLACES)} places have {word}, or need none")
    return bool(found)


def check_places():
    """each command stands in each place of CONTRIBUTING's list, and the list is short"""
    if len(PLACES) > MOST:
        yield f"the list has {len(PLACES)} places, and {MOST} is the most"
    for word in sorted(commands()):
        yield from (f"{word}: {what}" for _, why in lacking(word) for what in why)
