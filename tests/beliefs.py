#!/usr/bin/env python3
"""What the statement of `run`, its laws and those of executions rest on: the definitions of its page, and those that these name.

tests/reference_pages.py puts the tables into docs/reference/TRUSTED.md, and the first of them into docs/BELIEFS.md.
Usage: tests/beliefs.py            prints each definition, with its file and its number of lines
"""

import re
import sys
from functools import cache

from checks import edited, ledger
from checks.citations import below
from checks.definitions import TOKEN, declared, imports_of, module_of, sign_of
from checks.sources import CLAUSE, FUNCTION, ROOT, after_braces, after_head, crates

# The sources in which they stand: the crate of `run`, and those of its laws.
OF_LAWS = ("mtc_laws", "mtc_headline")
SOURCES = [path for crate in ("mtc_top", *OF_LAWS) for path in sorted((ROOT / "crates" / crate / "src").rglob("*.rt"))]
# Each statement: what its table is headed by, the functions whose contracts it is, and its pages of definitions. First the
# headline, then the record that `run` ensures with the laws of each run, and then the other laws by what they are of.
LAWS = "mtc_laws.specs.{}Laws"
HEADLINE = ("The headline and its joints name", r"law_(?:the_headline|heard|printed_is|held|verified|good|one|borne)\w*",
            tuple(map("mtc_headline.specs.{}".format, ("Headline", "AuditRuns", "Endings", "Joints", "OneText", "Borne"))))
RUNS = ("The statement names", r"run|law_runs_(?:are|may_lose)_\w+", ("mtc_top.specs.Run", LAWS.format("Run")))
EXECUTIONS = ("The laws of executions name",
              r"law_(?:executions|entries|journals|killed|no|recovered|released|runs_may_be|tiles)_\w+",
              ("mtc_top.specs.Executions", "mtc_laws.specs.Killed", *map(LAWS.format, ("Execution", "Room", "Tile"))))
PRINTS = ("The laws of what is printed name",
          r"law_(?:exports|audits|misread_files|monitors|printed_(?:texts|signatures)|recorded|two)_\w+",
          ("mtc_laws.specs.RecordedTwice",
           *map(LAWS.format, ("Export", "Audit", "Count", "Monitor", "Print", "Quarrel", "Status"))))
CERTIFICATES = ("The laws of certificates name", r"law_(?:certificate|certificates|issued|listed)_\w+",
                tuple(map(LAWS.format, ("Cert", "Acceptance", "List", "Pem"))))
MIRRORS = ("The laws of mirrors name", r"law_(?:cosigners|mirrors|misread_tiles|taken)_\w+",
           ("mtc_laws.specs.MirrorAgreement", *map(LAWS.format, ("Mirror", "Taken"))))
STATEMENTS = (HEADLINE, RUNS, EXECUTIONS, PRINTS, CERTIFICATES, MIRRORS)

# The contracts are generic: what they say of a file system, a device, a stream and a hash function is what these traits ensure.
TRAITS = ("mtc_room/src/room.rt", "disk_core/src/disk.rt", "mtc_io/src/source.rt", "mtc_io/src/sink.rt", "tree_core/src/hashing.rt")

# The promise as a whole is one law. Its level are the crates of what a reader has to take in for it: the list of all their definitions
# on which it rests, with their types of the code, has at most so many. It ends at the words of the crates below, which are those of
# these standards and formats; the definitions of its level on which such a word rests are in the list too.
WHOLE = r"law_the_whole_\w+"
LEVEL = ("file_events", "party_history", "mtc_top", "mtc_laws")
MOST = 118
STANDARDS = {
    "the words for bytes, readings and forms": ("byte_formats",),
    "files and streams ([OPERATIONS](../OPERATIONS.md))": ("mtc_io", "disk_core", "mtc_room"),
    "journals, records, lists and exports ([FORMATS](../FORMATS.md))": ("journal_core", "issuance_log", "mirror_core", "cosigner_core", "mirror_cosigner",
                                                                        "entry_list"),
    "words and answers ([COMMANDS](../COMMANDS.md))": ("mtc_words", "mtc_command", "mtc_relying", "mtc_authority", "mtc_cosigner",
                                               "mtc_tiled", "mtc_mirror", "mtc_mirror_steps", "mtc_drill", "mtc_help",
                                               "command_plans", "mtc_plans"),
    "audits: a list of entries beside what was accepted": ("cosigner_steps", "world_core"),
    "the draft: proofs, stores and judgement, issuing": ("mtc_proof", "policy_core", "authority_core"),
    "RFC 9162 and the draft: trees": ("tree_core", "tree_proofs", "landmarks", "collide"),
    "RFC 5280: certificates and entries": ("cert_time", "cert_fields", "cert_names", "log_entry"),
    "RFC 8554: HSS, LMS and LM-OTS": ("hss_core", "hss_keys", "lms_core", "lmots_core"),
    "RFC 8446, 3: TLS presentation": ("tls_wire",),
    "X.690: DER": ("der_core",),
    "TOML and RFC 4648": ("toml_fields",),
}


def contracts(functions):
    """The contracts of these public functions, each with the imports of its file."""
    for path in SOURCES:
        text = path.read_text()
        for match in re.finditer(rf"^pub fn (?:{functions})\b.*?^\{{", text, re.M | re.S):
            bare = re.sub(r"//[^\n]*", "", match.group())
            yield bare, {sign_of(name): origin for name, origin in imports_of(text).items()}


def definition_of(dotted, name):
    """The definition of a word as (module, name), where it is one of this repository."""
    module = module_of(dotted)
    whole = module.owners.get(sign_of(name), name) if module else None
    return (dotted, whole) if module and whole in module.bodies else None


@cache
def rules():
    """What the clauses of the traits name: the definitions, as (module, name)."""
    found = set()
    for place in TRAITS:
        text = (ROOT / "crates" / place).read_text()
        bare = re.sub(r"//[^\n]*", "", re.search(r"^pub trait .*?^\}", text, re.M | re.S).group())
        imports = {sign_of(name): origin for name, origin in imports_of(text).items()}
        found |= {definition_of(*imports[token]) for token in set(TOKEN.findall(bare)) if token in imports}
    return sorted(found - {None})


def named_by(functions):
    """What the contracts of these functions name, as (module, name)."""
    return [imports[token] for contract, imports in contracts(functions) for token in set(TOKEN.findall(contract)) if token in imports]


def named_first(statement):
    """What the contracts name, and what the definitions of the statement name, as (module, name)."""
    _, functions, pages = statement
    found, waiting = set(), named_by(functions)
    while waiting:
        dotted, name = waiting.pop()
        module = module_of(dotted)
        whole = module.owners.get(sign_of(name), name) if module else name
        if (dotted, whole) in found:
            continue
        found.add((dotted, whole))
        if dotted in pages and whole in module.bodies:
            waiting += [(inner or dotted, other) for inner, other in module.names_in("\n".join(module.bodies[whole]))]
    return sorted(found)


def is_below(dotted, name):
    """Whether it is a word of the crates below the level of the promise."""
    return dotted.split(".")[0] not in LEVEL


def reached(waiting, ends=lambda dotted, name: False, found=None):
    """Definitions by (module, name); types of the code; modules of the kit with their words. Those at which it ends are put into `found`."""
    own, types, kit = {}, set(), {}
    waiting = list(waiting)
    while waiting:
        dotted, name = waiting.pop()
        if ".specs.declared." in dotted and (ROOT / "crates" / dotted.split(".")[0]).is_dir():
            types.add(declared(dotted))
            continue
        module = module_of(dotted)
        if module is None:
            kit.setdefault(dotted, set()).add(name)
            continue
        whole = module.owners.get(sign_of(name), name)
        if (dotted, whole) in own or whole not in module.bodies:
            continue
        if ends(dotted, whole):
            found.add((dotted, whole))
            continue
        own[dotted, whole] = module.bodies[whole]
        for inner, other in module.names_in("\n".join(module.bodies[whole])):
            waiting.append((inner or dotted, other))
    return own, types, kit


def row(name, own, types):
    lines = sum(map(len, own.values()))
    files = len({dotted for dotted, _ in own})
    return f"| {name} | {len(own)} | {lines} | {files} | {len(types)} |"


def all_named():
    return [named for statement in STATEMENTS for named in named_first(statement)] + named_by(WHOLE) + rules()


def standard_of(dotted):
    crate = dotted.split(".")[0]
    return next(standard for standard, those in STANDARDS.items() if crate in those)


def promise():
    """The definitions of the level of the promise, the types that they name and the words of the kit, and where their list ends."""
    ends = set()
    own, types, kit = reached(named_by(WHOLE), is_below, ends)
    following, _, _ = reached(ends)
    own |= {one: body for one, body in following.items() if not is_below(*one)}
    return own, sorted(types), {name for words in kit.values() for name in words}, ends


def counted(own, types):
    """How many the list of the promise has: the definitions, and the types of the crates of its level."""
    return len(own) + sum(crate in LEVEL for crate, _ in types)


def written(names):
    return ", ".join(f"`{name}`" for name in sorted(names))


def traits():
    return {re.search(r"^pub trait (\w+)", (ROOT / "crates" / place).read_text(), re.M).group(1) for place in TRAITS}


def file_of(dotted):
    crate, _, place = dotted.partition(".")
    return f"`{crate}/{place.replace('.', '/')}`"


def promise_rows():
    """The list of the promise, and where it ends, by what says these words."""
    own, types, kit, ends = promise()
    rows = ["| The promise as a whole is | In | Lines |", "|---|---|---|"]
    rows += [f"| `{name}` | {file_of(dotted)} | {len(body)} |" for (dotted, name), body in sorted(own.items())]
    rows += [f"| `{name}` | `{crate}`, a type of the code | |" for crate, name in types if crate in LEVEL]
    rows += [f"| {counted(own, types)} of its level, of at most {MOST} | | {sum(map(len, own.values()))} |", ""]
    rows += ["| It ends at words of | Words | Definitions of these, and all below them |", "|---|---|---|"]
    for standard in STANDARDS:
        mine = sorted((name, dotted) for dotted, name in ends if standard_of(dotted) == standard)
        if mine:
            following, _, _ = reached((dotted, name) for name, dotted in mine)
            rows.append(f"| {standard} | {', '.join(f'`{name}`' for name, _ in mine)} | {len(following)} |")
    following, _, _ = reached(rules())
    rows.append(f"| the rules of file systems, devices, streams and hash functions (their traits) | {', '.join(f'`{name}`' for _, name in rules())} | {len(following)} |")
    below = {name for crate, name in types if crate not in LEVEL} - traits()
    rows.append(f"| types of the code, of the crates below | {written(below)} | |")
    rows.append(f"| the kit | {written(kit)} | |")
    ends |= set(rules())
    following, all_types, _ = reached(ends)
    rows.append(f"| all but these types and the kit, each counted once | {len(ends)} words | {len(following)}, and {len(all_types)} types of the code |")
    return rows + [""]


def first_rows(statement):
    """The definitions of a statement and those that it names, with their lengths."""
    found = {}
    for definition in filter(None, map(definition_of, *zip(*named_first(statement)))):
        dotted, whole = definition
        found[definition] = len(module_of(dotted).bodies[whole])
    rows = [f"| {statement[0]} | In | Lines |", "|---|---|---|"]
    rows += [f"| `{name}` | {file_of(dotted)} | {count} |" for (dotted, name), count in sorted(found.items())]
    named = named_first(statement)
    own, types, _ = reached(named + rules())
    first_types = {declared(dotted) for dotted, _ in named if ".specs.declared." in dotted}
    rows.append(f"| {len(found)} definitions, and {len(first_types)} types of the code | | {sum(found.values())} |")
    return rows + [f"| {len(own)} definitions with all that these rest on, and {len(types)} types | | {sum(map(len, own.values()))} |", ""]


# ---- the page


def crate_rows():
    """How many definitions of each crate count, and how long they are."""
    own, types, _ = reached(all_named())
    order = [crate.name for crate in crates()]
    used = {dotted.split(".")[0] for dotted, _ in own} | {crate for crate, _ in types}
    yield from ("| Crate | Definitions | Lines | Files | Types of the code |", "|---|---|---|---|---|")
    for name in sorted(used, key=order.index):
        mine = {key: body for key, body in own.items() if key[0].split(".")[0] == name}
        yield row(f"`{name}`", mine, {one for crate, one in types if crate == name})
    yield row("all", own, types)


def kit_rows():
    kit = reached(all_named())[2]
    yield from (f"Modules of the kit: {len(kit)}, with {sum(map(len, kit.values()))} words.", "", "| Module | Words |", "|---|---|")
    for dotted in sorted(kit):
        names = written(kit[dotted]).replace("|", "\\|")
        yield f"| `{dotted}` | {names} |"


WAYS = {"search": "By the search", "hand": "By a proof", "either": "One of these"}


def edit_rows():
    """The edits of each crate: how many were refused in which way against what stands now, and how many wait for their try."""
    force = ledger.in_force()
    yield from (f"| Crate | Edits | {' | '.join(WAYS.values())} | By a public clause | Wait | Wrong behaviours |", "|---" * 8 + "|")
    for name in edited.with_edits():
        names = [edit.stem for edit in edited.edits_of(name)]
        mine = [force[f"{name}/{one}"] for one in names if f"{name}/{one}" in force]
        counts = [sum(one.way == way for one in mine) for way in WAYS]
        counts += [sum(one.clause in ("public", "called") for one in mine), len(names) - len(mine)]
        yield f"| `{name}` | {len(names)} | {' | '.join(map(str, counts))} | {', '.join(map(spoken, names))} |"


def edits_summary():
    """What BELIEFS says of all edits."""
    force = list(ledger.in_force().values())
    ways = [sum(one.way == way for one in force) for way in WAYS]
    kinds = [sum(one.clause == kind for one in force) for kind in ledger.CLAUSES]
    return (f"There are {len(ledger.edits())} edits. Of these {len(ledger.waiting())} wait for their try, and {len(force)} are refused: "
            f"{ways[0]} by the search, {ways[1]} by a proof by hand, {ways[2]} by one of the two; {kinds[0]} by a public clause of "
            f"the changed call, {kinds[1]} by one of a call in it, {kinds[2]} by a private one, {kinds[3]} by one of which it isn't known.")


def spoken(name):
    return name.replace("_", " ").replace("-", " ")


PARTS = (
    ("By crate", "All definitions that count for one of the statements below, each once.", crate_rows),
    ("The headline", "What the headline and the laws that lead to it name themselves.", lambda: first_rows(HEADLINE)),
    ("The contract of run", "What the contract of `run` and the laws of each run name themselves.", lambda: first_rows(RUNS)),
    ("The promise as a whole", "The list of the promise, and where it ends.", promise_rows),
    ("The laws of executions", "What they name themselves.", lambda: first_rows(EXECUTIONS)),
    ("The laws of what is printed", "What they name themselves.", lambda: first_rows(PRINTS)),
    ("The laws of certificates", "What they name themselves.", lambda: first_rows(CERTIFICATES)),
    ("The laws of mirrors", "What they name themselves.", lambda: first_rows(MIRRORS)),
    ("Words of the kit", "The definitions of the kit that count.", kit_rows),
    ("Edits by crate", "Wrong programs that are refused, or wait for their try. The columns count the edits of a crate that the search for proofs "
     "refused, those that a proof by hand refused since it fits no longer, those of which it isn't known which of the two it was, of all "
     "these the ones that a public clause is known to have refused, and those that wait.", edit_rows),
)


def anchor(title):
    return title.lower().replace(" ", "-")


def page(mark):
    """The page TRUSTED."""
    lines = ["# What has to be trusted", "", mark, "",
             "The definitions on which the statements rest, counted, and the edits. [BELIEFS](../BELIEFS.md) says how "
             "they are counted, and what else has to be trusted.", ""]
    lines += [f"- [{title}](#{anchor(title)})" for title, _, _ in PARTS]
    for title, says, rows in PARTS:
        lines += ["", f"## {title}", "", says, "", *rows()]
    return "\n".join(lines).rstrip() + "\n"


def contract_lines(text):
    """The numbers of the lines on which a contract stands."""
    found = set()
    for match in FUNCTION.finditer(text):
        place = after_head(text, match.end())
        while clause := CLAUSE.match(text, place):
            begin, place = clause.start(1), after_braces(text, clause.end() - 1)
            found |= set(range(text.count("\n", 0, begin), text.count("\n", 0, place) + 1))
            by = re.match(r"\s*by\s*\{", text[place:])
            place = after_braces(text, place + by.end() - 1) if by else place
    return found


def code_lines():
    """The lines of code of the program, without comments, imports for contracts, and contracts."""
    count = 0
    for crate in [crate for crate in crates() if crate.name in {*below("mtc_main"), "mtc_main"}]:
        for file in crate.files:
            bare = re.sub(r"^[ \t]*(?:pub )?ghost use [^;]*;", lambda match: "\n" * match.group().count("\n"), file.bare, flags=re.M)
            contracts_at = contract_lines(bare)
            count += sum(1 for number, line in enumerate(bare.split("\n")) if line.strip() and number not in contracts_at)
    return count


def summary_row(name, named, own):
    following = reached([*named, *rules()])[0]
    return f"| {name} | {len(own):,} | {sum(map(len, own.values())):,} | {len(following):,} | {sum(map(len, following.values())):,} |"


def own_of(statement):
    found = filter(None, map(definition_of, *zip(*named_first(statement))))
    return {(dotted, name): module_of(dotted).bodies[name] for dotted, name in found}


def summary():
    """The first table of BELIEFS: how much each statement rests on."""
    rows = ["| Statement | Definitions that it names | Lines | With all below them | Lines |", "|---|---|---|---|---|"]
    named = (("the contract of `run`, and the laws of each run", RUNS), ("the headline, and the laws that lead to it", HEADLINE),
             ("the laws of executions", EXECUTIONS), ("the laws of what is printed", PRINTS),
             ("the laws of certificates", CERTIFICATES), ("the laws of mirrors", MIRRORS))
    rows += [summary_row(name, named_first(statement), own_of(statement)) for name, statement in named]
    rows.insert(3, summary_row("the promise as a whole", named_by(WHOLE), promise()[0]))
    all_own = reached(all_named())[0]
    return "\n".join([*rows, f"| **all together** | | | **{len(all_own):,}** | **{sum(map(len, all_own.values())):,}** |", "",
                      f"The program whose contracts these are has {code_lines():,} lines of code."])


def uncounted():
    """The laws that are no part of a statement, or of two: then this count would leave them out, or be of the wrong table."""
    patterns = [re.compile(functions) for functions in (WHOLE, *(functions for _, functions, _ in STATEMENTS))]
    for path in (path for crate in OF_LAWS for path in sorted((ROOT / "crates" / crate / "src").rglob("*.rt"))):
        for name in re.findall(r"^pub fn (law_\w+)", path.read_text(), re.M):
            count = sum(bool(pattern.fullmatch(name)) for pattern in patterns)
            if count != 1:
                yield f"{path.relative_to(ROOT)}: tests/beliefs.py counts {name} in {count} statements, and not in one"


def faults():
    yield from uncounted()
    own, types, _, _ = promise()
    if counted(own, types) > MOST:
        yield f"the promise as a whole rests on {counted(own, types)} definitions and types of its level, and may on {MOST}"


def main():
    for (dotted, name), body in sorted(reached(all_named())[0].items()):
        print(f"{dotted} {name} {len(body)}")


if __name__ == "__main__":
    main()
