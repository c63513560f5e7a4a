#!/usr/bin/env python3
"""Tries edits, and writes into tests/edits/tried.txt which were refused.

Usage: tests/edits.py [--jobs N] [CRATE | CRATE/EDIT ..]    these edits, all of a crate; all that there are if none is named
       tests/edits.py [--jobs N] --stale [MINUTES]          those that wait for their try, the oldest first; within a bound of minutes
       tests/edits.py [--jobs N] --gate LOG                 as .ci/run does: those that wait, for a quarter of an hour or as many minutes
                                                            as MTC_EDIT_MINUTES says, none if it is 0; all of two crates drawn by the
                                                            day; and whether rt ci, by its log, named a clause
       tests/edits.py --log LOG                             those of must-fail/ that wait, and of which a log of rt ci names the clause
       tests/edits.py [--jobs N] --idle CRATE/EDIT ..       whether the private clause that refuses an edit is needed by anything
       --jobs N, and then --proved stand before these words: so many processes share a check; and a run of rt ci has proved these crates
                                                            as they stand, so that their functions aren't proved once more before they are changed

An edit is a small change that makes a function wrong. It stands in crates/CRATE/must-fail, where rt ci tries it at each run, or in
tests/edits/CRATE, where only this script does. Both are tried here, on a copy of the sources.

An edit counts as refused only where the check says of the changed function itself that a clause is not proved: what it
ensures, what a function of these crates that it calls requires, the invariant of its loop, or the invariant of a type.
An edit that is refused for anything else, as for a sum that may be too large, a call of std, a limit of the prover, or
a proof that names what is no longer there, doesn't count, and neither does one that doesn't compile. Then it has no line, and the
script ends with status 1.

A clause stands open in one of two ways. The search for its proof fails. Or what was written by hand doesn't fit any
longer: the proof of the clause, or the invariant of a loop, which stands in a proof. Both are reported apart, since
the second says less: another one might fit. A search that gives up at a limit of its own has failed like one that has
tried all, so the first doesn't show either that the clause is false. A clause is public if it is one of a call that other crates
can make, the changed one itself or one that it calls; a private one may say the body again, and --idle asks whether anything needs it.

Edits of different functions are made in one copy, and one check says of each: a function is proved by the contracts of
those that it calls, so a wrong body elsewhere changes nothing for it. Edits of one function, and those that didn't
count beside others, are tried one by one. All of it begins with what `rt check` has kept, and takes some 5 to 14 processor
seconds an edit. Where nothing is kept, the libraries of all crates below are proved first, and of the crate the functions that edits
change; but for these in the gate, and with --proved.

What a line of the ledger promises: on some machine this edit was refused against what its sums are of. Who wrote the line
is believed for that. Who doesn't want to believe it, as a release does, runs this script for all crates.
"""
import collections
import functools
import os
import pathlib
import random
import re
import resource
import shutil
import signal
import subprocess
import sys
import tempfile
import time

sys.dont_write_bytecode = True
import reference_pages
from checks import edited, ledger
from checks.citations import CRATES, below
from checks.sources import CLAUSE, ROOT, after_braces, after_head

PARTS = ("src", "specs", "proofs")
OPEN = re.compile(r"note: (src/\S+?):(\d+):\d+: it is not proved that (.*?)(; .*)?$", re.M)
UNFIT = re.compile(r"^(?:\./)?proofs/(\S+)/(?:Answers|Proof)\.antt:\d+:\d+: error: `(\S+?)`: (.*(?:\n .*)*)", re.M)
CLAUSES = ("what the function ensures", "the struct's ghost fields", "the `invariant`")
LOOP = "the invariant of the loop"
REQUIRED = re.compile(r"what `(\w+)` requires")
REQUIRED_GOAL = re.compile(r"(\w+?)(?:-\d+)?-requires")
# Functions of std have these names too, and what those require is safety.
OF_STD = {"add", "advance", "append", "make_room", "new", "next", "push", "put", "read", "read_at", "split", "take", "write"}
GONE = re.compile(r"has no field|is not in scope|has no `|was not admitted|unknown name|unexpected")
LIMIT = re.compile(r"antt ran out of|outgrew the memory limit|stopped at the step limit|stopped at its own limit|may hold")
IS_PROVED = re.compile(r"^(logic=proved.*|only=(\d+) proved=\2)$", re.M)

# A clause that stands open: whether a search left it so, of which kind it is, what the check says, its goal.
Open = collections.namedtuple("Open", "by_search kind what goal")
# The kinds: public and of a changed call, public and of a call in it, private.
KINDS = ledger.CLAUSES[:3]
# What came of an edit: whether it counts, by which clause, and what is said of it.
Found = collections.namedtuple("Found", "counts clause what")
# How many minutes the gate tries edits that wait, and how many crates it draws.
MINUTES, DRAWN = 15, 2


class Copy:
    """A copy of the sources of all crates, in which edits are made and checked."""

    def __init__(self, jobs, is_proved=False):
        self.room = pathlib.Path(tempfile.mkdtemp(prefix="edits-"))
        self.flags = ["--jobs", jobs] if jobs else []
        self.is_proved = is_proved
        for name in ("crates.txt", "HANDLES"):
            shutil.copy(ROOT / name, self.room)
        self.stamps = {name: stamp_of(name) for name in CRATES}
        for crate in CRATES:
            for part in PARTS:
                if (ROOT / "crates" / crate / part).is_dir():
                    shutil.copytree(ROOT / "crates" / crate / part, self.room / "begun" / crate / part)
            self.renew(crate)
            # What `rt check` kept of the crate and of its library: a kit may keep that nowhere else.
            if (ROOT / "crates" / crate / "out").is_dir():
                linked(ROOT / "crates" / crate / "out", self.folder(crate) / "out")

    def folder(self, crate):
        return self.room / "crates" / crate

    def renew(self, crate):
        """Puts the sources of a crate as they stood in the repository when the script began."""
        for part in PARTS:
            shutil.rmtree(self.folder(crate) / part, ignore_errors=True)
            if (self.room / "begun" / crate / part).is_dir():
                shutil.copytree(self.room / "begun" / crate / part, self.folder(crate) / part)

    def check(self, crate, functions=()):
        """What `rt check` prints of a crate, or of these functions of it alone."""
        words = ["rt", "check", *self.flags, *(word for name in functions for word in ("--only", name))]
        run = subprocess.Popen(words, cwd=self.folder(crate), stdout=subprocess.PIPE, stderr=subprocess.STDOUT,
                               text=True, errors="replace", start_new_session=True)
        try:
            return run.communicate()[0]
        finally:
            if run.returncode is None:
                os.killpg(run.pid, signal.SIGKILL)
                run.wait()

    def prove(self, crate, functions=()):
        """Proves the crate as it stands, or these functions of it, and lays aside what the check kept."""
        said = self.check(crate, functions)
        if IS_PROVED.search(said):
            linked(self.folder(crate) / "out" / "incremental", self.room / "proved" / crate)
        return said

    def begin(self, crate):
        """Puts the crate, and what its check kept, as they were when it was proved; what checks kept since stays where it wasn't proved here."""
        self.renew(crate)
        kept = self.folder(crate) / "out" / "incremental"
        if (self.room / "proved" / crate).is_dir():
            shutil.rmtree(kept, ignore_errors=True)
            linked(self.room / "proved" / crate, kept)

    def remove(self):
        shutil.rmtree(self.room, ignore_errors=True)


def stamp_of(crate):
    """The files of a crate and of its edits, with their times and lengths."""
    folders = [ROOT / "crates" / crate / part for part in PARTS]
    paths = sorted(path for folder in (*folders, *edited.folders_of(crate)) for path in folder.rglob("*") if path.is_file())
    return [(path, path.stat().st_mtime_ns, path.stat().st_size) for path in paths]


def linked(folder, to):
    """Copies what a check kept: proofs by links, since a check replaces such a file and changes none."""
    shutil.copytree(folder, to, copy_function=lambda one, other: os.link(one, other) if one.endswith(".oantt")
                    else shutil.copy2(one, other))


# ---- what a check says of an edit


def is_of(function, place):
    """Whether proofs/PLACE is a function's folder; a `+` stands before the name of one that calls itself."""
    return f"/{place}".replace("/+", "/")[1:] in function.places


@functools.cache
def has_own_requires(crate, name):
    """Whether a function that a crate can call, of itself or of those that it names, has that name and requires something."""
    head = re.compile(rf"\bfn {name}\b[^;{{]*\brequires\b")
    near = [CRATES[one] for one in (crate, *CRATES[crate].needs) if one in CRATES]
    return name not in OF_STD and any(head.search(file.bare) for one in near for file in one.files)


def is_public(crate, function):
    """Whether other crates can call a function, also by a trait."""
    return function.of_trait or any(function is one for one in CRATES[crate].calls.values())


def kind_of(crate, functions, what, goal):
    """Whether a goal is of a clause, and its kind: of the changed functions, of what they call, of a type, or of a loop."""
    required = REQUIRED.match(what) or REQUIRED_GOAL.search(goal)
    if required:
        near = [one for home in edited.near(crate) for one in CRATES[home].functions if one.name == required[1] and one.requires]
        return has_own_requires(crate, required[1]), KINDS[1] if any(one.public for one in near) else KINDS[2]
    if what.startswith("what the function ensures") or not what and goal.startswith("returns"):
        return True, KINDS[0] if any(is_public(crate, one) for one in functions) else KINDS[2]
    return what.startswith(CLAUSES) or goal.startswith("invariant_of") or not what and goal.endswith("-preserved"), KINDS[2]


def clauses_in(edit, said):
    """The clauses that a check leaves open in the functions that an edit changes, or in any where it changes none; and the rest."""
    own, crate, clauses, rest = [it for it in edit.functions if it], edit.crate.name, [], []
    for file, line, what, tail in OPEN.findall(said):
        its = [it.function for it in own if it.file == file and it.begin <= int(line) < it.end]
        if its or edit.stands_alone:
            goal = (re.findall(r"\(`([^`]+)`\)", what) or [""])[-1]
            is_clause, kind = kind_of(crate, its, what, goal)
            fits = not LIMIT.search(tail) and (is_clause or what.startswith(LOOP))
            (clauses if fits else rest).append(Open(is_clause, kind, f"{what}, {file}:{line}", goal))
    for place, goal, why in UNFIT.findall(said):
        its = [it.function for it in own if is_of(it, place)]
        if its or edit.stands_alone:
            is_clause, kind = kind_of(crate, its, "", goal)
            fits = is_clause and not GONE.search(why) and not LIMIT.search(why)
            what = f"the proof by hand of `{goal}` doesn't fit: {why}".split("\n")[0]
            (clauses if fits else rest).append(Open(False, kind, what, goal))
    return sorted(clauses, key=lambda one: (not one.by_search, KINDS.index(one.kind))), rest


def found_of(edit, said):
    """What a check says of the functions that an edit changes; of all functions, where it changes none."""
    clauses, rest = clauses_in(edit, said)
    if clauses:
        return Found(True, clauses[0]._replace(kind=min((one.kind for one in clauses), key=KINDS.index)), clauses[0].what)
    return Found(False, None, f"refused, and no clause: {rest[0].what}" if rest else "")


def why_nothing(said):
    """Why a check of one edit says nothing of its function."""
    if IS_PROVED.search(said):
        return "NOT REFUSED: it is still proved"
    limit = LIMIT.search(said)
    if limit:
        return f"no verdict, by a limit of the prover: {limit[0]}"
    wrong = re.search(r"^.*error.*$", said, re.M)
    return f"refused, and not at its own function: {wrong[0] if wrong else said[-300:]}"


# ---- trying


def together(edits):
    """Groups of edits that can be made in one copy: each of other functions than the rest."""
    groups = []
    for edit in edits:
        fits = (it for it in groups if not edit.stands_alone and not any(
            one.stands_alone or one.functions & edit.functions for one in it))
        group = next(fits, None)
        groups.append([edit]) if group is None else group.append(edit)
    return groups


def named(edits):
    """The functions that edits change, as a check names them; nothing, where that of one of them isn't clear from the sources."""
    names = set().union(*(edit.names() for edit in edits))
    return [] if None in names else sorted(names)


def proved_names(copy, crate, edits):
    """Proves the functions that edits change, as they stand, and returns their names; the whole crate, and none, where they aren't clear.
    Where rt ci has proved the crates nothing is proved once more."""
    names = named(edits)
    if names and copy.is_proved:
        return names
    said = copy.prove(crate, names)
    if names and not IS_PROVED.search(said):
        names, said = [], copy.prove(crate)
    if not IS_PROVED.search(said):
        sys.exit(f"{said[-2000:]}\n{crate} itself is not proved")
    return names


def tried_together(copy, crate, group, names):
    """(edit, what was found) for each edit of a group, and those that have to be tried one by one."""
    copy.begin(crate)
    faults = [(edit, why) for edit in group if (why := edit.applied(copy.folder(crate)))]
    if faults and len(group) > 1:
        return [], group
    if faults:
        return [(group[0], Found(False, None, faults[0][1]))], []
    said = copy.check(crate, names and named(group))
    done, again = [], []
    for edit in group:
        found = found_of(edit, said)
        if len(group) > 1 and not found.counts:
            again.append(edit)
        else:
            done.append((edit, found if found.what else Found(False, None, why_nothing(said))))
    return done, again


def tried(copy, crate, edits):
    """Yields (edit, what was found) for edits of a crate, check by check: those first whose functions can be checked alone."""
    unclear = [it for it in edits if not named([it])]
    for part in ([it for it in edits if it not in unclear], unclear):
        names = proved_names(copy, crate, part) if part else []
        for group in together(part):
            done, again = tried_together(copy, crate, group, names)
            yield done
            for edit in again:
                yield tried_together(copy, crate, [edit], names)[0]
    copy.begin(crate)  # crates above are checked over it as it stands


def reported(copy, crate, edits):
    """Tries edits of a crate, prints what came of each, writes their lines as they come, and returns whether each counts."""
    before, begun, results = seconds(), time.monotonic(), []
    for done in tried(copy, crate, edits):
        for edit, found in done:
            told = f"refused, {found.clause.kind}" if found.counts else "DOES NOT COUNT"
            print(f"{edit.key}: {told}: {found.what[:200]}", flush=True)
        if any(stamp_of(one) != copy.stamps[one] for one in (crate, *below(crate))):
            print(f"{crate}: it changed, or what is below it, while its edits were tried: no line is written")
            return False
        today = time.strftime("%Y-%m-%d", time.gmtime())
        ledger.write({edit.key: line_of(edit, found, today) for edit, found in done})
        results += done
    by_search = sum(found.counts and found.clause.by_search for _, found in results)
    missed = sum(not found.counts for _, found in results)
    print(f"{crate}: {len(results)} edits, {by_search} refused by a search, {len(results) - by_search - missed} by a proof by hand,",
          f"{missed} not; {seconds() - before:.0f} processor seconds, {time.monotonic() - begun:.0f} by the clock", flush=True)
    return not missed


def line_of(edit, found, today):
    """The line of an edit; none where it doesn't count. A line that is in force and says the same stays, with its day."""
    if not found.counts:
        return None
    line = ledger.line_now(edit.key, today, "search" if found.clause.by_search else "hand", found.clause.kind)
    old = ledger.lines().get(edit.key)
    return old if old and old._replace(day=today) == line else line


def seconds():
    """The processor seconds of all checks that have ended."""
    used = resource.getrusage(resource.RUSAGE_CHILDREN)
    return used.ru_utime + used.ru_stime


def tried_all(copy, keys, minutes=None):
    """Tries these edits, crate by crate in their order, until the minutes are over; returns whether each that was tried counts."""
    by_crate, until = {}, time.monotonic() + 60 * minutes if minutes else None
    for key in keys:
        ledger.sums_of(key)  # of the sources as they are copied now
        by_crate.setdefault(key.split("/")[0], []).append(ledger.edits()[key])
    count = True
    for crate, edits in by_crate.items():
        if until and time.monotonic() > until:
            break
        count &= reported(copy, crate, edits)
    reference_pages.renew_edits()
    return count


def keys_of(words):
    """The edits that words name: all of a crate, or one."""
    found = [key for word in words for key in ledger.edits() if word in (key, key.split("/")[0])]
    unknown = [word for word in words if not any(word in (key, key.split("/")[0]) for key in found)]
    if unknown:
        sys.exit(f"there are no edits of {', '.join(unknown)}")
    return found


# ---- in the gate


def told_by(log):
    """(key, what the log of rt ci says of its refusal) for each edit of must-fail/ that waits."""
    told = {f"{crate}/{name}": said for crate, name, said in
            re.findall(r"must-fail (\w+)/(\S+)\.edit: refused, as it must be: (.*)$", pathlib.Path(log).read_text(errors="replace"), re.M)}
    return [(key, told[key]) for key in ledger.waiting() if key in told]


def taken_from(log):
    """Writes the lines of the edits of which the log of rt ci names a clause, and returns the others, of which no line in force says one."""
    lines, unnamed, today = {}, [], time.strftime("%Y-%m-%d", time.gmtime())
    for key, said in told_by(log):
        clauses, _ = clauses_in(ledger.edits()[key], said)
        if clauses:
            lines[key] = line_of(ledger.edits()[key], Found(True, clauses[0], ""), today)
        else:
            unnamed.append(key)
    ledger.write(lines)
    if lines:
        print(f"edits: of {len(lines)} in must-fail/ that waited rt ci names the clause")
        reference_pages.renew_edits()
    return unnamed


def gate(copy, log):
    """Tries the edits that wait, and those of two crates that the day draws; returns whether each counts."""
    minutes, count, unnamed = float(os.environ.get("MTC_EDIT_MINUTES", MINUTES)), True, taken_from(log)
    if minutes:
        stale, day = ledger.waiting(), int(time.time()) // (24 * 60 * 60)
        drawn = random.Random(day).sample(edited.with_edits(), DRAWN)
        print(f"edits: {len(stale)} wait, and are tried for {minutes:.0f} minutes; drawn on day {day}: {' '.join(drawn)}", flush=True)
        count = tried_all(copy, stale, minutes)
        count &= tried_all(copy, keys_of(drawn))
    else:
        print("left out: edits: none was tried, as MTC_EDIT_MINUTES is 0")
    wrong = [key for key in unnamed if ledger.why_it_waits(key)]
    for key in wrong:
        print(f"wrong: {key}: rt ci names another reason than a clause for its refusal, and no line in force names one")
    return count and not wrong


# ---- idle clauses


def clause_spans(file, function):
    """(kind, label, begin, end) for each clause of a function, with its proof where one stands beside it."""
    place = after_head(file.bare, file.bare.index("(", function.span[0]))
    while clause := CLAUSE.match(file.bare, place):
        end = after_braces(file.bare, clause.end() - 1)
        by = re.match(r"\s*by\s*\{", file.bare[end:])
        end = after_braces(file.bare, end + by.end() - 1) if by else end
        yield clause[1], clause[2] or "", clause.start(1), end
        place = end


def without_clauses(edit, clauses):
    """The text of the file of an edit's one function without the clauses that refuse it, or nothing where that isn't mechanical."""
    places = [it for it in edit.functions if it]
    if len(places) != 1 or edit.stands_alone:
        return None
    file, spans = places[0].source, [it for it in clause_spans(places[0].source, places[0].function) if it[0] == "ensures"]
    gone = [it for it in spans for one in clauses if one.goal == "returns" and len(spans) == 1
            or it[1] and re.match(rf"returns-clause-{it[1]}(?:-|$)", one.goal)]
    if not gone or any(not one.goal.startswith("returns") for one in clauses):
        return None
    text = file.text
    for _, _, begin, end in sorted(set(gone), reverse=True):
        text = text[:begin] + text[end:]
    return places[0].file, text


def idle(copy, edit):
    """Says whether anything needs the private clauses that refuse an edit."""
    crate = edit.crate.name
    copy.prove(crate)
    copy.begin(crate)
    why = edit.applied(copy.folder(crate))
    clauses, _ = clauses_in(edit, copy.check(crate, named([edit]))) if not why else ([], None)
    if not clauses or any(one.kind != KINDS[2] for one in clauses):
        return why or ("a public clause refuses it" if clauses else "no clause refuses it")
    changed = without_clauses(edit, clauses)
    if not changed:
        return f"a private clause refuses it, which can't be taken away without thought: {clauses[0].what[:150]}"
    copy.begin(crate)
    (copy.folder(crate) / changed[0]).write_text(changed[1])
    said = copy.check(crate)
    if "\nlogic=proved" in said:
        return f"IDLE: without the clause that refuses it all of {crate} is proved: {clauses[0].what[:150]}"
    needing = re.findall(r"^fn (\S+): (?:not proved|no proof)", said, re.M)
    return f"needed: without the clause that refuses it these aren't proved: {', '.join(needing) or said[-300:]}"


def main(words):
    signal.signal(signal.SIGTERM, lambda *_: sys.exit("stopped"))
    jobs = words[1] if words[:1] == ["--jobs"] else ""
    words = words[2 if jobs else 0:]
    is_gate, is_proved = words[:1] == ["--gate"] and len(words) == 2, words[:1] == ["--proved"]
    words = words[is_proved:]
    copy = Copy(jobs, is_gate or is_proved)
    try:
        if is_gate:
            return not gate(copy, words[1])
        if words[:1] == ["--stale"] and len(words) < 3:
            return not tried_all(copy, ledger.waiting(), *map(float, words[1:]))
        if words[:1] == ["--log"] and len(words) == 2:
            return bool(taken_from(words[1]))
        if words[:1] == ["--idle"]:
            for key in keys_of(words[1:]):
                print(f"{key}: {idle(copy, ledger.edits()[key])}", flush=True)
                copy.begin(key.split("/")[0])
            return 0
        return not tried_all(copy, keys_of(words) if words else list(ledger.edits()))
    finally:
        copy.remove()


if __name__ == "__main__":
    sys.exit(main(sys.argv[1:]))
