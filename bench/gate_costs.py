#!/usr/bin/env python3
"""What each crate costs the gate: the processor seconds of its proof, of its tests and of its must-fail edits; and what each check.

Usage: bench/gate_costs.py --note COMMAND WORD..    runs a command, as .ci/run does with rt ci, and prints what it cost as well
       bench/gate_costs.py --write LOG..            puts what these logs say into bench/COSTS.md, and its sums into README
       bench/gate_costs.py --again                  computes again what follows from the numbers that were measured
       bench/gate_costs.py --above NAME             what a change of a crate costs, by the table of COSTS

A log is what .ci/run printed, or --note; its lines that begin with `cost: ` count, and of several logs the last one that has a row.
A crate that the run took over as proved before has no seconds. Then its row stays as it was, and names the commit of the run that it
is of. Where there is no such row, the script names the crate, README stays as it is, and the status is 1. Nothing is written of a
command that failed. `--note rt ci --anew` measures all crates in one run, and with names of crates these and those below.

Every half second the script reads the provers that the command has started; what a prover used in its last half second is in no
row, and only in the sum by the system's count.
"""

import datetime
import glob
import os
import re
import resource
import subprocess
import sys
import time

ROOT = os.path.dirname(os.path.dirname(os.path.abspath(__file__)))
COSTS, README = f"{ROOT}/bench/COSTS.md", f"{ROOT}/README.md"
TICK = os.sysconf("SC_CLK_TCK")
KINDS = ("proof", "tests", "edits")
# What the whole may be: so many times the sum of the proofs, and so many processor minutes when the program is finished.
RATIO, FINISHED = 1.9, 300
# What the rows need to have of a run from nothing: with less the script has looked too seldom, and the rows are too small.
LEAST = 0.9
BEGIN, END = "<!-- costs: begin -->\n", "<!-- costs: end -->"
COLUMNS = ("Crate", "Lines", "Proof, s", "Tests, s", "Edits, s", "All, s", "Minutes for 1,000 lines", "Commit",
           "With what stands above, minutes")
OF_CHECKS = ("Check", "By the clock, s", "Processor, s", "Commit")
OF_RUNS = ("Run of commit", "Day", "Machine", "Processor minutes", "Minutes by the clock")


def text_of(path):
    with open(path, encoding="utf-8", errors="replace") as it:
        return it.read()


# ---- running


def processes():
    """Yields the number, the parent, the start and the processor ticks of each process."""
    for path in glob.glob("/proc/[0-9]*/stat"):
        try:
            number, rest = path.split("/")[2], text_of(path).rsplit(")", 1)[1].split()
        except (OSError, IndexError):
            continue
        yield int(number), int(rest[1]), int(rest[19]), int(rest[11]) + int(rest[12])


def crate_and_kind(number):
    """What a process proves, and for which of the three, or None if it is no prover."""
    try:
        words = text_of(f"/proc/{number}/cmdline").split("\0")
        folder = os.readlink(f"/proc/{number}/cwd")
    except OSError:
        return None
    if "--crate-name" not in words:
        return None
    crate = words[words.index("--crate-name") + 1]
    if "/rt-edit-" in folder:
        return crate, "edits"
    return crate, "tests" if "--test" in words else "proof"


def look(root, seen):
    """Notes the ticks of each prover below a process that runs now."""
    found, ours, grew = list(processes()), {root}, True
    while grew:
        more = {number for number, parent, _, _ in found if parent in ours} - ours
        ours |= more
        grew = bool(more)
    for number, _, start, ticks in found:
        what = crate_and_kind(number) if number in ours else None
        if what:
            seen[number, start] = what, ticks


def run_line():
    """What a run is of: the commit, the day and the machine."""
    told = subprocess.run(["git", "rev-parse", "--short=8", "HEAD"], cwd=ROOT, capture_output=True, text=True, check=False).stdout
    models = re.findall(r"^model name\s*: (.*)", text_of("/proc/cpuinfo"), re.M)
    memory = int(re.search(r"MemTotal:\s*(\d+)", text_of("/proc/meminfo"))[1]) / 2**20
    machine = f"{len(os.sched_getaffinity(0))} processors, {' '.join((models or ['unknown'])[0].split())}, {memory:.0f} GB"
    return f"cost: run {told.strip() or 'unknown'} {datetime.date.today()} {machine}"


def note(command):
    """Runs a command, prints what it cost, and returns its status."""
    print(run_line(), flush=True)
    seen, began, used = {}, time.time(), sum(resource.getrusage(resource.RUSAGE_CHILDREN)[:2])
    ran = subprocess.Popen(command, cwd=ROOT)
    while True:
        look(ran.pid, seen)
        try:
            ran.wait(0.5)
            break
        except subprocess.TimeoutExpired:
            continue
    costs = {}
    for what, ticks in seen.values():
        costs[what] = costs.get(what, 0) + ticks / TICK
    for (crate, kind), seconds in sorted(costs.items()):
        print(f"cost: {kind} {crate} {seconds:.1f}")
    used = sum(resource.getrusage(resource.RUSAGE_CHILDREN)[:2]) - used
    print(f"cost: ended {ran.returncode} {used:.0f} {time.time() - began:.0f}", flush=True)
    return ran.returncode


# ---- the crates, the checks and the rows of COSTS


def needs():
    """What each crate of crates.txt names."""
    lines = [line.split("#")[0] for line in text_of(f"{ROOT}/crates.txt").split("\n")]
    return {line.split(":")[0].split()[0]: line.split(":")[1].split() for line in lines if ":" in line}


def checks():
    """The checks that .ci/run lists."""
    return re.findall(r'^    "(tests/[^":]+)"$', text_of(f"{ROOT}/.ci/run"), re.M)


def lines_of(crate):
    """The lines of a crate's sources, definitions and proofs."""
    files = glob.glob(f"{ROOT}/crates/{crate}/**/*", recursive=True)
    wanted = [it for it in files if it.endswith((".rt", ".antt")) and "/out/" not in it]
    return sum(text_of(it).count("\n") for it in wanted)


def kinds_of(crate):
    """Which of the three costs a crate has."""
    folder = f"{ROOT}/crates/{crate}"
    has_tests = any("#[test]" in text_of(it) for it in glob.glob(f"{folder}/src/**/*.rt", recursive=True))
    return ["proof", *["tests"] * has_tests, *["edits"] * bool(glob.glob(f"{folder}/must-fail/*.edit"))]


def block_of(path):
    """What stands in a page between the marks."""
    return text_of(path).split(BEGIN, 1)[1].split(END, 1)[0]


def written(head):
    """The cells of the rows of a table of COSTS, by their first cell."""
    table = re.search(rf"^\| {head} \|.*\n((?:\|.*\n)*)", block_of(COSTS), re.M)
    rows = [[cell.strip() for cell in line.split("|")[1:-1]] for line in table[1].split("\n")[1:] if line] if table else []
    return {row[0].strip("`"): row for row in rows}


def crate_rows():
    """(lines, seconds of the three, commit) for each row of a crate."""
    return {name: (row[1], [int(cell.replace(",", "")) for cell in row[2:5]], row[7].strip("`"))
            for name, row in written("Crate").items() if name != "all"}


def differing():
    """The crates and the checks without a row, and the rows without a crate or a check."""
    return {"crates": sorted(set(needs()) ^ set(crate_rows())), "checks": sorted(set(checks()) ^ set(written("Check")))}


def whole_rows():
    """The rows of crates, or the end of the script where they are not those of crates.txt."""
    if differing()["crates"]:
        sys.exit(f"bench/COSTS.md and crates.txt differ in {', '.join(differing()['crates'])}: bench/gate_costs.py --write LOG")
    return crate_rows()


def standing_on(crate):
    """The crates that are proved again when this one changes, without itself."""
    named, above, grew = needs(), {crate}, True
    while grew:
        more = {it for it in named if above & set(named[it])} - above
        above |= more
        grew = bool(more)
    return above - {crate}


def chain_of(rows):
    """The minutes of the proofs that follow one another below the program, along the longest chain of crates, and of all its
    proofs."""
    named, chain = needs(), {}

    def longest(crate):
        if crate not in chain:
            chain[crate] = rows[crate][1][0] + max((longest(it) for it in named[crate] if it in named), default=0)
        return chain[crate]

    return longest("mtc_main") / 60, sum(rows[crate][1][0] for crate in chain) / 60


# ---- the page


def table(columns, rows):
    return [f"| {' | '.join(columns)} |", "|---" * len(columns) + "|", *(f"| {' | '.join(row)} |" for row in rows), ""]


def crate_table(rows):
    """The rows of crates, the dearest first, and at the end those of all together."""
    whole = {crate: sum(seconds) for crate, (_, seconds, _) in rows.items()}
    ordered = sorted(rows, key=lambda crate: -whole[crate])
    for crate in ordered:
        lines, seconds, commit = rows[crate]
        others = standing_on(crate)
        above = f"{(whole[crate] + sum(whole[it] for it in others)) / 60:.0f}" if others <= whole.keys() else "?"
        yield [f"`{crate}`", *cells(lines, seconds), f"`{commit}`", above]
    lines = sum(int(row[0].replace(",", "")) for row in rows.values())
    yield ["all", *cells(f"{lines:,}", [sum(row[1][at] for row in rows.values()) for at in range(3)]), "", f"{sum(whole.values()) / 60:.0f}"]


def cells(lines, seconds):
    each = sum(seconds) / 60 / max(int(lines.replace(",", "")), 1) * 1000
    return [lines, *(f"{it:,.0f}" for it in seconds), f"{sum(seconds):,.0f}", f"{each:.1f}"]


def summary(rows, of_checks, runs):
    """The sentences below the tables."""
    proofs, whole = (sum(sum(row[1][:end]) for row in rows.values()) / 60 for end in (1, 3))
    chain, of_program = chain_of(rows)
    clock, processor = (sum(float(row[at].replace(",", "")) for row in of_checks.values()) / 60 for at in (1, 2))
    return (
        f"All rows together are {whole:.0f} processor minutes, of {len(runs)} run{'s' * (len(runs) > 1)}, and the proofs {proofs:.0f} of them. "
        f"The whole is {whole / proofs:.1f} times that, and {RATIO} is the most that it may be; {FINISHED} minutes are the most for the finished "
        f"program. Of the {of_program:.0f} minutes of the program's proofs {chain:.0f} can't run side by side, those of the longest chain "
        f"of crates. The {len(of_checks)} checks take {clock:.0f} minutes one after the other, and {processor:.0f} processor minutes."
    )


def sentence(rows, of_checks, runs):
    """What README says of the times of its two commands."""
    (chain, of_program), whole = chain_of(rows), sum(sum(row[1]) for row in rows.values()) / 60
    commit, (day, machine, *_) = list(runs.items())[-1]
    clock = sum(float(row[1].replace(",", "")) for row in of_checks.values()) / 60
    earlier = sum(row[2] != commit for row in rows.values())
    several = f"; {earlier} crates as an earlier run measured them" if earlier else ""
    return (
        f"The first shows an unproved answer on standard error. Then it proves and builds the program, once. That is {of_program:.0f} processor "
        f"minutes of proofs, of which {chain:.0f} can't run side by side. The second takes {whole:.0f} processor minutes from nothing, and "
        f"{clock:.0f} minutes of checks. These are the figures of commit `{commit}`, measured on {day} ({machine}{several}): "
        "[COSTS](bench/COSTS.md)."
    )


def put(path, text):
    """Puts a text in its place in a page."""
    page = text_of(path).replace(BEGIN + block_of(path) + END, f"{BEGIN}{text}\n{END}")
    with open(path, "w", encoding="utf-8") as it:
        it.write(page)


def write_page(rows, of_checks, runs):
    used = {row[2] for row in rows.values()} | {row[3].strip("`") for row in of_checks.values()}
    runs = {commit: row for commit, row in runs.items() if commit in used}
    lines = table(COLUMNS, crate_table(rows)) + table(OF_CHECKS, of_checks.values())
    lines += table(OF_RUNS, ([f"`{commit}`", *row] for commit, row in runs.items()))
    missing = [f"`{crate}`" for crate in needs() if crate not in rows]
    if missing:
        put(COSTS, "\n".join([*lines, f"No run has measured {', '.join(missing)}, so no sums are made."]))
    else:
        put(COSTS, "\n".join([*lines, summary(rows, of_checks, runs)]))
        put(README, sentence(rows, of_checks, runs))


def runs_written():
    return {name: row[1:] for name, row in written("Run of commit").items()}


# ---- logs


def read(log, costs, of_checks, runs):
    """Adds what a log says; yields why it can't be taken."""
    commit, ended, mine = None, None, {}
    for kind, rest in re.findall(r"^cost: (\w+) (.*)$", text_of(log), re.M):
        words = rest.split()
        if kind == "run":
            commit, machine = words[0], " ".join(words[2:])
            runs.pop(commit, None)
            runs[commit] = [f"{datetime.date.fromisoformat(words[1]):%-d %B %Y}", machine, "", ""]
        elif kind == "ended":
            ended, used = words[0], float(words[1])
            runs[commit][2:] = [f"{float(word) / 60:.0f}" for word in words[1:]]
        elif kind == "check":
            name, clock, *processor = rest.rsplit(" ", 3)
            of_checks[name] = [f"`{name}`", clock, f"{sum(map(float, processor)):.1f}", f"`{commit}`"]
        else:
            mine.setdefault(words[0], {})[kind] = float(words[1])
    costs.update({crate: (commit, by) for crate, by in mine.items()})
    if ended != "0":
        yield f"{log}: {'its command failed' if ended else 'it is no log of a run that ended'}"
    of_provers, is_whole = sum(sum(by.values()) for by in mine.values()), not re.search(r"^rt: \w+ is kept: ", text_of(log), re.M)
    if ended and is_whole and of_provers < LEAST * used:
        yield f"{log}: its rows have less than {LEAST} of what the system counted"


def write(logs):
    costs, of_checks, runs = {}, written("Check"), runs_written()
    wrong = [why for log in logs for why in read(log, costs, of_checks, runs)]
    of_checks = {name: of_checks[name] for name in checks() if name in of_checks}
    rows, lacking, old = {}, [], crate_rows()
    for crate in needs():
        commit, by = costs.get(crate, ("", {}))
        if all(by.get(kind) for kind in kinds_of(crate)):
            rows[crate] = f"{lines_of(crate):,}", [by.get(kind, 0) for kind in KINDS], commit
        elif crate in old:
            rows[crate] = old[crate]
        else:
            lacking.append(f"no seconds of {crate}: {', '.join(kind for kind in kinds_of(crate) if not by.get(kind))}")
    if wrong:
        sys.exit("\n".join(["nothing is written:", *wrong]))
    write_page(rows, of_checks, runs)
    if lacking:
        sys.exit("\n".join(["README stays as it is:", *lacking]))


def above(crate):
    """What a change of a crate costs, by the table of COSTS."""
    rows, over = whole_rows(), standing_on(crate)
    if crate not in rows:
        sys.exit(f"{crate}: no crate of crates.txt")
    own, proofs = sum(rows[crate][1]), sum(rows[it][1][0] for it in over)
    print(f"{crate}, in processor minutes of the machine of the last whole run:")
    print(f"{own / 60:5.0f}  its proof, its tests and its edits: rt ci {crate}, where those below it are stored")
    print(f"{proofs / 60:5.0f}  the proofs of the {len(over)} crates that stand on it: rt check")
    print(f"{(own + sum(sum(rows[it][1]) for it in over)) / 60:5.0f}  both, with the tests and the edits of these: the gate")


def main(words):
    if words[:1] == ["--note"] and words[1:]:
        return note(words[1:])
    if words[:1] == ["--write"] and words[1:]:
        return write(words[1:])
    if words == ["--again"]:
        return write_page(whole_rows(), written("Check"), runs_written())
    if words[:1] == ["--above"] and len(words) == 2:
        return above(words[1])
    sys.exit(__doc__)


if __name__ == "__main__":
    sys.exit(main(sys.argv[1:]))
