#!/usr/bin/env python3
"""Tries mutants, and writes into tests/mutants/tried.txt which of them a check has seen.

Usage: tests/mutants.py [--program FILE] [--stale | NAME ..]    all that there are, those that wait, or these; with another build of
                                                                the program than that of ./mtc

A mutant is a wrong body of what no proof covers: of the real files, the streams, the C library's struct, or a script. It stands in
tests/mutants, and its line `check: ` names the check that has to fail. It is made on a copy of the repository. A mutant of a crate has to
be still proved there, and the program is built from it, by `rt run`: a wrong body that a clause refuses belongs into tests/edits. That
begins with the libraries that stand here, as ./mtc leaves them; where there are none, all crates are proved first. The check has to pass
on the copy as it stands, and to print a line `wrong: ` on the mutant; what it leaves out shows nothing. So a line of the ledger promises:
on this day, this check saw this wrong body.
"""

import os
import pathlib
import shutil
import signal
import subprocess
import sys
import tempfile
import time

sys.dont_write_bytecode = True
from checks import mutants
from checks.citations import CRATES
from checks.sources import ROOT

PROGRAM = "crates/mtc_main/out/mtc_main"


class Tree:
    """A copy of the repository with a built program, in which mutants are made one after the other."""

    def __init__(self, program):
        self.room = pathlib.Path(tempfile.mkdtemp(prefix="mutants-"))
        self.room.chmod(0o755)  # some checks run the program as nobody
        self.program, self.passes = program, {}
        for name in subprocess.check_output(["git", "ls-files", "-coz", "--exclude-standard"], cwd=ROOT, text=True).split("\0"):
            if (ROOT / name).is_file():
                (self.root / name).parent.mkdir(parents=True, exist_ok=True)
                shutil.copy2(ROOT / name, self.root / name, follow_symlinks=False)
        for crate in CRATES:
            self.take_library(crate)
        self.put_program()

    @property
    def root(self):
        return self.room / "tree"

    def take_library(self, crate):
        """Gives a crate the library that stands in the repository: rt removes such a file before it makes another, and changes none."""
        rlib = self.root / "crates" / crate / "out" / "rlib"
        shutil.rmtree(rlib, ignore_errors=True)
        if (ROOT / "crates" / crate / "out" / "rlib").is_dir():
            shutil.copytree(ROOT / "crates" / crate / "out" / "rlib", rlib, copy_function=link_or_copy)

    def put_program(self):
        """Gives the copy the program, newer than all of its sources, so that ./mtc builds no other."""
        (self.root / PROGRAM).parent.mkdir(parents=True, exist_ok=True)
        (self.root / PROGRAM).unlink(missing_ok=True)
        shutil.copy(self.program, self.root / PROGRAM)
        (self.root / PROGRAM).chmod(0o755)

    def sees(self, check):
        """Whether a check fails here, which a line `wrong: ` says; or why nothing is known. It is ended at the first such line."""
        run = subprocess.Popen(check, cwd=self.root, stdin=subprocess.DEVNULL, stdout=subprocess.PIPE, stderr=subprocess.STDOUT, text=True,
                               errors="replace", start_new_session=True, env={**os.environ, "PYTHONUNBUFFERED": "1"})
        said, is_wrong = [], False
        try:
            for line in run.stdout:
                said.append(line.rstrip())
                is_wrong |= line.startswith("wrong: ")
                if is_wrong and not line.startswith("wrong: "):
                    break
        finally:
            end(run)
        left = [line for line in said if line.startswith("left out: ") and not any(one.startswith("ok: ") for one in said)]
        if is_wrong:
            return True, next(line for line in said if line.startswith("wrong: "))
        return (None, left[0]) if left else (False, "") if run.returncode == 0 else (None, f"status {run.returncode}: {said[-1:]}")

    def passes_as_it_stands(self, check):
        """Why a check says nothing of a mutant: that it fails, or is left out, without one."""
        words = tuple(check)
        if words not in self.passes:
            found, why = self.sees(check)
            self.passes[words] = None if found is False else why
        return self.passes[words]

    def why_not_built(self, crate):
        """Proves and builds the program with a changed crate, or the C library; returns why that can't be done, or nothing."""
        top, words = ("mtc_c", ["lib"]) if crate == "mtc_c" else ("mtc_main", ["run", "--jobs", "1", "--", "version"])
        (self.root / PROGRAM).unlink(missing_ok=True)
        run = subprocess.run(["rt", *words], cwd=self.root / "crates" / top, stdout=subprocess.PIPE, stderr=subprocess.STDOUT, text=True,
                             errors="replace", stdin=subprocess.DEVNULL)
        open_goals = [line for line in run.stdout.split("\n") if "it is not proved that" in line or ": error" in line]
        return f"it isn't proved, or can't be built: {(open_goals or [run.stdout[-300:]])[0]}" if run.returncode else None

    def tried(self, mutant):
        """Whether the check sees a mutant, and what it says; None where nothing is known."""
        why = self.passes_as_it_stands(mutant.check)
        if why:
            return None, f"its check fails or is left out without it: {why}"
        before = mutant.applied(self.root)
        try:
            why = self.why_not_built(mutant.crate.name) if mutant.crate else None
            return (None, why) if why else self.sees(mutant.check)
        finally:
            for file, text in before.items():
                (self.root / file).write_text(text)
            if mutant.crate:
                self.take_library(mutant.crate.name)
            self.put_program()

    def remove(self):
        shutil.rmtree(self.room, ignore_errors=True)


def link_or_copy(one, other):
    try:
        os.link(one, other)
    except OSError:
        shutil.copy2(one, other)


def end(run):
    """Ends a check, with all that it started."""
    run.stdout.close()
    try:
        run.wait(1)
    except subprocess.TimeoutExpired:
        os.killpg(run.pid, signal.SIGTERM)
    try:
        run.wait(30)
    except subprocess.TimeoutExpired:
        os.killpg(run.pid, signal.SIGKILL)
        run.wait()


def reported(tree, name):
    """Tries a mutant, says what came of it, writes its line, and returns whether its check saw it."""
    mutant, begun = mutants.mutants()[name], time.monotonic()
    sums = mutant.sums()
    faults = list(mutant.faults())
    found, why = (None, faults[0]) if faults else tree.tried(mutant)
    told = {True: "seen", False: "NOT SEEN", None: "nothing is known"}[found]
    print(f"{name}: {told} by {' '.join(mutant.check)}{': ' if why else ''}{why[:300]}; {time.monotonic() - begun:.0f} s", flush=True)
    if found and mutant.sums() == sums:
        mutants.write({name: mutants.Line(time.strftime("%Y-%m-%d", time.gmtime()), *sums)})
    elif found is False:
        mutants.write({name: None})
    return found is True


def main(words):
    signal.signal(signal.SIGTERM, lambda *_: sys.exit("stopped"))
    program = ROOT / PROGRAM
    if words[:1] == ["--program"] and len(words) > 1:
        program, words = pathlib.Path(words[1]).resolve(), words[2:]
    names = mutants.waiting() if words == ["--stale"] else words or list(mutants.mutants())
    if unknown := [name for name in names if name not in mutants.mutants()]:
        sys.exit(f"there are no mutants {', '.join(unknown)}")
    if program == ROOT / PROGRAM and subprocess.run([ROOT / "mtc", "version"], stdout=subprocess.DEVNULL).returncode:
        return 70
    tree = Tree(program)
    try:
        seen = [reported(tree, name) for name in names]
    finally:
        tree.remove()
    print(f"{'ok' if all(seen) else 'wrong'}: mutants: {sum(seen)} of {len(seen)} were seen by their checks")
    return int(not all(seen))


if __name__ == "__main__":
    sys.exit(main(sys.argv[1:]))
