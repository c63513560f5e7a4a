"""What the scripts of tests share: the program, a folder in which it runs, and checks as tests of Python's unittest, each with a line.

A line says `ok`, `wrong` or `left out`, as .ci/run reads them; below it stands what is wrong, and what a check notes. A check is a
method of a `Check`, whose doc says what it shows, or a function that gives a line for each thing that is wrong.
"""

import shutil
import subprocess
import sys
import tempfile
import time
import unittest
from pathlib import Path

ROOT = Path(__file__).resolve().parents[2]
DATES = 'not_before = "2026-01-01T00:00:00Z"\nnot_after = "2026-01-08T00:00:00Z"\n'
KEY = "MCowBQYDK2VwAyEAAAAAAAAAAAAAAAAAAAAAAAAAAAAAAAAAAAAAAAAAAAA="
# How much is shown of what is wrong.
SHOWN = 900
# What a check raises that this machine lacks something for.
LeftOut = unittest.SkipTest


def program_of(words):
    """The program that the first word names, if there is one, and else that of `./mtc`, which is built first where it has to be."""
    if words:
        return Path(words[0]).resolve()
    if subprocess.run([ROOT / "mtc", "member", ROOT / "examples/first.member"], stdout=subprocess.DEVNULL).returncode:
        sys.exit(70)
    return ROOT / "crates/mtc_main/out/mtc_main"


class Folder:
    """A folder of its own in which the program runs."""

    def __init__(self, program):
        self.path, self.program, self.notes = Path(tempfile.mkdtemp()), program, []

    def close(self):
        shutil.rmtree(self.path)

    def write(self, name, text):
        """Makes a file of the owner alone, as a cosigner's journal has to be."""
        (self.path / name).write_bytes(text if isinstance(text, bytes) else text.encode())
        (self.path / name).chmod(0o600)

    def read(self, name):
        return (self.path / name).read_bytes()

    def ended(self, *words):
        """Status, standard output and standard error of a command, whose words may be one text."""
        words = words[0].split() if len(words) == 1 else words
        ended = subprocess.run([self.program, *map(str, words)], cwd=self.path, capture_output=True, stdin=subprocess.DEVNULL)
        return ended.returncode, ended.stdout, ended.stderr.decode()

    def run(self, *words, into=None):
        """What a command writes to standard output; it has to end with status 0."""
        status, out, err = self.ended(*words)
        if status:
            raise RuntimeError(f"{' '.join(map(str, words))}: status {status} {err}")
        if into:
            self.write(into, out)
        return out

    def long_log(self, size, journal):
        """Makes the journal of a log of so many entries, whose keys are short."""
        subprocess.run([sys.executable, ROOT / "bench/log/make_journal.py", str(size), self.path / journal], check=True)


def expect(what, found, wanted):
    """Ends a check where two values differ."""
    if found != wanted:
        raise AssertionError(f"{what}: {str(found):.{SHOWN}} in place of {str(wanted):.{SHOWN}}")


class Check(unittest.TestCase):
    """Checks of a script, in the order in which they stand."""

    notes = ()

    @property
    def name(self):
        return self._testMethodName.removeprefix("test_")

    @property
    def says(self):
        return " ".join(self._testMethodDoc.split())


class OfLines(unittest.TestCase):
    """The check of a function `check_NAME` that gives a line for each thing that is wrong, over a scene of its own."""

    def __init__(self, make, check, *words):
        super().__init__()
        self.make, self.check, self.words, self.notes = make, check, words, ()
        self.name, self.says = check.__name__.removeprefix("check_"), " ".join(check.__doc__.split())

    def runTest(self):
        scene, wrong = self.make(), []
        self.addCleanup(shutil.rmtree, scene.path)
        self.notes = scene.notes
        try:
            for line in self.check(scene, *self.words):
                wrong.append(line)
        except Exception as why:
            if not wrong:
                raise
            wrong.append(shown(why))
        if wrong:
            raise AssertionError("\n    ".join(wrong[:9]))


def shown(why):
    return str(why) if isinstance(why, AssertionError) else f"{type(why).__name__}: {why}"


class Lines(unittest.TestResult):
    """Prints the line of each check once it has ended."""

    def __init__(self, script):
        super().__init__()
        self.script, self.wrong, self.lacks, self.count = script, [], None, 0

    def startTest(self, test):
        super().startTest(test)
        self.began, self.wrong, self.lacks = time.monotonic(), [], None

    def stopTest(self, test):
        super().stopTest(test)
        if self.lacks and not self.wrong:
            print(f"left out: {self.script}: {test.name}: {self.lacks}", flush=True)
            return
        notes = [*test.notes, f"{time.monotonic() - self.began:.0f} s"]
        print(f"{'wrong' if self.wrong else 'ok'}: {test.name}: {test.says}", *self.wrong, *notes, sep="\n    ", flush=True)

    def addSkip(self, test, reason):
        super().addSkip(test, reason)
        self.lacks = reason
        if not hasattr(test, "name"):
            # What a whole class lacks.
            print(f"left out: {self.script}: {reason}", flush=True)

    def addFailure(self, test, err):
        super().addFailure(test, err)
        self.wrong.append(shown(err[1]))

    def addError(self, test, err):
        self.addFailure(test, err)
        if not hasattr(test, "name"):
            # What a whole class stands on.
            print(f"wrong: {self.script}: {self.wrong.pop()}", flush=True)

    def addSubTest(self, test, subtest, err):
        super().addSubTest(test, subtest, err)
        if err:
            self.wrong.append(f"{subtest._message or subtest.params}: {shown(err[1])}")


def checks_of(*cases):
    """The checks of these classes, in the order in which they stand."""
    return [case(name) for case in cases for name in vars(case) if name.startswith("test_")]


def run(checks, names=()):
    """Runs the checks of these names, or all; the status of the script."""
    if unknown := {*names} - {check.name for check in checks}:
        sys.exit(f"no checks: {' '.join(sorted(unknown))}; there are {' '.join(check.name for check in checks)}")
    result = Lines(Path(sys.argv[0]).stem)
    unittest.TestSuite(check for check in checks if not names or check.name in names).run(result)
    return int(not result.wasSuccessful())
