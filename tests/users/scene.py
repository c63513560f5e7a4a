"""A folder in which the program and the tools of tools/ run, and what the checks say."""

import os
import shutil
import subprocess
import sys
import tempfile
from pathlib import Path

from harness import LeftOut

ROOT = Path(__file__).resolve().parent.parent.parent
TOOLS = ROOT / "tools"
DATES = 'not_before = "2026-01-01T00:00:00Z"\nnot_after = "2026-01-08T00:00:00Z"\n'
BEGIN, IN_TIME, LATER = "2026-01-01T00:00:00Z", "1767571200", "1893456000"
KEY = "MCowBQYDK2VwAyEAAAAAAAAAAAAAAAAAAAAAAAAAAAAAAAAAAAAAAAAAAAA="
LOG = "32473.1"
# How many seconds anything may take, also beside much other work.
LONGEST = 600
# The scripts run the Python that runs the checks.
os.environ["PATH"] = f"{Path(sys.executable).parent}{os.pathsep}{os.environ['PATH']}"


def lacks(*programs):
    """Leaves a check out where one of these programs isn't here."""
    if missing := [name for name in programs if not shutil.which(name)]:
        raise LeftOut(f"{', '.join(missing)}: not here")


class Scene:
    """A folder of its own, with the program."""

    def __init__(self, program):
        self.path = Path(tempfile.mkdtemp())
        self.program = program
        self.notes = []

    def close(self):
        shutil.rmtree(self.path)

    def file(self, name, data):
        path = self.path / name
        path.parent.mkdir(parents=True, exist_ok=True)
        path.write_bytes(data if isinstance(data, bytes) else data.encode())
        return path

    def ended(self, *words, **options):
        """Status, standard output and standard error of a command line."""
        options = {"cwd": self.path, "capture_output": True, "timeout": LONGEST, "stdin": subprocess.DEVNULL} | options
        if "input" in options:
            del options["stdin"]
        options["env"] = {**os.environ, "MTC": str(self.program), **options.get("env", {})}
        ended = subprocess.run([str(word) for word in words], **options)
        return ended.returncode, ended.stdout, ended.stderr.decode("utf-8", "replace")

    def run(self, *words, **options):
        """What a command line prints, which has to end with status 0."""
        status, out, err = self.ended(*words, **options)
        if status:
            raise RuntimeError(f"{' '.join(map(str, words))}: status {status} {err}")
        return out

    def mtc(self, *words, into=None):
        out = self.run(self.program, *words)
        if into:
            self.file(into, out)
        return out

    def tool(self, name, *words, **options):
        return self.ended(*([sys.executable] if name.endswith(".py") else []), TOOLS / name, *words, **options)

    def log(self, journal, size):
        """Makes the journal of a log of so many entries. The first ones are the same for each size."""
        self.run(sys.executable, ROOT / "bench/log/make_journal.py", size, journal)

    def built_in_go(self, name, files, **folders):
        """Builds a program in Go of one file, with packages that stand in folders of their own, and answers where it is."""
        place = self.path / f"go_{name}"
        place.mkdir()
        shutil.copy(files, place / "main.go")
        for package, sources in folders.items():
            (place / package).mkdir()
            for source in sources:
                shutil.copy(source, place / package)
        (place / "go.mod").write_text("module peer\n\ngo 1.19\n")
        env = {"GOFLAGS": "-mod=mod", "GO111MODULE": "on", "GOPROXY": "off", "GOTOOLCHAIN": "local",
               "GOCACHE": str(self.path / "cache"), "GOPATH": str(self.path / "gopath")}
        self.run("go", "build", "-o", self.path / name, ".", cwd=place, env=env)
        return self.path / name


def differ(what, found, wanted):
    """A line where two values differ."""
    if found != wanted:
        yield f"{what}: {found!r:.400} in place of {wanted!r:.400}"


def refused(what, ended, status, words, prints=b""):
    """A line where a tool didn't end with this status and these words in its line on standard error."""
    if ended[0] != status or words not in ended[2] or ended[1] != prints:
        yield f"{what}: {ended!r:.400} in place of status {status}, {words!r}"
