"""A folder in which the program runs, and what the checks say."""

import contextlib
import os
import re
import shutil
import signal
import subprocess
import sys
import tempfile
from pathlib import Path

from harness import LeftOut  # noqa: F401, for the checks

ROOT = Path(__file__).resolve().parent.parent.parent
NOBODY = 65534
KEY = "MCowBQYDK2VwAyEAAAAAAAAAAAAAAAAAAAAAAAAAAAAAAAAAAAAAAAAAAAA="
DATES = 'not_before = "2026-01-01T00:00:00Z"\nnot_after = "2026-01-08T00:00:00Z"\n'
# How many seconds a command may take, also beside much other work; the slowest one takes some twenty.
LONGEST = 600
NEW_LOG = ["init-log", "j", "32473.1", "2", "100000"]


class Folder:
    """A folder with the program and a request `r`, in which the program runs. As root it runs as nobody, so that modes count."""

    def __init__(self, program):
        self.path = Path(tempfile.mkdtemp())
        self.notes = []
        self.program = self.path / "mtc"
        shutil.copy(program, self.program)
        self.program.chmod(0o755)
        self.owner = {"user": NOBODY, "group": NOBODY, "extra_groups": []} if os.getuid() == 0 else {}
        self.request("r", "a.example")
        self.own(self.path)

    def own(self, *paths):
        for path in paths if self.owner else ():
            os.chown(path, NOBODY, NOBODY)

    def write(self, file, text):
        """Makes a file of the program's user, whose alone it is: it may be a cosigner's journal."""
        (self.path / file).write_bytes(text)
        (self.path / file).chmod(0o600)
        self.own(self.path / file)

    def request(self, file, name):
        (self.path / file).write_text(f'{DATES}dns = ["{name}"]\nkey = "{KEY}"\n')

    def start(self, words, before=(), **options):
        streams = {"stdin": subprocess.DEVNULL, "stdout": subprocess.PIPE, "stderr": subprocess.PIPE}
        line = [*before, self.program, *words]
        # In a session of its own, so that all that it has started can be ended.
        return subprocess.Popen(line, cwd=self.path, start_new_session=True, **{**streams, **self.owner, **options})

    def run(self, words, seconds=LONGEST, **options):
        """The status, standard output and standard error of a command, whose words may be one text."""
        return ended(self.start(words.split() if isinstance(words, str) else words, **options), seconds)

    def said(self, words):
        """What a command writes to standard output; it has to end with status 0."""
        status, out, err = self.run(words)
        if status != 0:
            raise RuntimeError(f"{words}: status {status} {err}")
        return out.encode("latin-1")

    def new_log(self, file="j"):
        for name in (file, f"{file}.tiles"):
            (self.path / name).unlink(missing_ok=True)
        return self.run(["init-log", file, *NEW_LOG[2:]])

    def long_log(self, size, file="j"):
        """Makes the journal of a log of so many entries, without a file of tiles."""
        (self.path / f"{file}.tiles").unlink(missing_ok=True)
        subprocess.run([sys.executable, ROOT / "bench/log/make_journal.py", str(size), self.path / file], check=True)
        self.own(self.path / file)

    def size(self, file="j"):
        """How many entries the log has, or what is wrong."""
        status, out, err = self.run(["checkpoint", file])
        found = re.match(r"size (\d+)\n", out)
        return int(found[1]) if status == 0 and found else f"checkpoint: {status} {out}{err}"

    def entries(self, size, file="j"):
        _, text, _ = self.run(["entries", file, str(size)])
        fields, place = [], 0
        while place < len(text):
            length = ord(text[place]) * 256 + ord(text[place + 1])
            fields.append(text[place + 2:place + 2 + length])
            place += 2 + length
        return fields[0::2]

    def bytes(self, file="j"):
        """What the file holds, or None where there is none."""
        return (self.path / file).read_bytes() if (self.path / file).exists() else None

    def names(self):
        return sorted(path.name for path in self.path.iterdir())


def ended(process, seconds=LONGEST):
    """The status, standard output and standard error. Where the command, or what it has started, doesn't end in time, all of it
    is killed, and the status says so."""
    late = None
    try:
        out, err = process.communicate(timeout=seconds)
    except subprocess.TimeoutExpired:
        late = f"not ended after {seconds} s"
        with contextlib.suppress(ProcessLookupError):
            os.killpg(process.pid, signal.SIGKILL)
        out, err = process.communicate()
    return late or process.returncode, (out or b"").decode("latin-1"), (err or b"").decode("latin-1")


def unlike(what, found, wanted):
    if found != wanted:
        yield f"{what}: {found!r:.900} in place of {wanted!r:.900}"


def failed(command, file, name="Failed"):
    """How a command ends where the system failed at this file."""
    return 5, "", f"mtc: {command}: {file}: {name}\n"


def locked(command, file):
    """How it ends where another process has locked the file."""
    return failed(command, file, "Locked")
