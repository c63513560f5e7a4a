"""Times the way from a request to a certificate that is verified, one at a time or by lists; prints lines
WORK|OF|SECONDS|CLOCK|SYNCS.

SECONDS are of the processor and CLOCK those by the clock, with its syncs, each the median of the rounds; SYNCS are the seconds by the
clock of the syncs of one more run, and their number.
Usage: time_runs.py log PROGRAM FOLDER ENTRIES ROUNDS REQUEST    FOLDER has the log `journal` of so many entries, which
                                                                 bench/log/make_journal.py made; it is cut
       time_runs.py openssl FOLDER ROUNDS                        by OpenSSL, with each algorithm that it has
"""

import base64
import os
import re
import resource
import shutil
import statistics
import subprocess
import sys
import time
from pathlib import Path

TRACE = ["strace", "-qq", "-f", "--seccomp-bpf", "-T", "-e", "trace=fsync,fdatasync,sync_file_range", "-o", "trace"]
NOW = "1767571200"
ALGORITHMS = {"Ed25519": ["-algorithm", "ED25519"], "P-256": ["-algorithm", "EC", "-pkeyopt", "ec_paramgen_curve:P-256"],
              "ML-DSA-44": ["-algorithm", "ML-DSA-44"]}
# So many requests a list has.
LISTS = (10, 100, 700)
# More bytes at the end of a journal than a command writes again.
TAIL = 1 << 20
EACH = f'for number in $(seq 0 "$1"); do "$0" verify "cert$number" store {NOW} || exit; done'


def spent():
    """The processor seconds of all runs so far."""
    used = resource.getrusage(resource.RUSAGE_CHILDREN)
    return used.ru_utime + used.ru_stime


class Folder:
    def __init__(self, path):
        self.path = Path(path)

    def timed(self, *words):
        """(seconds of the processor, seconds by the clock, standard output); the command has to do its work."""
        start, began = spent(), time.monotonic()
        ended = subprocess.run(words, cwd=self.path, capture_output=True)
        seconds, clock = spent() - start, time.monotonic() - began
        if ended.returncode:
            sys.exit(f"wrong: {' '.join(words)}: status {ended.returncode} {ended.stderr.decode()}")
        return seconds, clock, ended.stdout

    def run(self, *words):
        """(seconds of the processor, standard output)."""
        seconds, _, out = self.timed(*words)
        return seconds, out

    def syncs(self, *words):
        """What the syncs of a run took, and how many there were."""
        if not shutil.which("strace"):
            return ""
        self.run(*TRACE, *words)
        took = re.findall(r"sync.*<([0-9.]+)>$", (self.path / "trace").read_text(), re.M)
        return f"{sum(map(float, took)):.3f} in {len(took)}"


class Journal:
    """A journal whose records of entries all have one length. It ends in a byte that says that no record follows."""

    def __init__(self, path, entries):
        self.path, self.entries = path, entries
        with open(path, "rb") as file:
            file.seek(16)
            first = 16 + 5 + int.from_bytes(file.read(5)[1:], "big")
        self.first, self.length = first, (path.stat().st_size - 1 - first) // (entries - 1)
        if first + (entries - 1) * self.length + 1 != path.stat().st_size:
            sys.exit(f"wrong: {path}: records of other lengths")

    def cut(self, entries):
        """Leaves so many entries."""
        with open(self.path, "r+b") as file:
            end = self.first + (entries - 1) * self.length
            file.truncate(end)
            self.begin = max(0, end - TAIL)
            file.seek(self.begin)
            self.tail = file.read() + b"\0"
        self.again()

    def again(self):
        """Takes away what was appended since the cut, and syncs the file, so that no later sync waits for that."""
        with open(self.path, "r+b") as file:
            file.truncate(self.begin)
            file.seek(self.begin)
            file.write(self.tail)
            file.flush()
            os.fsync(file.fileno())


def store_of(folder, program):
    """Writes a store that trusts the hash of all entries; their number."""
    text = folder.run(program, "checkpoint", "journal")[1].decode()
    size, root = re.fullmatch(r"size (\d+)\nroot ([0-9a-f]{64})\n", text).groups()
    (folder.path / "store").write_text(f'[log]\nid = "32473.1"\n[[subtree]]\nstart = 0\nend = {size}\nhash = "{root}"\n')
    return size


def shown(work, of, rounds, syncs):
    seconds, clocks = zip(*rounds)
    print(work, of, f"{statistics.median(seconds):.4f}", f"{statistics.median(clocks):.4f}", syncs, sep="|", flush=True)


def certificates(text):
    """Each certificate of a text of PEM, in DER."""
    blocks = re.findall(r"-----BEGIN CERTIFICATE-----\n(.*?)-----END CERTIFICATE-----\n", text.decode(), re.S)
    return [base64.b64decode(block) for block in blocks]


class Way:
    """From so many requests to as many verified certificates."""

    def __init__(self, folder, program, request, many):
        self.folder, self.program, self.many = folder, program, many
        text = Path(request).read_text()
        (folder.path / "requests").write_text(text if many == 1 else many * f"[[request]]\n{text}")
        (folder.path / "none").write_bytes(b"")
        issue, certify = ("issue", "cert") if many == 1 else ("issue-list", "certs")
        self.issue, self.certify = (program, issue, "journal", "requests"), (program, certify, "journal")

    def verify(self, first, text):
        """What it takes to verify all certificates of a text."""
        found = [text] if self.many == 1 else certificates(text)
        if len(found) != self.many:
            sys.exit(f"wrong: {len(found)} certificates")
        for number, certificate in enumerate(found):
            (self.folder.path / f"cert{number}").write_bytes(certificate)
        one = (self.program, "verify", "cert0", "store", NOW)
        words = one if self.many == 1 else ("bash", "-c", EACH, self.program, str(self.many - 1))
        *took, said = self.folder.timed(*words)
        if said.decode() != "".join(f"accepted {index}\n" for index in range(first, first + self.many)):
            sys.exit(f"wrong: verify: {said.decode()[:100]}")
        return took

    def once(self):
        """(issuing, certifying, verifying, all three), each as (seconds of the processor, seconds by the clock)."""
        *issuing, text = self.folder.timed(*self.issue)
        first = int(text.decode().split()[1])
        size = store_of(self.folder, self.program)
        last = [] if self.many == 1 else [str(first + self.many)]
        self.last = (*self.certify, str(first), *last, "0", size, "none")
        *certifying, text = self.folder.timed(*self.last)
        verifying = self.verify(first, text)
        return issuing, certifying, verifying, [sum(each) for each in zip(issuing, certifying, verifying)]


def log(program, path, entries, rounds, request):
    """Each way ends in a log of so many entries."""
    folder, journal = Folder(path), Journal(Path(path) / "journal", int(entries))
    for many in (1, *LISTS):
        journal.cut(int(entries) - many)
        way, found = Way(folder, program, request, many), []
        for _ in range(int(rounds)):
            journal.again()
            found.append(way.once())
        issuing, certifying, verifying, all_three = zip(*found)
        certified = folder.syncs(*way.last)
        journal.again()
        of = f"{many} certificate{'s' if many > 1 else ''}, at {entries} entries"
        shown(f"`{way.issue[1]}`", of, issuing, folder.syncs(*way.issue))
        shown(f"`{way.certify[1]}`", of, certifying, certified)
        shown("`verify`", of, verifying, "")
        shown(f"from {'requests' if many > 1 else 'a request'} to {'' if many > 1 else 'a '}verified certificate{'s' if many > 1 else ''}",
              of, all_three, "")


def openssl(path, rounds):
    folder = Folder(path)
    folder.run("openssl", "req", "-new", "-newkey", "ED25519", "-nodes", "-keyout", "server.key", "-subj", "/CN=www.example", "-out", "csr")
    for name, words in ALGORITHMS.items():
        made = subprocess.run(["openssl", "genpkey", *words, "-out", "ca.key"], cwd=path, capture_output=True)
        if made.returncode:
            print(f"left out: issuing: this OpenSSL has no {name}", file=sys.stderr)
            continue
        folder.run("openssl", "req", "-x509", "-new", "-key", "ca.key", "-subj", "/CN=authority", "-days", "30", "-out", "ca.pem")
        issue = "openssl x509 -req -in csr -CA ca.pem -CAkey ca.key -set_serial 77 -days 7 -out cert.pem".split()
        verify = "openssl verify -CAfile ca.pem cert.pem".split()
        found = [(folder.timed(*issue)[:2], folder.timed(*verify)[:2]) for _ in range(int(rounds) * 4)]
        issuing, verifying = zip(*found)
        of = f"1 certificate, {name}"
        shown("`openssl x509 -req`", of, issuing, folder.syncs(*issue))
        shown("`openssl verify`", of, verifying, "")


if __name__ == "__main__":
    {"log": log, "openssl": openssl}[sys.argv[1]](*sys.argv[2:])
