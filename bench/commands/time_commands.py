"""Runs each command over a log of so many entries, in the order of the table of docs/COMMANDS.md, and fails where a command of it
has no line.

Usage: time_commands.py times PROGRAM FOLDER ENTRIES           prints lines WORK|OF|SECONDS|MEMORY
       time_commands.py instructions PROGRAM FOLDER ENTRIES    prints lines WORK|OF|INSTRUCTIONS
"""

import os
import re
import shutil
import subprocess
import sys
import tempfile
from concurrent.futures import ThreadPoolExecutor
from pathlib import Path

ROOT = Path(__file__).resolve().parents[2]
LOG, COSIGNER, NOW = "32473.1", "32473.2", "1767571200"
ROUNDS = int(os.environ.get("ROUNDS", "3"))
WORKERS = int(os.environ.get("WORKERS", os.cpu_count() or 1))
# So many requests a list has, and so many certificates.
MANY = 700
APPENDING = {"init-log", "issue", "issue-list", "landmark", "switch", "tile", "tile-anew", "init-cosigner", "init-cosigner2", "advance",
             "child", "cosign"}
SOURCES = {"issue": "short", "issue-list": "brief", "switch": "short", "tile-anew": "lost", "advance": "early", "child": "childless",
           "cosign": "early-held"}


class Bench:
    def __init__(self, program, folder, entries):
        self.program, self.folder, self.entries = str(Path(program).resolve()), Path(folder), int(entries)
        self.last, self.counts_by = self.entries - 1, None

    def run(self, *words, into=os.devnull):
        with open(self.folder / into, "wb") as out:
            ended = subprocess.run([self.program, *map(str, words)], cwd=self.folder, stdout=out, stderr=subprocess.PIPE)
        if ended.returncode:
            sys.exit(f"wrong: {' '.join(map(str, words))}: status {ended.returncode} {ended.stderr.decode()}")

    def begin(self, words, folder):
        """Where a command appends, its journal and the file of tiles are new copies."""
        if words[0] in APPENDING:
            for end in ("", ".tiles"):
                (folder / f"new{end}").unlink(missing_ok=True)
                if not words[0].startswith("init-"):
                    source = self.folder / SOURCES.get(words[0], "log")
                    if Path(f"{source}{end}").exists():
                        shutil.copy(f"{source}{end}", folder / f"new{end}")

    def measured(self, words):
        """Seconds and memory: the least of some runs, and the most."""
        took = []
        for _ in range(ROUNDS):
            self.begin(words, self.folder)
            with open(os.devnull, "wb") as none:
                ended = subprocess.run(["/usr/bin/time", "-q", "-f", "%U %S %M", "-o", "time", self.program, *words], cwd=self.folder,
                                       stdout=none, stderr=subprocess.PIPE)
            if ended.returncode:
                sys.exit(f"wrong: {' '.join(words)}: status {ended.returncode} {ended.stderr.decode()}")
            user, system, held = (self.folder / "time").read_text().split()
            took.append((float(user) + float(system), int(held) * 1024))
        seconds = min(one for one, _ in took)
        held = max(two for _, two in took)
        return f"{seconds:.2f}" if seconds >= 0.01 else "below 0.01", f"{(held + 500000) // 1000000} MB"

    def counting(self):
        """The words before a command that count its instructions, and how the count is printed: by QEMU with a plugin, where both are
        here, since valgrind takes three times as long."""
        plugin = self.folder / "count.so"
        source = Path(__file__).parent / "count.c"
        if shutil.which("qemu-x86_64") and not subprocess.run(["cc", "-O2", "-shared", "-fPIC", "-o", plugin, source]).returncode:
            tool = ["qemu-x86_64", "-plugin", str(plugin)]
            if b"instructions " in subprocess.run([*tool, self.program, "version"], capture_output=True).stderr:
                return tool, r"^instructions (\d+)$"
        return ["valgrind", "--tool=cachegrind", "--cache-sim=no", "--cachegrind-out-file=/dev/null"], r"I\s+refs:\s+([0-9,]+)"

    def counted(self, words):
        """Instructions of one run. Its files are copies, since other commands run meanwhile."""
        own = Path(tempfile.mkdtemp(dir=self.folder))
        for name in (f"{word}{end}" for word in words for end in ("", ".tiles")):
            if (self.folder / name).is_file():
                shutil.copy(self.folder / name, own / name)
        self.begin(words, own)
        tool, shown = self.counts_by
        ended = subprocess.run([*tool, self.program, *words], cwd=own, stdout=subprocess.DEVNULL, stderr=subprocess.PIPE)
        counted = re.search(shown, ended.stderr.decode(), re.M)
        if ended.returncode or not counted:
            sys.exit(f"wrong: {' '.join(words)}: status {ended.returncode} {ended.stderr.decode()}")
        shutil.rmtree(own)
        return (f"{int(counted.group(1).replace(',', '')) / 1e6:,.1f} million",)


def make_files(bench):
    """All files that the commands read."""
    make = [sys.executable, "-B", str(ROOT / "bench/log/make_journal.py")]
    for name, count in (("log", bench.entries), ("short", bench.last), ("brief", bench.entries - MANY)):
        subprocess.run([*make, str(count), name], cwd=bench.folder, check=True)
    (bench.folder / "secret").write_bytes(bytes(48))
    (bench.folder / "none").write_bytes(b"")
    (bench.folder / "watch").write_text("www.example\n")
    for name in ("first.member", "www.request"):
        shutil.copy(ROOT / "examples" / name, bench.folder / name)
    (bench.folder / "requests").write_text(MANY * f"[[request]]\n{(bench.folder / 'www.request').read_text()}")
    size = bench.entries
    bench.run("consist", "log", 0, size, into="consist")
    bench.run("subtree", "log", 0, size, size, into="subtree")
    bench.run("init-cosigner", "early", COSIGNER, LOG, 10, 8, "secret", into="key")
    shutil.copy(bench.folder / "early", bench.folder / "early-held")
    bench.run("advance", "early-held", "consist")
    shutil.copy(bench.folder / "early-held", bench.folder / "cosigner")
    bench.run("cosign", "cosigner", "subtree", into="signature")
    bench.run("export", "cosigner", into="export")
    bench.run("init-cosigner2", "childless", COSIGNER, LOG, 10, 10, 8, "secret")
    bench.run("advance", "childless", "consist")
    shutil.copy(bench.folder / "log", bench.folder / "lost")
    bench.run("tile", "lost")
    (bench.folder / "lost.tiles").unlink()
    shutil.copy(bench.folder / "log", bench.folder / "marked")
    bench.run("landmark", "marked")
    bench.run("landmarks", "marked", into="list")
    bench.run("entries", "log", size, into="entries")
    bench.run("cert", "log", bench.last, 0, size, "signature", into="cert")
    bench.run("light-cert", "marked", bench.last, into="light")
    bench.run("monitor-init", LOG, into="state")
    key = (bench.folder / "key").read_text().strip()
    (bench.folder / "store").write_text(f'[log]\nid = "{LOG}"\n[[cosigner]]\nid = "{COSIGNER}"\nkey = "{key}"\n[[rule]]\n'
                                        f'cosigners = ["{COSIGNER}"]\ncount = 1\n')
    bench.run("trust-landmarks", "list", 2, "entries", into="tables")
    (bench.folder / "trusting").write_text(f'[log]\nid = "{LOG}"\n' + (bench.folder / "tables").read_text())


def lines(bench):
    """For each command its words, and what is said of them."""
    n, last = bench.entries, bench.last
    return [
        ("member first.member", ""), ("show cert", "1 cosignature"), (f"verify cert store {NOW}", "1 cosignature"),
        (f"verify light trusting {NOW}", "a certificate without signatures"), (f"init-log new {LOG} 2 1048576", ""),
        ("issue new www.request", ""), ("issue-list new requests", f"{MANY} requests"), ("checkpoint log", ""),
        (f"entries log {n}", "all entries"), (f"entries-from log {max(1, n - 256)} {n}", "the last 256"), (f"consist log {n // 2 + 1} {n}", ""),
        (f"subtree log 0 {n} {n}", ""), ("keygen 10 8 secret", "height 10, width 8"),
        (f"init-cosigner new {COSIGNER} {LOG} 10 8 secret", "height 10, width 8"),
        (f"init-cosigner2 new {COSIGNER} {LOG} 10 10 8 secret", "heights 10 and 10, width 8"), ("advance new consist", ""),
        ("child new", "heights 10 and 10, width 8"), ("cosign new subtree", "height 10, width 8"), ("export cosigner", "1 signature"), ("landmark new", ""), ("landmarks marked", ""),
        (f"light-cert marked {last}", ""), (f"light-certs marked {n - MANY} {n}", f"{MANY} certificates"),
        ("switch new", ""), ("tile new", "all tiles"), ("tile-anew new", "all tiles, of a lost file"), ("trust-landmarks list 2 entries", "1 landmark"),
        (f"cert log {last} 0 {n} signature", ""), (f"certs log {n - MANY} {n} 0 {n} signature", f"{MANY} certificates"),
        (f"audit cert store {NOW} entries export", "1 cosignature"), ("quarrel export", "1 signature"),
        ("drill 7", ""), ("root entries", ""), ("held export", "1 signature"), (f"monitor-init {LOG}", ""),
        ("monitor state watch consist entries", "all entries, 1 domain"), ("help", ""), ("version", ""),
    ]


def main(what, program, folder, entries):
    bench = Bench(program, folder, entries)
    make_files(bench)
    rows = lines(bench)
    table = (ROOT / "docs/COMMANDS.md").read_text().split("\n## ")[0]
    lacking = set(re.findall(r"^\| `([a-z0-9-]+)[ `]", table, re.M)) - {words.split()[0] for words, _ in rows}
    if lacking:
        sys.exit(f"wrong: no line for {', '.join(sorted(lacking))}")
    measured, workers = (bench.measured, 1) if what == "times" else (bench.counted, WORKERS)
    if what == "instructions":
        bench.counts_by = bench.counting()
    with ThreadPoolExecutor(workers) as runs:
        for (words, of), found in zip(rows, runs.map(measured, (words.split() for words, _ in rows))):
            print(f"`{words.split()[0]}`", of, *found, sep="|", flush=True)


if __name__ == "__main__":
    main(*sys.argv[1:])
