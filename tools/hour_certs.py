#!/usr/bin/env python3
"""Writes the certificates of what an authority issued, for authority_hour.sh, which holds the lock of the folder meanwhile. In FOLDER lie

    log                    the journal
    landmarks              what `mtc landmarks log` prints
    issued/INDEX.request   what was issued and has no light certificate yet
    certs/INDEX.cert       light certificates
    signed/INDEX.cert      certificates with signatures
    certified, uncovered   INDEX.request of those that have one, and of those that can't have one any more, with INDEX.why

`light` asks for the light certificates of all of `issued` that an active landmark covers, of at most 10,000 indexes by one command,
and puts each into `certs`. Then its request goes to `certified`: so `certs` may be emptied. One that no active landmark covers any more
goes to `uncovered`, and one above the newest landmark waits. Each certificate is on the disk before its request is moved, and appears
whole. What was certified by a run that was stopped isn't asked for again.

`signed` makes certificates with signatures, in `signed`, of all entries up to the greatest size of which enough cosigners have signed the
interval from 0 on: as many as the file `enough` says, or all of `cosigners`. A signature counts if `signed`, beside it, is the request
for this interval that the log makes, if it is one signature and no more, and if the log's `about/log` and `about/cosigners` make a store
by which `mtc verify` accepts a certificate with this signature alone. If these two aren't there, a signature isn't verified.

`number` moves begun/NAME to issued/INDEX.request, from INDEX on, for each NAME of standard input; one that is moved already is left out.

It is tested, and not proved; `mtc` is.

Usage: tools/hour_certs.py light FOLDER
       tools/hour_certs.py signed FOLDER SIZE      SIZE is that of the log
       tools/hour_certs.py number FOLDER INDEX
MTC names the program, and else it is `mtc`.
Status: 0 done, 1 arguments, 2 `landmarks` isn't in its form, 5 the system failed, or that of `mtc`, if it refused a certificate for
       another reason than that of one index: what is left stays in `issued`.
"""

import base64
import contextlib
import os
import re
import stat
import subprocess
import sys
import tempfile
from datetime import datetime
from pathlib import Path

MOST = 10_000
# How many bytes of signatures a certificate holds.
MOST_SIGNED = 65_535
BEGIN, END = b"-----BEGIN CERTIFICATE-----\n", b"-----END CERTIFICATE-----\n"
TIME = rb"\x17\x0d(\d{12})Z|\x18\x0f(\d{14})Z"
TIMES = re.compile(rb"(?:%s)(?:%s)" % (TIME, TIME))
# That one index has no certificate, whatever is asked for beside it.
OF_ONE = (4, 9)


class Failed(Exception):
    """Why no more certificates are written, with the status."""

    def __init__(self, status, why):
        super().__init__(why)
        self.status = status


def sync(folder):
    number = os.open(folder, os.O_RDONLY | os.O_DIRECTORY)
    try:
        os.fsync(number)
    finally:
        os.close(number)


def sync_files(folder):
    """Syncs all files of a folder by one call, as `sync` of thousands of them takes minutes."""
    subprocess.run(["sync", "-f", "--", folder], check=True)


def indexes(folder, ending):
    """The numbers that name the files of a folder with this ending."""
    names = (name.removesuffix(ending) for name in os.listdir(folder) if name.endswith(ending))
    return {int(name) for name in names if name.isascii() and name.isdigit()}


def move(folder, numbers, target):
    """Moves the requests with these numbers out of `issued`, once what they stand for is on the disk."""
    for number in numbers:
        os.replace(folder / f"issued/{number}.request", folder / f"{target}/{number}.request")
    if numbers:
        sync(folder / target)
        sync(folder / "issued")


def runs_of(numbers):
    """Intervals that hold these numbers, of at most 10,000 indexes each."""
    found = []
    for number in sorted(numbers):
        if found and number < found[-1][0] + MOST:
            found[-1][1] = number + 1
        else:
            found.append([number, number + 1])
    return found


def covered(folder):
    """From which index on, and up to which, the active landmarks cover the entries."""
    try:
        first, *sizes = (folder / "landmarks").read_text("ascii").splitlines()
        if len(sizes) != int(first.split()[1]) + 1:
            raise ValueError
        return int(sizes[-1]), int(sizes[0])
    except (IndexError, ValueError):
        raise Failed(2, f"{folder / 'landmarks'}: no list of landmarks") from None


def moment(utc, general):
    text = (general or b"").decode() or ("20" if utc[:2] < b"50" else "19") + utc.decode()
    return datetime.strptime(text + "+0000", "%Y%m%d%H%M%S%z")


def hours_of(cert):
    """For how many hours a certificate lives, rounded up."""
    found = TIMES.search(cert)
    try:
        life = moment(found[3], found[4]) - moment(found[1], found[2])
    except (TypeError, ValueError):
        return 0
    return -(-int(life.total_seconds()) // 3600)


def certificates(printed, first):
    """The certificates in PEM that a command prints, each with its index."""
    text, number = None, first
    for line in printed:
        if line == BEGIN:
            text = []
        elif line == END and text is not None:
            yield number, base64.b64decode(b"".join(text))
            text, number = None, number + 1
        elif text is not None:
            text.append(line)


class Certifier:
    """What writes certificates into a folder, and the longest life that it saw."""

    def __init__(self, folder, target):
        self.folder, self.target, self.new = folder, target, folder / f"{target}.new"
        self.hours = 0

    def ask(self, words, first, last, wanted):
        """Puts the certificates of these indexes, as a command prints them, into their files; or what the command refuses."""
        for name in os.listdir(self.new) if self.new.is_dir() else []:
            os.unlink(self.new / name)
        self.new.mkdir(exist_ok=True)
        mtc = os.environ.get("MTC", "mtc")
        with subprocess.Popen([mtc, *words], stdout=subprocess.PIPE, stderr=subprocess.PIPE, cwd=self.folder) as run:
            number = first - 1
            for number, cert in certificates(run.stdout, first):
                if number in wanted:
                    (self.new / f"{number}.cert").write_bytes(cert)
                    self.hours = max(self.hours, hours_of(cert))
            why = run.stderr.read().decode("utf-8", "replace").strip()
        if run.returncode:
            return run.returncode if run.returncode > 0 else 128 - run.returncode, why
        if number != last - 1:
            raise Failed(5, f"{' '.join(words)}: {number + 1 - first} certificates in place of {last - first}")
        sync_files(self.new)
        for number in wanted:
            os.replace(self.new / f"{number}.cert", self.folder / f"{self.target}/{number}.cert")
        sync(self.folder / self.target)
        return 0, ""

    def close(self):
        with contextlib.suppress(FileNotFoundError):
            for name in os.listdir(self.new):
                os.unlink(self.new / name)
            self.new.rmdir()


def light(certifier, first, last, wanted):
    """Certifies what is wanted of an interval. Where a command refuses one index, the others are asked for without it."""
    status, why = certifier.ask(["light-certs", "log", str(first), str(last)], first, last, wanted)
    if status == 0:
        move(certifier.folder, wanted, "certified")
    elif status in OF_ONE and len(wanted) > 1:
        middle = sorted(wanted)[len(wanted) // 2]
        for low, high in ((first, middle), (middle, last)):
            part = {number for number in wanted if low <= number < high}
            light(certifier, min(part), max(part) + 1, part)
    elif status in OF_ONE:
        set_aside(certifier.folder, wanted, why)
    else:
        raise Failed(status, why)


def set_aside(folder, numbers, why):
    """Moves requests to `uncovered`: they get certificates with signatures."""
    for number in numbers:
        (folder / f"uncovered/{number}.why").write_text(f"{why}\n")
    move(folder, numbers, "uncovered")
    if numbers:
        print(f"hour_certs: {len(numbers)} without a light certificate, from {min(numbers)} on: {why}", file=sys.stderr)


def light_all(folder):
    """Certifies what is left in `issued`."""
    wanted = indexes(folder / "issued", ".request")
    done = wanted & indexes(folder / "certs", ".cert")
    move(folder, done, "certified")
    begin, end = covered(folder)
    set_aside(folder, {number for number in wanted - done if number < begin}, "no landmark that is active covers it")
    certifier = Certifier(folder, "certs")
    try:
        for first, last in runs_of({number for number in wanted - done if begin <= number < end}):
            light(certifier, first, last, {number for number in wanted - done if first <= number < last})
    finally:
        certifier.close()
    print(certifier.hours)


# ---- certificates with signatures


def cosigner_id(data):
    """An id in bytes, as text."""
    found, number = [], 0
    for byte in data:
        number = number << 7 | byte & 0x7F
        if byte < 0x80:
            found.append(str(number))
            number = 0
    return ".".join(found)


def part_of(path, most):
    """The bytes of a file that another party made, which has to be a plain one of at most so many bytes."""
    number = os.open(path, os.O_RDONLY | os.O_NOFOLLOW | os.O_NONBLOCK | os.O_CLOEXEC)
    with open(number, "rb") as file:
        if not stat.S_ISREG(os.fstat(number).st_mode):
            raise ValueError("no plain file")
        data = file.read(most + 1)
    if len(data) > most:
        raise ValueError(f"more than {most} bytes")
    return data


def signature_in(folder):
    """What one cosigner signed: the end of the interval, the request, the cosigner's id and the signature; nothing if it sent none."""
    if not (folder / "signature").exists() or not (folder / "signed").exists():
        return None
    signature, asked = part_of(folder / "signature", MOST_SIGNED), part_of(folder / "signed", MOST_SIGNED)
    length = signature[0] if signature else 0
    at = 1 + length
    if not length or len(signature) < at + 2 or len(signature) != at + 2 + int.from_bytes(signature[at:at + 2], "big"):
        raise ValueError("it isn't one signature")
    places = asked[1 + asked[0]:][:16] if asked else b""
    if len(places) < 16:
        raise ValueError("`signed` is no request")
    return int.from_bytes(places[8:], "big"), asked, signature[1:at], signature


def printed_by(folder, *words):
    mtc = os.environ.get("MTC", "mtc")
    ended = subprocess.run([mtc, *map(str, words)], cwd=folder, capture_output=True, check=False)
    if ended.returncode:
        why = (ended.stdout + ended.stderr).decode("utf-8", "replace").strip()
        raise Failed(ended.returncode if ended.returncode > 0 else 128 - ended.returncode, why)
    return ended.stdout


def request_for(folder, end):
    """The request to sign the interval from 0 up to an end, as it was given to the cosigners."""
    file = folder / f"asked.{end}"
    return file.read_bytes() if file.exists() else printed_by(folder, "subtree", "log", 0, end, end)


def signatures_of(folder, size, done):
    """The signatures that cosigners sent, by the end of the interval: those of an end that is new, each with its cosigner's folder."""
    found = {}
    for place in sorted((folder / "cosigners").iterdir()):
        try:
            if not (sent := signature_in(place)):
                continue
            end, asked, name, signature = sent
            if not done < end <= size:
                continue
            if asked != request_for(folder, end):
                raise ValueError(f"`signed` isn't the request for the first {end} entries of this log")
            if name in found.setdefault(end, {}):
                raise ValueError(f"{cosigner_id(name)} signed already: {found[end][name][0]}")
            found[end][name] = place, signature
        except (OSError, ValueError) as why:
            print(f"hour_certs: {place}: {why}", file=sys.stderr)
    return found


def verified(folder, end, name, signature):
    """Whether a certificate with this signature alone is accepted, if the cosigner's key is at hand."""
    try:
        tables = (folder / "about/log").read_text() + (folder / "about/cosigners").read_text()
    except FileNotFoundError:
        return True
    rule = f'\n[[rule]]\ncosigners = ["{cosigner_id(name)}"]\ncount = 1\n'
    with tempfile.TemporaryDirectory() as place:
        files = {one: Path(place) / one for one in ("signature", "cert", "store")}
        files["signature"].write_bytes(signature)
        files["store"].write_text(tables + rule)
        cert = printed_by(folder, "cert", "log", end - 1, 0, end, files["signature"])
        files["cert"].write_bytes(cert)
        times = TIMES.search(cert)
        printed_by(folder, "verify", files["cert"], files["store"], int(moment(times[1], times[2]).timestamp()))
    return True


def counted(folder, end, sent):
    """The signatures for this end that count."""
    found = []
    for name, (place, signature) in sent.items():
        try:
            verified(folder, end, name, signature)
            found.append(signature)
        except Failed as why:
            if why.status not in (2, 3):
                raise
            print(f"hour_certs: {place}: its signature doesn't count: {why}", file=sys.stderr)
    return found


def signed_all(folder, size):
    """Makes the certificates with signatures that can be made."""
    done = int((folder / "signed.to").read_text()) if (folder / "signed.to").exists() else 1
    cosigners = [place for place in (folder / "cosigners").iterdir() if place.is_dir()]
    enough = int((folder / "enough").read_text()) if (folder / "enough").exists() else len(cosigners)
    for end, sent in sorted(signatures_of(folder, size, done).items(), reverse=True):
        if not 0 < enough <= len(sent) or len(signatures := counted(folder, end, sent)) < enough:
            continue
        put(folder / "signatures", b"".join(signatures))
        certifier = Certifier(folder, "signed")
        try:
            for first in range(done, end, MOST):
                last = min(first + MOST, end)
                words = ["certs", "log", str(first), str(last), "0", str(end), "signatures"]
                status, why = certifier.ask(words, first, last, range(first, last))
                if status:
                    raise Failed(status, why)
        finally:
            certifier.close()
        put(folder / "signed.to", f"{end}\n".encode())
        print(f"signed {done} {end}: {len(signatures)} signatures")
        return


def put(path, data):
    """Puts bytes into a file, which appears whole or not at all."""
    new = path.with_name(path.name + ".new")
    with open(new, "wb") as file:
        file.write(data)
        file.flush()
        os.fsync(file.fileno())
    os.replace(new, path)
    sync(path.parent)


def number_all(folder, index):
    """Moves what was issued out of `begun`."""
    for number, name in enumerate(sys.stdin.read().splitlines(), index):
        with contextlib.suppress(FileNotFoundError):
            os.rename(folder / "begun" / name, folder / f"issued/{number}.request")
    sync(folder / "issued")
    sync(folder / "begun")


def main(words):
    try:
        if words[:1] == ["light"] and len(words) == 2:
            light_all(Path(words[1]))
        elif words[:1] == ["signed"] and len(words) == 3 and words[2].isdigit():
            signed_all(Path(words[1]), int(words[2]))
        elif words[:1] == ["number"] and len(words) == 3 and words[2].isdigit():
            number_all(Path(words[1]), int(words[2]))
        else:
            print("usage: hour_certs.py light FOLDER | signed FOLDER SIZE | number FOLDER INDEX", file=sys.stderr)
            return 1
        sys.stdout.flush()
    except Failed as why:
        print(f"hour_certs: {why}", file=sys.stderr)
        return why.status
    except (OSError, subprocess.CalledProcessError) as why:
        print(f"hour_certs: {why}", file=sys.stderr)
        return 5
    return 0


if __name__ == "__main__":
    sys.exit(main(sys.argv[1:]))
