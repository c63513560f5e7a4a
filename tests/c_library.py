#!/usr/bin/env python3
"""Compares what the C library says of certificates, by calls from Python, C and Go, with what the readers of tests/reference say.

The rows are those of tests/hostile_files.py for `verify`; certificates of which each byte is each of all values; and ROUNDS of these rows
that are changed at random, by the number of the day since 1970 in UTC, which the line says. Refusals and fields have the names of include/mtc.h. The calls are made one after the
other, then by eight threads at once, and by a program of C in threads that have no more stack than the header says, also of the largest
certificates. Of a certificate that is accepted, key, names and the entry's hash are compared too, in a buffer that is just long enough,
and in one that is too short. Names of refusals, null pointers, the interface's number, what the callers of examples/c say of bad words
and out of memory, and the library in a release are tried. Where there is no C compiler all is left out, and where there is no Go
compiler that part. Usage: tests/c_library.py [ROUNDS [DAY]]
"""

import ctypes
import hashlib
import os
import random
import re
import shutil
import subprocess
import sys
import tarfile
import tempfile
import time
from concurrent.futures import ThreadPoolExecutor
from functools import cache
from multiprocessing import Pool
from pathlib import Path

from callers import largest, programs
from hostile import judgements
from reference import certificate, entry, judging, merkle, proof, store

ROOT = Path(__file__).resolve().parent.parent
HEADER = ROOT / "include/mtc.h"
# Programs of C, Python and Go judge one row of so many.
EACH = 1 if os.environ.get("MTC_ALL") == "1" else 40
THREADS = 8
ROUNDS = 2000
# What `verify` prints for a name of the header, where it isn't the name alone.
PRINTED_AS = {"ProofShort": "Short", "ProofHashLength": "HashLength", "ProofTrailing": "Trailing", "ProofEmptyId": "EmptyId",
           "BadSubtree": "ProofShape BadSubtree", "Outside": "ProofShape Outside", "WrongLength": "ProofShape WrongLength",
           "CertificateTooLong": "TooLong"}
WITH_NUMBER = {"ProofShort", "ProofEmptyId", "TooFewCosigners"}
# What is said of a certificate that has too many bytes, as of any file of a command.
TOO_LONG = [(9, b"", b"mtc: verify: c: TooLong\n")]


def header_names():
    """The names of the three lists of the header by their numbers: what is answered, refusals, and fields of a store."""
    found = []
    for block in re.findall(r"enum \{(.*?)\};", HEADER.read_text(), re.S):
        lines = re.findall(r"MTC_(?:FIELD_)?([A-Z_]+) = (\d+)", block)
        found.append({int(number): "".join(word.capitalize() for word in name.split("_")) for name, number in lines})
    return found


def header_number(name):
    """What a name of the header is defined as."""
    return int(re.search(rf"^#define {name} (\d+)$", HEADER.read_text(), re.M)[1])


class Verdict(ctypes.Structure):
    """The struct of the header."""
    _fields_ = [("status", ctypes.c_uint32), ("refusal", ctypes.c_uint32)] + [
        (name, ctypes.c_uint64) for name in ("number", "index", "start", "end", "cosigners")]


    def printed(self, names):
        """The status and the texts of `verify` that say the same."""
        _, refusals, fields = names
        if self.status == 0:
            return [(0, f"accepted {self.index}\n".encode(), b"")]
        if self.status == 8:
            return [(8, b"", b"")]
        if self.status == 9:
            return TOO_LONG
        reason = refusals[self.refusal]
        words = PRINTED_AS.get(reason, reason)
        if self.refusal in (3, 4):
            words += " " + fields[self.number]
        elif reason in WITH_NUMBER or 16 <= self.refusal < 32:
            words += f" {self.number}"
        if self.status == 3:
            return [(3, f"refused {words}\n".encode(), b"")]
        return [(2, b"", f"mtc: verify: {'store' if self.refusal < 16 else 'c'}: {words}\n".encode())]


class Library:
    """The shared object, called by Python."""

    def __init__(self, path):
        self.calls = ctypes.CDLL(str(path))

    def judge(self, cert, known, now):
        verdict = Verdict(7, 7, 7, 7, 7, 7, 7)
        status = self.calls.mtc_judge(cert, ctypes.c_size_t(len(cert)), known, ctypes.c_size_t(len(known)), ctypes.c_int64(now),
                                      ctypes.byref(verdict))
        assert status == verdict.status
        return verdict

    def copied(self, call, capacity, *words):
        """What a call copies into so many bytes: its answer, the length, and the buffer."""
        buffer, length = ctypes.create_string_buffer(b"\xaa" * (capacity + 1), capacity + 1), ctypes.c_uint64(7)
        status = getattr(self.calls, call)(*words, buffer, ctypes.c_size_t(capacity), ctypes.byref(length))
        return status, length.value, buffer.raw

    def piece(self, call, cert, capacity, *words):
        """What a call copies of a certificate."""
        return self.copied(call, capacity, cert, ctypes.c_size_t(len(cert)), *words)

    def name(self, call, number):
        """The name of a refusal or of a field, or nothing."""
        kind = ctypes.c_uint32 if call == "mtc_refusal_name" else ctypes.c_uint64
        status, length, room = self.copied(call, header_number("MTC_MAX_NAME"), kind(number))
        return room[:length].decode() if status == 0 else ""


HEADER_SAYS = """#include "mtc.h"
{}
_Static_assert(sizeof(struct mtc_verdict) == {}, "its size");
typedef uint32_t copy_out(const uint8_t *, size_t, uint8_t *, size_t, uint64_t *);
typedef uint32_t copy_out_one(const uint8_t *, size_t, uint64_t, uint8_t *, size_t, uint64_t *);
typedef uint32_t judge(const uint8_t *, size_t, const uint8_t *, size_t, int64_t, struct mtc_verdict *);
typedef uint32_t copy_out_form(const uint8_t *, size_t, uint32_t, uint8_t *, size_t, uint64_t *);
copy_out *const piece = mtc_public_key;
copy_out *const hash = mtc_entry_hash;
copy_out_form *const hash_in = mtc_entry_hash_in;
copy_out_one *const name = mtc_dns_name;
judge *const judges = mtc_judge;
uint32_t (*const abi)(void) = mtc_abi;
uint32_t (*const refusal)(uint32_t, uint8_t *, size_t, uint64_t *) = mtc_refusal_name;
uint32_t (*const field)(uint64_t, uint8_t *, size_t, uint64_t *) = mtc_field_name;
"""


def wrong_header():
    """What a C compiler says, where the header has not the struct and the functions that are called here from Python."""
    fields = "".join(f'_Static_assert(offsetof(struct mtc_verdict, {name}) == {getattr(Verdict, name).offset}, "{name}");\n'
                     f'_Static_assert(sizeof ((struct mtc_verdict *)0)->{name} == {getattr(Verdict, name).size}, "{name}");\n'
                     for name, _ in Verdict._fields_)
    tried = subprocess.run([*programs.COMPILE, "-fsyntax-only", "-xc", "-"], input=HEADER_SAYS.format(fields, ctypes.sizeof(Verdict)),
                           capture_output=True, text=True)
    return tried.stderr.splitlines()


def wrong_interface(library, shared):
    """How the number of the interface differs: that of the header, that of the library, and that in the name by which it is loaded."""
    said, number = library.calls.mtc_abi(), header_number("MTC_ABI")
    if said != number:
        yield f"mtc_abi: {said} in place of {number}"
    parts = subprocess.run(["objdump", "-p", shared], capture_output=True, text=True).stdout
    names = re.findall(r"SONAME\s+(\S+)", parts)
    if names != [f"libmtc.so.{number}"] or os.readlink(shared) != names[0]:
        yield f"{names}, and a link to {os.readlink(shared)}"
    # DF_BIND_NOW: what the library needs of others is looked for when it is loaded.
    flags = re.search(r"^ *FLAGS +0x([0-9a-f]+)$", parts, re.M)
    if not flags or not int(flags[1], 16) & 8:
        yield "its names aren't bound when it is loaded"


def wrong_names(library, names):
    """How names of refusals and of fields differ from those that `verify` prints."""
    _, refusals, fields = names
    for call, known in (("mtc_refusal_name", refusals), ("mtc_field_name", fields)):
        kind = ctypes.c_uint32 if call == "mtc_refusal_name" else ctypes.c_uint64
        for number in (*range(300), (1 << 32) - 1):
            name = known.get(number, "NoRefusal")
            word = "" if name == "NoRefusal" else PRINTED_AS.get(name, name)
            size, room = len(word), word.encode() + b"\xaa"
            wanted = [(0, size, room), (0, size, room + b"\xaa"), (9, size, b"\xaa" * size)] if size else [(4, 0, b"\xaa")]
            found = [library.copied(call, size + more, kind(number)) for more in (0, 1, -1)[:len(wanted)]]
            if found != wanted:
                yield f"{call} {number}: {found} in place of {wanted}"


def dns_names(read):
    """The dNSNames of a certificate: those of its first subjectAltName."""
    return next((one.names for one in read.extension_list if one.identifier == certificate.ALT_NAME), [])


def pieces_of(cert):
    """The calls that copy out a part of a certificate, with the part, by the reader."""
    read = certificate.read(cert)
    yield "mtc_public_key", (), read.key
    for form in 1, 2:
        leaf = hashlib.sha256(b"\0" + entry.of_certificate(read, form)).digest()
        yield "mtc_entry_hash_in", (ctypes.c_uint32(form),), leaf
        if form == 1:
            yield "mtc_entry_hash", (), leaf
    for number, name in enumerate(dns_names(read)):
        yield "mtc_dns_name", (ctypes.c_uint64(number),), name


def wrong_pieces(library, cert):
    """What is copied out of a certificate otherwise than the reader says."""
    count = 0
    for call, words, part in pieces_of(cert):
        count += call == "mtc_dns_name"
        size = len(part)
        if library.piece(call, cert, size, *words) != (0, size, part + b"\xaa"):
            yield f"{call} {words}: not {part.hex()}"
        if library.piece(call, cert, size + 3, *words) != (0, size, part + b"\xaa" * 4):
            yield f"{call} {words}: not {part.hex()} in a longer buffer"
        if size and library.piece(call, cert, size - 1, *words) != (9, size, b"\xaa" * size):
            yield f"{call} {words}: a short buffer"
    for form in 0, 3:
        if library.piece("mtc_entry_hash_in", cert, 32, ctypes.c_uint32(form)) != (2, 0, b"\xaa" * 33):
            yield f"mtc_entry_hash_in {form}: there is no such form"
    if library.piece("mtc_dns_name", cert, 4, ctypes.c_uint64(count)) != (4, 0, b"\xaa" * 5):
        yield f"mtc_dns_name {count}: there is none"


def counting(cert, known):
    """The cosigners that count for an accepted certificate, as a set of bits; none where the store trusts its interval."""
    read = certificate.read(cert)
    found = proof.read(read.proof)
    if any((start, end) == (found.start, found.end) for start, end, _ in known.subtrees):
        return 0
    leaf = merkle.leaf(entry.of_certificate(read, known.form_at(read.serial)))
    node = merkle.evaluated(leaf, read.serial, found.start, found.end, found.path)
    places = {place for places, _ in known.rules for place in places}
    return sum(1 << place for place in places if judging.has_signed(*known.cosigners[place], known, found, node))


def wanted(row):
    """What is to be said of a row."""
    return TOO_LONG if len(row[0]) > header_number("MTC_MAX_CERTIFICATE") else judgements.wanted(*row)


def wrong_row(library, names, row):
    """How the verdict on a row differs from what the readers say."""
    cert, known, now = row
    asked, verdict = wanted(row), library.judge(*row)
    if verdict.printed(names) != asked:
        yield f"{verdict.printed(names)} in place of {asked}"
    elif verdict.status == 0:
        index, start, end = judging.judge(cert, store.read(known), now)
        if bytes(verdict) != bytes(Verdict(0, 0, 0, index, start, end, counting(cert, store.read(known)))):
            yield f"{bytes(verdict).hex()}: another interval, or other cosigners"
        yield from wrong_pieces(library, cert)
    elif any((verdict.index, verdict.start, verdict.end, verdict.cosigners)):
        yield f"{bytes(verdict).hex()}: something of a certificate that isn't accepted"
    elif 16 <= verdict.refusal < 48 or verdict.status == 9:
        calls = (("mtc_public_key", ()), ("mtc_entry_hash", ()), ("mtc_entry_hash_in", (ctypes.c_uint32(1),)),
                 ("mtc_dns_name", (ctypes.c_uint64(0),)))
        for call, words in calls:
            if library.piece(call, cert, 32, *words) != (2, 0, b"\xaa" * 33):
                yield f"{call}: something of bytes that are no certificate"


def is_newer_toml(library, names, row):
    """Whether Python's reader, which knows TOML 1.0, refuses a store that the library reads, which knows 1.1."""
    not_toml = b"mtc: verify: store: NotToml\n"
    return wanted(row)[0][2] == not_toml != library.judge(*row).printed(names)[0][2]


def rows():
    """The rows of `verify`."""
    return [row for kind, _, _ in judgements.KINDS for row in kind()]


def changed(draws, row):
    """A row with one to three bytes of the certificate or of the store that are others, dropped or doubled."""
    texts = [bytearray(text) for text in row[:2]]
    for _ in range(draws.randint(1, 3)):
        text = draws.choice(texts)
        at = draws.randrange(len(text) + 1)
        others = [b"", draws.randbytes(1), draws.randbytes(2), bytes(text[at:at + 2])]
        text[at:at + draws.randint(0, 2)] = draws.choice(others)
    return bytes(texts[0]), bytes(texts[1]), row[2]


def answer_of(command, row, folder):
    """What a program that calls the library says of a row."""
    paths = [Path(folder, name) for name in ("c", "store")]
    for path, text in zip(paths, row):
        path.write_bytes(text)
    ended = subprocess.run([*command, *paths, str(row[2])], capture_output=True, text=True)
    return ended.returncode, ended.stdout


def line_of(library, verdict):
    """What the example programs print of a verdict."""
    if verdict.status == 0:
        return 0, f"accepted {verdict.index}\n"
    name = library.name("mtc_refusal_name", verdict.refusal)
    beside = library.name("mtc_field_name", verdict.number) if name in ("Missing", "BadValue") else verdict.number
    return verdict.status, f"not accepted: {name} {beside}\n"


def report(what, wrong, note=""):
    """Prints a line, and what is wrong below it; whether anything is."""
    print(f"{'wrong' if wrong else 'ok'}: {what}{note}", *wrong[:5], sep="\n    ")
    return bool(wrong)


def wrong_in_threads(library, ended, lines, table):
    """How verdicts differ that were found in threads of little stack. One of them may have ended the process."""
    alone = [" ".join(str(getattr(verdict, name)) for name, _ in Verdict._fields_) for verdict in (library.judge(*row) for row in table)]
    if (ended, len(lines)) != (0, len(table)):
        yield f"status {ended} after {len(lines)} of {len(table)}"
    yield from (f"{said} in place of {asked}" for said, asked in zip(lines, alone) if said != asked)


def wrong_twice(folder, archive, shared):
    """How the files differ that are made again in another folder."""
    again = folder / "again"
    again.mkdir()
    subprocess.run([ROOT / "tools/c_library.sh", again], check=True, env={**os.environ, "TZ": "Asia/Tokyo"})
    yield from (f"{one.name}: other bytes" for one in (archive, shared) if one.read_bytes() != (again / one.name).read_bytes())


def wrong_release(folder):
    """How what a release says of the library, in its README, does when it is unpacked and that is run."""
    out, line, program = folder / "mtc.tar.gz", "rt: 1 passed, 0 failed", "/bin/true"
    subprocess.run([sys.executable, ROOT / "tools/release.py", out, line, "--program", program, "--library", folder, "--kit", "a kit"],
                   check=True)
    with tarfile.open(out) as tar:
        top = tar.getmembers()[0].name.split("/")[0]
        tar.extractall(folder, filter="data")
    text = (folder / top / "README").read_text()
    steps = re.findall(r"^    ((?:export PKG_CONFIG_PATH=|cc |\./judge ).*)$", text, re.M)
    ended = subprocess.run(["sh", "-euc", "\n".join(steps)], cwd=folder / top, capture_output=True, text=True)
    if (len(steps), ended.returncode, ended.stdout) != (3, 0, "accepted 1\n"):
        yield f"{steps}: {ended}"


def check_calls(library, names, table):
    """The checks that Python makes by calls of the shared object."""
    wrong = [one for row in table for one in wrong_row(library, names, row)]
    status = report("the verdicts on the rows of verify, called from Python", wrong, f": {len(table)}")
    two_names = (ROOT / "examples/mail.cert").read_bytes()
    status |= report("the parts of a certificate of two names", list(wrong_pieces(library, two_names)))
    with ThreadPoolExecutor(THREADS) as threads:
        at_once = list(threads.map(lambda row: bytes(library.judge(*row)).hex(), table * THREADS))
    alone = [bytes(library.judge(*row)).hex() for row in table] * THREADS
    return status | report(f"{THREADS} threads call at once", [f"{a} in place of {b}" for a, b in zip(at_once, alone) if a != b])


def check_programs(library, folder, archive, shared, table):
    """The checks of programs that call the library."""
    status, some = False, table[::EACH]
    for language, command in programs.examples(folder, archive, shared):
        if command is None:
            print(f"left out: c_library: {language}: there is no compiler")
            continue
        wrong = [f"{said} in place of {asked}" for row in some
                 if (said := answer_of(command, row, folder)) != (asked := line_of(library, library.judge(*row)))]
        status |= report(f"a program of {language} judges one row of {EACH} likewise", wrong, f": {len(some)}")
        status |= report(f"a program of {language} refuses bad words", list(programs.wrong_words(command)))
    wrong = list(programs.wrong_libraries(folder, header_number("MTC_ABI")))
    return status | report("another interface, no library and no memory are refused by name", wrong)


@cache
def library_at(path):
    """The library and the names of the header, once a process."""
    return Library(path), header_names()


def wrong_byte(path, row, place):
    """How the verdicts differ where a byte of a certificate is each of all values."""
    cert, *beside = row
    return [f"byte {place}, value {value}: {one}" for value in range(256)
            for one in wrong_row(*library_at(path), (cert[:place] + bytes([value]) + cert[place + 1:], *beside))]


def check_bytes(path):
    """Each byte of certificates is each of all values, by all processors."""
    tasks = [(path, row, place) for row in judgements.samples() for place in range(len(row[0]))]
    with Pool() as pool:
        wrong = [one for found in pool.starmap(wrong_byte, tasks, 8) for one in found]
    return report("certificates of which each byte is each of 256 values", wrong, f": {len(tasks)} bytes")


def check_random(library, names, table, rounds, day):
    """Rows that are changed at random."""
    draws = random.Random(day)
    tried = [changed(draws, draws.choice(table)) for _ in range(rounds)]
    newer = [row for row in tried if is_newer_toml(library, names, row)]
    wrong = [one for row in tried if row not in newer for one in wrong_row(library, names, row)]
    wrong += [f"{len(newer)} stores that the reader can't read"] * (len(newer) > max(1, rounds // 1000))
    return report("rows that are changed at random", wrong, f": {rounds}, without {len(newer)} of TOML 1.1, of day {day}")


def main(words):
    rounds, day = [int(word) for word in words] + [ROUNDS, int(time.time() // 86400)][len(words):]
    with tempfile.TemporaryDirectory() as name:
        folder = Path(name)
        archive, shared = folder / "libmtc.a", folder / "libmtc.so"
        for tool in ("ar", "ld", "objcopy", "objdump", "cc"):
            if not shutil.which(tool):
                print(f"left out: c_library: there is no {tool}")
                return 0
        if subprocess.run([ROOT / "tools/c_library.sh", folder]).returncode:
            return 70
        library, names, table = Library(shared), header_names(), rows()
        status = report("the struct and the functions of mtc.h, by a C compiler", wrong_header())
        status |= report("the number of the interface", list(wrong_interface(library, shared)))
        status |= report("the names of refusals and fields", list(wrong_names(library, names)))
        status |= check_calls(library, names, table)
        long = list(largest.rows(header_number("MTC_MAX_CERTIFICATE")))
        wrong = [one for row in long for one in wrong_row(library, names, row)]
        status |= report("the verdicts on the largest certificates", wrong, f": of {', '.join(str(len(row[0])) for row in long)} bytes")
        ended, lines = programs.in_threads(folder, archive, [*long, *table])
        wrong = list(wrong_in_threads(library, ended, lines[:-1], [*long, *table]))
        status |= report(f"threads of {header_number('MTC_STACK')} bytes of stack judge all rows and these", wrong,
                         f": at most {''.join(lines[-1:])} bytes of it were used")
        status |= report("null pointers", list(programs.wrong_nulls(folder, archive)))
        status |= check_programs(library, folder, archive, shared, table)
        status |= report("the library is made twice, byte for byte", list(wrong_twice(folder, archive, shared)))
        status |= report("whoever unpacks a release builds a caller as its README says", list(wrong_release(folder)))
        status |= check_bytes(shared) | check_random(library, names, table, rounds, day)
    return int(status)


if __name__ == "__main__":
    sys.exit(main(sys.argv[1:]))
