"""Limits on memory and on the size of inputs."""

import functools
import hashlib
import os
import resource
import signal
import subprocess
import sys

from .commands import LOG
from .folder import DATES, KEY, NEW_LOG, ROOT, LeftOut, unlike
from .streams import NOW

# An input file has at most so many bytes (docs/COMMANDS.md, "Status").
MOST = 16_777_216
# So long the reading of the certificate may take that is slowest to read, in seconds of the processor. It took 12 with nothing
# beside it, and 20 beside thirty processes; where each identifier is compared with all others it takes hours.
SLOWEST = 40


def new_log_within(folder, limit):
    """What `init-log` answers with so much memory, and how long its file is, if there is one."""
    (folder.path / "j").unlink(missing_ok=True)
    found = folder.run(NEW_LOG, preexec_fn=lambda: resource.setrlimit(resource.RLIMIT_AS, (limit, limit)))
    file = folder.bytes()
    return *found, None if file is None else len(file)


def least(most, is_enough):
    """The least number up to this one that is enough."""
    few = 0
    while most - few > 1:
        middle = (few + most) // 2
        few, most = (few, middle) if is_enough(middle) else (middle, most)
    return most


def check_memory(folder, _kills):
    """With less and less memory `init-log` makes its log, or answers status 8 and makes no file, or isn't loaded at all"""
    def within(pages):
        return new_log_within(folder, pages * resource.getpagesize())

    enough = least(1 << 16, lambda pages: within(pages)[0] == 0)
    loaded = least(enough, lambda pages: within(pages)[0] in (0, 8))
    # Each limit about those at which the program is loaded, and some below.
    step, margin = 1 + (enough - loaded) // 200, 8
    limits = [*range(enough + margin, loaded - margin, -step), *range(loaded - margin, 0, -(1 + loaded // 50))]
    met = set()
    for pages in limits:
        status, out, err, file = within(pages)
        # A line names the command once the words are read.
        line = err.replace("init-log: ", "")
        endings = {0: ("log 32473.1\n", "", 36), 8: ("", "mtc: Memory\n", None)}
        if status == 127 and err and not err.startswith("mtc: "):
            endings[127] = "", line, None
        elif 127 in met:
            # Where the loader fails with more memory, the system may fail with less before the loader.
            endings.update({-signal.SIGSEGV: ("", "", None), -signal.SIGKILL: ("", "", None)})
        yield from unlike(f"status {status} with {pages} pages", (out, line, file), endings.get(status, "a known ending"))
        met.add(status)
    yield from unlike("statuses 0 and 8 came", {0, 8} <= met, True)
    folder.notes.append(f"{len(limits)} limits, from {enough + margin} pages down; loaded with {loaded}, enough are {enough}")


def padded(text, size):
    """A text of TOML that has so many bytes with a comment after it."""
    return text + b"#" + b"x" * (size - len(text) - 1)


def longest(scene, size):
    """Inputs of so many bytes, and how the commands on them end where that isn't too many."""
    request = f'{DATES}dns = ["a.example"]\nkey = "{KEY}"\n'.encode()
    scene.write("long.store", padded(scene.bytes("trusting"), size))
    scene.write("long.request", padded(request, size))
    # No certificate begins with a byte of 0.
    scene.write("long.cert", bytes(size))
    yield f"verify light long.store {NOW}", "long.store", (0, "accepted 1\n", "")
    yield "issue j long.request", "long.request", (0, "issued 257\n", "")
    yield "show long.cert", "long.cert", (2, "", "mtc: show: long.cert: WrongTag 0\n")
    yield f"verify long.cert trusting {NOW}", "long.cert", (2, "", "mtc: verify: long.cert: WrongTag 0\n")
    yield "keygen 5 4 long.cert", "long.cert", (2, "", "mtc: keygen: long.cert: Trailing\n")


def check_inputs(scene, _kills):
    """An input of 16,777,216 bytes is read, and one of a byte more is too long, as is a device without an end"""
    for size in (MOST, MOST + 1):
        for words, file, wanted in longest(scene, size):
            too_long = 9, "", f"mtc: {words.split()[0]}: {file}: TooLong\n"
            yield from unlike(f"{words} of {size} bytes", scene.run(words), wanted if size == MOST else too_long)
        yield from unlike(f"the log after {size} bytes", scene.size(), 258)
    yield from unlike("a device", scene.run("show /dev/zero"), (9, "", "mtc: show: /dev/zero: TooLong\n"))


def processor_seconds(scene, words):
    """How a command ends, and how long the processor worked on it."""
    before = resource.getrusage(resource.RUSAGE_CHILDREN).ru_utime
    found = scene.run(words)
    return found, resource.getrusage(resource.RUSAGE_CHILDREN).ru_utime - before


def check_extensions(scene, _kills):
    """A certificate of nearly 16,777,216 bytes that are all extensions is read in 40 seconds of the processor"""
    make = ROOT / "bench/extensions/make_certificate.py"
    subprocess.run([sys.executable, make, "16777000", scene.path / "wide"], check=True)
    (status, out, err), spent = processor_seconds(scene, "show wide")
    lines = ["serial 1", "issuer other", "not_before 2026-01-01T00:00:00Z", "not_after 2026-01-08T00:00:00Z", "subject empty"]
    yield from unlike("show", (status, out.split("\n")[:5], out.split("\n")[-2:], err), (0, lines, ["proof none", ""], ""))
    yield from unlike(f"{spent:.1f} seconds are few enough", spent <= SLOWEST, True)
    scene.notes.append(f"{spent:.1f} s of the processor")


def entries_of(text):
    """The entries of a list of items, each before its key."""
    while text:
        size = int.from_bytes(text[:2], "big")
        yield text[2:2 + size]
        text = text[2 + size:]
        text = text[2 + int.from_bytes(text[:2], "big"):]


def leaf(entry):
    return hashlib.sha256(b"\0" + entry).digest()


def tree_of(leaves):
    """The root of so many leaves from one on: these, and from there on always the last of them (RFC 9162, 2.1.1)."""
    last = len(leaves) - 1

    @functools.cache
    def root_from(start, size):
        if size == 1:
            return leaves[start]
        left = 1 << (size - 1).bit_length() - 1
        return hashlib.sha256(b"\1" + root_of(start, left) + root_of(start + left, size - left)).digest()

    def root_of(start, size):
        return root_from(min(start, last), size)

    return root_of


def root_lines(text, entry, count):
    """What `root` prints of a list of this text and of so many items more with one entry."""
    leaves = [leaf(it) for it in [*entries_of(text), entry]]
    size = len(leaves) - 1 + count
    return f"size {size}\nroot {tree_of(leaves)(0, size).hex()}\n"


def held(entry, count):
    """The root of so many equal entries, and the line of a monitor's state that has seen them: their number and peaks."""
    root_of = tree_of([leaf(entry)])
    peaks = [root_of(0, 1 << bit).hex() for bit in reversed(range(count.bit_length())) if count >> bit & 1]
    return root_of(0, count), " ".join(["state", LOG, str(count), *peaks]) + "\n"


def check_long_entries(scene, _kills):
    """The entries of `audit`, `trust-landmarks` and `root` may have more than 16,777,216 bytes, and those of another input may not"""
    # An entry that isn't in its form is taken as it is, without a key.
    entry = b"\xff" * 0xFFFF
    more = b"\xff\xff" + entry + b"\0\0"
    count = MOST // len(more) + 1
    scene.write("long", scene.bytes("entries") + more * count)
    yield from unlike("they are longer", len(scene.bytes("long")) > MOST, True)
    yield from unlike("root", scene.run("root long"), (0, root_lines(scene.bytes("entries"), entry, count), ""))
    yield from unlike("audit", scene.run(f"audit light trusting {NOW} long none"), (0, "stands 1\n", ""))
    # The store of the scene has the tables of the same log's first entries.
    head, tables = f'[log]\nid = "{LOG}"\n', scene.bytes("trusting").decode()
    yield from unlike("trust-landmarks", scene.run("trust-landmarks marks 2 long"), (0, tables.removeprefix(head), ""))
    yield from unlike("cert", scene.run("cert j 1 0 4 long"), (9, "", "mtc: cert: long: TooLong\n"))
    yield from unlike("a certificate", scene.run(f"audit long trusting {NOW} entries none"),
                      (9, "", "mtc: audit: long: TooLong\n"))


def check_many_items(scene, _kills):
    """Entries of 32 MiB whose items have four or six bytes each are read within 16 MiB of memory"""
    # Items without an entry and a key, of which each is as small as an item can be; and null entries, of which a monitor prints nothing.
    scene.write("many", scene.bytes("entries") + bytes(2 * MOST))
    null, count = bytes(2), 2 * MOST // 6
    scene.write("nulls", (b"\0\2" + null + bytes(2)) * count)
    root, state = held(null, count)
    advance = scene.bytes("all")
    scene.write("next", advance[:1 + advance[0]] + count.to_bytes(8, "big") + root + bytes(2))
    wanted = {
        f"audit light trusting {NOW} many none": "stands 1\n",
        "trust-landmarks marks 2 many": scene.said("trust-landmarks marks 2 entries").decode(),
        "root many": root_lines(scene.bytes("entries"), b"", 2 * MOST // 4),
        "monitor state watch next nulls": state,
    }
    limit = 1 << 24
    for words, text in wanted.items():
        found = scene.run(words, preexec_fn=lambda: resource.setrlimit(resource.RLIMIT_AS, (limit, limit)))
        yield from unlike(words.split()[0], found, (0, text, ""))


# A program that writes a list of this many bytes at least: the null entry, and then items of the most bytes. An entry of an unknown
# type stands beside no key.
FAR = (1 << 32) + (1 << 20)
LIST = """import sys
item = (65535).to_bytes(2, "big") + bytes([7]) * 65535 + bytes(2)
sys.stdout.buffer.write(bytes.fromhex("000200000000"))
for _ in range(-(-int(sys.argv[1]) // len(item))):
    sys.stdout.buffer.write(item)
"""


def check_far_items(folder, _kills):
    """A mirror takes what it has room for of a list with an item after 2^32 bytes, and memory is no reason to refuse that"""
    if os.environ.get("MTC_ALL") != "1":
        raise LeftOut("its list takes 4 GiB of memory")
    folder.said(f"mirror-init m {LOG}")
    folder.write("list", LIST.encode())
    found = folder.run("mirror-take m /dev/stdin", before=["sh", "-c", f'python3 list {FAR} | "$0" "$@"'])
    yield from unlike("mirror-take", found, (0, "mirrored 2\n", ""))
