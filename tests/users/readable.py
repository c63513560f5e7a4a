"""The certificates that tools/entries_to_certs.py prints of a log's entries."""

import re
import ssl

from .scene import DATES, KEY, LOG, differ, lacks, refused

BLOCK = re.compile(r"entry (\d+), unsigned\n(-----BEGIN CERTIFICATE-----\n[A-Za-z0-9+/=\n]+-----END CERTIFICATE-----\n)")
NAMED = bytes.fromhex("300506032b65700420")  # the algorithm of the keys, before the hash of one
NAMES = [["a.example"], ["b.example", "*.b.example"], [f"n{number}.example" for number in range(100)]]


def signed_part(cert):
    """The element after the certificate's own tag and length: what a certificate's signature is over."""
    def after_length(at):
        return at + 2 + (cert[at + 1] - 128 if cert[at + 1] > 128 else 0)

    begin = after_length(0)
    at = after_length(begin)
    length = int.from_bytes(cert[begin + 2:at], "big") if cert[begin + 1] > 128 else cert[begin + 1]
    return cert[begin:at + length]


def blocks_of(printed):
    """The certificates that were printed, by their index; there may be nothing else."""
    text = printed.decode()
    found = {int(match[1]): ssl.PEM_cert_to_DER_cert(match[2]) for match in BLOCK.finditer(text)}
    return found, BLOCK.sub("", text)


def make_log(scene):
    """A log of three entries, of which the last names the algorithm of its key."""
    scene.mtc("init-log", "j", LOG, 2, 64)
    for number, names in enumerate(NAMES):
        listed = ", ".join(f'"{name}"' for name in names)
        common = f'common_name = "{names[0]}"\n' if number else ""
        scene.file("r", f'{DATES}dns = [{listed}]\n{common}key = "{KEY}"\n')
        scene.mtc("issue", "j", "r")
        if number == 1:
            scene.mtc("switch", "j")
    scene.mtc("landmark", "j")
    scene.mtc("entries", "j", 4, into="entries")
    scene.mtc("entries-from", "j", 2, 4, into="later")


def check_entries_to_certs(scene):
    """entries_to_certs prints the signed part of each certificate of a log without a signature, and OpenSSL and `show` read it"""
    lacks("openssl")
    make_log(scene)
    status, printed, err = scene.tool("entries_to_certs.py", "entries")
    found, rest = blocks_of(printed)
    yield from differ("all", (status, err, sorted(found), rest), (0, "", [1, 2, 3], ""))
    for index, cert in found.items():
        scene.file("c", cert)
        real = scene.mtc("light-cert", "j", index)
        yield from differ(f"{index}: its signed part", signed_part(cert), signed_part(real))
        yield from differ(f"{index}: its end", cert[-3:].hex(), "030100")
        shown, shown_of_real = (scene.mtc("show", scene.file("c", one)).decode().split("\n") for one in (cert, real))
        fields = shown_of_real[:next(at for at, line in enumerate(shown_of_real) if line.startswith("interval "))]
        yield from differ(f"{index}: show", shown, [*fields, "proof none", ""])
        text = scene.run("openssl", "x509", "-noout", "-text", input=printed[printed.index(b"entry %d," % index):]).decode()
        hosts = ", ".join(f"DNS:{name}" for name in NAMES[index - 1])
        yield from differ(f"{index}: openssl", (f"Serial Number: {index} (" in text, hosts in text), (True, True))
        scene.file("c", cert)
        scene.file("store", f'[log]\nid = "{LOG}"\n')
        yield from differ(f"{index}: verify", scene.ended(scene.program, "verify", "c", "store", "1767571200"),
                          (2, b"", "mtc: verify: c: Short 0\n"))
    later = scene.tool("entries_to_certs.py", "--first", "2", "later")
    yield from differ("later ones", (later[0], blocks_of(later[1])), (0, ({2: found[2], 3: found[3]}, "")))
    some = scene.tool("entries_to_certs.py", "entries", "3", "1")
    yield from differ("chosen ones", (some[0], blocks_of(some[1])), (0, ({1: found[1], 3: found[3]}, "")))
    yield from wrong_entries(scene, (scene.path / "entries").read_bytes(), printed)


def wrong_entries(scene, text, all_printed):
    """Files that aren't whole, keys of other entries, and entries of other forms."""
    null = len(b"\0\2\0\0" + b"\0\0")
    cut = null + 2 + int.from_bytes(text[null:null + 2], "big")  # after entry 1, before its key
    unread = b"\0\3\0\2x\0\0"
    for what, entries, words, status, line in (
            ("a cut key", text[:cut + 10], (), 2, "it is cut"), ("no key", text[:cut], (), 2, "it is cut"),
            ("a cut length", text + b"\0", (), 2, "it is cut"),
            ("another key", text[:cut + 2] + b"\x31" + text[cut + 3:], (), 2, "entry 1: the key"),
            ("another algorithm", text.replace(NAMED, NAMED[:6] + b"\x71" + NAMED[7:]), ("3",), 2, "entry 3: the key"),
            ("the null entry", text, ("0",), 4, "entry 0 is the null entry"), ("none", text, ("4",), 4, "there is no entry 4"),
            ("another type", text[:null] + unread, (), 3, "entry 1 isn't in the form of one"),
            ("a cut entry", text[:null] + b"\0\4\0\1\xa0\3\0\0", (), 3, "entry 1 isn't in the form of one"),
            ("a word", text, ("x",), 1, "x")):
        scene.file("bad", entries)
        ended = scene.tool("entries_to_certs.py", "bad", *words)
        yield from refused(what, ended, status, line, all_printed if what == "a cut length" else b"")
    yield from refused("no file", scene.tool("entries_to_certs.py", "none"), 5, "none")
