"""Certificate requests of PKCS#10, sound and hostile ones, for tools/csr_to_request.py."""

import base64
import contextlib
import datetime
import io
import random
import runpy
import time
import tomllib

from .scene import BEGIN, DATES, LOG, TOOLS, differ, lacks, refused

VERSION = bytes.fromhex("020100")
ED25519 = bytes.fromhex("300506032b6570")
REQUEST, MICROSOFTS, PASSWORD = (bytes.fromhex(text) for text in (
    "06092a864886f70d01090e", "060a2b0601040182370201 0e".replace(" ", ""), "06092a864886f70d010907"))
ALT_NAME, USAGE, BASIC, COMMON_NAME, ORGANIZATION = (bytes.fromhex("0603" + text) for text in (
    "551d11", "551d0f", "551d13", "550403", "55040a"))
UTF8, BMP = 0x0C, 0x1E
SIGNS = "abcdefghijklmnopqrstuvwxyzABCXYZ0123456789-"


def der(tag, *parts):
    contents = b"".join(parts)
    size = len(contents)
    length = bytes([size]) if size < 128 else size.to_bytes(-(-size.bit_length() // 8), "big")
    return bytes([tag]) + (length if size < 128 else bytes([128 + len(length)]) + length) + contents


def dns(*names):
    return [der(0x82, name if isinstance(name, bytes) else name.encode()) for name in names]


def alt_name(*names):
    return der(0x30, ALT_NAME, der(0x04, der(0x30, *names)))


def attribute(*extensions, identifier=REQUEST):
    return der(0x30, identifier, der(0x31, der(0x30, *extensions)))


def attribute_of(names):
    return attribute(alt_name(*names))


def subject(*values, identifier=COMMON_NAME, tag=UTF8):
    return [der(0x31, der(0x30, identifier, der(tag, value))) for value in values]


UNSIGNED = bytes(64)


class Requester:
    """Someone with an Ed25519 key, who signs whatever stands in a CSR. What is refused before its signature needs none."""

    def __init__(self, scene, name="requester"):
        self.scene, self.file = scene, f"{name}.key"
        scene.run("openssl", "genpkey", "-algorithm", "ed25519", "-out", self.file)
        self.key = scene.run("openssl", "pkey", "-in", self.file, "-pubout", "-outform", "DER")

    def signature(self, info):
        self.scene.file("info", info)
        return self.scene.run("openssl", "pkeyutl", "-sign", "-rawin", "-inkey", self.file, "-in", "info")

    def csr(self, *attributes, name=(), version=VERSION, more=b"", signature=None):
        """A CSR of these attributes, or, of one dNSName, of the text."""
        if attributes and isinstance(attributes[0], str):
            attributes = [attribute_of(dns(*attributes))]
        info = der(0x30, version, der(0x30, *name), self.key, der(0xA0, *attributes), more)
        return der(0x30, info, ED25519, der(0x03, b"\0", signature or self.signature(info)))


    def unsigned(self, *attributes, **more):
        return self.csr(*attributes, signature=UNSIGNED, **more)


def pem(data, label="CERTIFICATE REQUEST"):
    text = base64.encodebytes(data).decode()
    return f"-----BEGIN {label}-----\n{text}-----END {label}-----\n".encode()


def hostile_names(requester):
    """Names that aren't host names, each alone in a CSR and beside one that is."""
    for what, name in (
            ("a comma, as two names", b"mine.example, DNS:bank.example"), ("a quote", b'a".example'), ("an apostrophe", b"a'.example"),
            ("a newline", b"a.example\nbank.example"), ("a carriage return", b"a.example\r"), ("a zero", b"bank.example\0.a.example"),
            ("a space", b"a b.example"), ("a space before it", b" a.example"), ("UTF-8", "b\u00fccher.example".encode()),
            ("Latin-1", b"b\xfccher.example"), ("a backslash", b"a\\u002e.example"), ("an underscore", b"a_b.example"),
            ("nothing", b""), ("a dot before it", b".a.example"), ("a dot after it", b"a.example."), ("two dots", b"a..example"),
            ("a hyphen before it", b"-a.example"), ("a hyphen after a label", b"a-.example"), ("a label of 64", b"a" * 64 + b".example"),
            ("254 bytes", b"a." * 123 + b"b.exampl"), ("a star within", b"a.*.example"), ("two stars", b"**.a.example"),
            ("a star in a label", b"a*.a.example"), ("an escape", b"a.example\x1b[2J"), ("brackets", b"a.example]"),
            ("a comment", b"a.example#")):
        yield what, requester.csr(attribute_of(dns("a.example", name))), 2, "no host name: "
    for name in ("10.0.0.1", "127.0.0.0x1", "a.0x"):
        yield f"an address, {name}", requester.csr(name), 2, "an IP address"
    yield "a star alone", requester.csr("*"), 2, "no host name"
    yield "a star over a top domain", requester.csr("*.example"), 2, "a wildcard over a whole top domain"
    yield "a name twice", requester.csr("a.example", "b.example", "a.example"), 2, "a name stands twice: a.example"
    yield "a name twice in two cases", requester.csr("a.example", "A.Example"), 2, "a name stands twice: a.example"
    yield "101 names", requester.csr(*(f"n{number}.example" for number in range(101))), 2, "101 names: 100 are the most"


def hostile_parts(requester):
    """What else a CSR may not ask for."""
    names = dns("a.example")
    kinds = {0xA0: "otherName", 0x81: "rfc822Name", 0xA3: "x400Address", 0xA4: "directoryName", 0xA5: "ediPartyName",
             0x86: "uniformResourceIdentifier", 0x87: "iPAddress", 0x88: "registeredID"}
    for tag, kind in kinds.items():
        yield kind, requester.unsigned(attribute_of([*names, der(tag, b"\x7f\0\0\1")])), 2, f"a name is of kind {kind}:"
    yield "an unknown kind", requester.unsigned(attribute_of([der(0x8A, b"a")])), 2, "a name is of kind 8a:"
    for what, identifier, words in (("keyUsage", USAGE, "keyUsage (2.5.29.15)"),
                                    ("basicConstraints", BASIC, "basicConstraints (2.5.29.19)"),
                                    ("another extension", bytes.fromhex("06032a0304"), "1.2.3.4")):
        asked = attribute(alt_name(*names), der(0x30, identifier, der(0x04, b"\x30\0")))
        yield what, requester.unsigned(asked), 2, f"the extension {words} isn't taken"
    for critical, words in ((b"\0", "neither that it is critical"), (b"\1", "neither that it is critical"), (b"", "neither that it")):
        asked = attribute(der(0x30, ALT_NAME, der(1, critical), der(0x04, der(0x30, *names))))
        yield f"critical {critical!r}", requester.unsigned(asked), 2, words
    for arcs in (b"\1" * 60000, b"\x81" * 20000 + b"\1"):
        asked = attribute(der(0x30, der(0x06, b"\x2a" + arcs), der(0x04, b"\x30\0")))
        yield "a long identifier", requester.unsigned(asked), 2, "an object identifier is too long"
    for what, asked in (("no attribute", []), ("an empty subjectAltName", [attribute_of([])]), ("no extension", [attribute()])):
        yield what, requester.unsigned(*asked), 2, "it asks for no dNSName"
    yield "no value", requester.unsigned(der(0x30, REQUEST, der(0x31))), 2, "the request for extensions: element 30 is missing"
    asked = attribute(alt_name(*names), alt_name(*dns("b.example")))
    yield "two subjectAltNames", requester.unsigned(asked), 2, "there are two subjectAltNames"
    two = "there are two requests for extensions"
    yield "two requests", requester.unsigned(attribute_of(names), attribute_of(dns("b.example"))), 2, two
    values = der(0x31, der(0x30, alt_name(*names)), der(0x30, alt_name(*dns("b.example"))))
    yield "two values", requester.unsigned(der(0x30, REQUEST, values)), 2, two
    asked = attribute(alt_name(*dns("b.example")), identifier=MICROSOFTS)
    yield "Microsoft's request", requester.unsigned(attribute_of(names), asked), 2, "Microsoft's request for extensions"
    password = der(0x30, PASSWORD, der(0x31, der(UTF8, b"secret")))
    yield "a password", requester.unsigned(attribute_of(names), password), 2, "the attribute challengePassword"


def hostile_subjects(requester):
    asked = attribute_of(dns("a.example"))
    yield "an organization", requester.unsigned(asked, name=subject(b"Bank", identifier=ORGANIZATION)), 2, "organizationName (2.5.4.10)"
    yield "two common names", requester.unsigned(asked, name=subject(b"a.example", b"a.example")), 2, "the subject has two parts"
    pair = der(0x31, *(der(0x30, COMMON_NAME, der(UTF8, text)) for text in (b"a.example", b"b.example")))
    yield "two in one set", requester.unsigned(asked, name=[pair]), 2, "the subject has two parts"
    yield "another common name", requester.csr(asked, name=subject(b"bank.example")), 2, "the commonName is none of the names"
    sign = "ban\u212a.example".encode()  # whose lower case is bank.example
    yield "one of another sign", requester.csr(attribute_of(dns("bank.example")), name=subject(sign)), 2, "none of the names"
    yield "an empty one", requester.csr(asked, name=subject(b"")), 2, "the commonName isn't a printable text"
    yield "one with a newline", requester.csr(asked, name=subject(b"a.example\n")), 2, "the commonName isn't a printable text"
    yield "one with a zero", requester.csr(asked, name=subject(b"a.example\0")), 2, "the commonName isn't a printable text"
    yield "one in UTF-16", requester.unsigned(asked, name=subject("a".encode("utf-16-be"), tag=BMP)), 2, "the commonName is no UTF8String"
    yield "broken UTF-8", requester.unsigned(asked, name=subject(b"\xff")), 2, "the commonName isn't in its encoding"


def hostile_files(requester, other):
    """Files that are no CSR, and CSRs with a signature of someone else."""
    sound = requester.csr("a.example")
    at = sound.index(b"a.example")
    wrong = "its signature isn't one of its key"
    yield "a changed signature", sound[:-1] + bytes([sound[-1] ^ 1]), 3, wrong
    yield "a changed name", sound[:at] + b"b" + sound[at + 1:], 3, wrong
    yield "a signature of another key", requester.csr("a.example", signature=other.signature(b"x")), 3, wrong
    yield "a signature of zeros", requester.csr("a.example", signature=bytes(64)), 3, wrong
    yield "a byte more", sound + b"\0", 2, "the CSR: something follows it"
    yield "a byte less", sound[:-1], 2, "an element is longer than what holds it"
    yield "bytes in the signed part", requester.unsigned("a.example", more=b"\5\0"), 2, "the signed part: something follows it"
    asked = attribute(der(0x30, ALT_NAME, der(0x04, der(0x30, *dns("a.example")), b"\5\0")))
    yield "bytes after the names", requester.unsigned(asked), 2, "the subjectAltName: something follows it"
    yield "another version", requester.unsigned("a.example", version=b"\2\1\1"), 2, "its version isn't the one of PKCS#10"
    body = sound[2 + (sound[1] & 127):]
    yield "bytes after the signature", der(0x30, body, b"\5\0"), 2, "the CSR: something follows it"
    yield "a long length", b"\x30\x83" + len(body).to_bytes(3, "big") + body, 2, "a length isn't in its shortest form"
    yield "no length", b"\x30\x80" + body + b"\0\0", 2, "a length isn't in its shortest form"
    text = pem(sound)
    no_pem = "neither DER nor one block of PEM alone"
    yield "two blocks", text + text, 2, no_pem
    yield "text after it", text + b"bank.example\n", 2, no_pem
    yield "text before it", b"bank.example\n" + text, 2, no_pem
    yield "another kind of PEM", pem(sound, "CERTIFICATE"), 2, no_pem
    yield "no base64", text.replace(b"\nM", b"\n!"), 2, no_pem
    yield "bytes after the DER in PEM", pem(sound + b"\0"), 2, "the CSR: something follows it"
    yield "an empty file", b"", 2, no_pem
    yield "65,537 bytes", bytes(65537), 2, "it has more than 65536 bytes"


def called(main, *words):
    """What came of a tool that is called here: Python starts once for all rows."""
    out, err = io.StringIO(), io.StringIO()
    with contextlib.redirect_stdout(out), contextlib.redirect_stderr(err):
        status = main([str(word) for word in words])
    return status, out.getvalue().encode(), err.getvalue()


def check_hostile_requests(scene):
    """csr_to_request refuses what is no host name, other kinds of names, other parts, and files that are no CSR, and writes nothing"""
    lacks("openssl")
    requester, other = Requester(scene), Requester(scene, "other")
    csr_to_request = runpy.run_path(str(TOOLS / "csr_to_request.py"))["main"]
    scene.file("old", "old")
    count = 0
    for rows in (hostile_names(requester), hostile_parts(requester), hostile_subjects(requester), hostile_files(requester, other)):
        for what, csr, status, words in rows:
            count += 1
            scene.file("csr", csr)
            ended = called(csr_to_request, scene.path / "csr", "7", "--begin", BEGIN, "--out", scene.path / "old")
            yield from refused(what, ended, status, words)
            yield from differ(f"{what}: its line", (ended[2].count("\n"), ended[2].rstrip("\n").isprintable()), (1, True))
    yield from differ("the old request", (scene.path / "old").read_bytes(), b"old")
    yield from refused("no CSR", scene.tool("csr_to_request.py", "none", "7"), 5, "No such file")
    scene.file("csr", requester.csr("a.example"))
    yield from refused("no openssl", scene.tool("csr_to_request.py", "csr", "7", env={"PATH": "/nowhere"}), 5, "openssl: ")
    for words in (("csr", "0"), ("csr", "07"), ("csr",), ("csr", "7", "--begin", "2026-01-01"), ("csr", "7", "--begin", "2026-1-1T0:0:0Z")):
        yield from differ(f"arguments {words}", scene.tool("csr_to_request.py", *words)[0], 1)
    # What makes the first row dangerous: OpenSSL prints its one name as two.
    csr = requester.csr("mine.example, DNS:bank.example")
    printed = scene.run("openssl", "req", "-inform", "DER", "-noout", "-text", input=csr)
    yield from differ("one name for two", b"DNS:mine.example, DNS:bank.example" in printed, True)
    scene.notes.append(f"{count} requests are refused")


def by_openssl(scene):
    """CSRs as requesters make them: (what, file, names, the key)."""
    kinds = {"ed25519": ["ed25519"], "P-256": ["ec", "-pkeyopt", "ec_paramgen_curve:P-256"], "RSA": ["rsa:2048"]}
    for number, (kind, words) in enumerate(kinds.items()):
        names = [f"n{number}.example", f"*.n{number}.example", f"WWW.N{number}.Example"]
        alt = ",".join(f"DNS:{name}" for name in names)
        name = f"/CN={names[0]}" if number else "/"
        for form in ("PEM", "DER"):
            file = f"{kind}.{form}"
            scene.run("openssl", "req", "-new", "-newkey", *words, "-nodes", "-keyout", f"{kind}.key", "-subj", name,
                      "-outform", form, "-addext", f"subjectAltName={alt}", "-out", file)
            key = scene.run("openssl", "pkey", "-in", f"{kind}.key", "-pubout", "-outform", "DER")
            yield file, file, names, key


def by_hand(scene):
    """CSRs of random names, of the most, and of one with the longest."""
    requester, source = Requester(scene), random.Random(5)
    longest = ".".join(["a" * 63, "b" * 63, "c" * 63, "d" * 53, "example"])
    lists = [[longest], [f"n{number}.example" for number in range(100)], ["xn--bcher-kva.example"], ["localhost"], ["1.a"]]
    for _ in range(8):
        found = {}
        for _ in range(source.randrange(1, 9)):
            labels = ["x" + "".join(source.choices(SIGNS, k=source.randrange(20))) + "y" for _ in range(source.randrange(2, 5))]
            name = ".".join([*["*"] * source.randrange(2), *labels])
            found[name.lower()] = name
        lists.append([*found.values()])
    for number, names in enumerate(lists):
        file = f"by_hand{number}"
        scene.file(file, pem(requester.csr(*names)) if number % 2 else requester.csr(*names))
        yield f"list {number}", file, names, requester.key


def check_requests(scene):
    """what the program reads of a certificate are the names, the key and the dates that csr_to_request took out of the CSR"""
    lacks("openssl")
    scene.mtc("init-log", "j", LOG, 2, 1000)
    rows = [*by_openssl(scene), *by_hand(scene)]
    for what, file, _, _ in rows:
        ended = scene.tool("csr_to_request.py", file, "7", "--begin", BEGIN, "--out", "r", umask=0o022)
        yield from differ(what, (ended, (scene.path / "r").stat().st_mode & 0o777), ((0, b"", ""), 0o644))
        scene.mtc("issue", "j", "r")
        (scene.path / "r").unlink()
    scene.mtc("landmark", "j")
    for index, (what, _, names, key) in enumerate(rows, 1):
        scene.mtc("light-cert", "j", index, into="c")
        lines = scene.mtc("show", "c").decode().split("\n")
        yield from differ(f"{what}: names", [line[5:] for line in lines if line.startswith("name ")], names)
        yield from differ(f"{what}: key", f"key {key.hex()}" in lines, True)
        yield from differ(f"{what}: dates", lines[2:4], ["not_before 2026-01-01T00:00:00Z", "not_after 2026-01-08T00:00:00Z"])
    scene.notes.append(f"{len(rows)} requests are issued")
    yield from wrong_common_names(scene)


def wrong_common_names(scene):
    """The three rules for a common name, and the time that it is."""
    requester, any_name = Requester(scene, "third"), 'B\u00fccher "x"\\'
    scene.file("csr", requester.csr(attribute_of(dns("a.example")), name=subject(any_name.encode())))
    key = base64.b64encode(requester.key).decode()
    rest = f'{DATES}dns = ["a.example"]\nkey = "{key}"\n'
    quoted = any_name.replace("\\", "\\\\").replace('"', '\\"')
    for rule, wanted in (("any", f'{rest}common_name = "{quoted}"\n'), ("drop", rest)):
        ended = scene.tool("csr_to_request.py", "csr", "7", "--begin", BEGIN, "--common-name", rule)
        yield from differ(f"a common name, {rule}", ended, (0, wanted.encode(), ""))
        scene.file("r", ended[1])
        scene.mtc("issue", "j", "r")
    scene.mtc("landmark", "j")
    index = int(scene.mtc("checkpoint", "j").split()[1]) - 2
    scene.mtc("light-cert", "j", index, into="c")
    yield from differ("its subject", any_name.encode().hex() in scene.mtc("show", "c").decode(), True)
    ended = scene.tool("csr_to_request.py", "csr", "1", "--common-name", "drop")
    begin = datetime.datetime.fromisoformat(tomllib.loads(ended[1].decode())["not_before"])
    yield from differ("the time that it is", 0 <= time.time() - begin.timestamp() < 600, True)
