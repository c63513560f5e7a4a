#!/usr/bin/env python3
"""Makes the request file that `mtc issue` takes from a certificate request of PKCS#10 (RFC 2986), in PEM or DER.

The requester's signature is verified by the program `openssl`, version 3. Each dNSName is taken whole, out of the structure, and
compared with the grammar of a request file: so one name with a comma in it can't pass as two. The key is taken byte for byte.
What the certificate would not have is refused by its name: another kind of name, an extension beside subjectAltName, an attribute,
a part of the subject beside one common name. So are a name that stands twice, two requests for extensions, bytes left over, a number
in the place of a top domain (an IP address), and `*` over a whole top domain.

The common name has to be one of the names, since whoever tests the names tests no other text. With `--common-name any` it is taken
as it is, with `--common-name drop` it is left out.

It is tested, and not proved. It does not ask whether the requester owns the names: that is the authority's work, before it issues.

Usage: tools/csr_to_request.py CSR DAYS [--begin TIME] [--common-name same|any|drop] [--out FILE]
       TIME is as 2026-01-01T00:00:00Z, and else it is now. Without FILE the request is printed; FILE appears whole or not at all.
Status: 0 done, 1 arguments, 2 the CSR is refused, 3 its signature is wrong, 5 the system failed, or `openssl` isn't there.
Example: tools/csr_to_request.py www.csr 7 --out www.request && mtc issue log www.request
"""

import argparse
import base64
import datetime
import json
import os
import re
import subprocess
import sys
import tempfile
import tomllib

MOST_BYTES = 65536
MOST_NAMES, MOST_NAME, MOST_OID, MOST_DAYS = 100, 253, 64, 36500
BOOLEAN, INTEGER, BITS, OCTETS, OID, SEQUENCE, SET, ATTRIBUTES, DNS = 0x01, 0x02, 0x03, 0x04, 0x06, 0x30, 0x31, 0xA0, 0x82
TEXTS = {0x0C: "utf-8", 0x13: "ascii", 0x16: "ascii"}  # UTF8String, PrintableString, IA5String
EXTENSION_REQUEST, ALT_NAME, COMMON_NAME = "1.2.840.113549.1.9.14", "2.5.29.17", "2.5.4.3"
OTHER_NAMES = {0xA0: "otherName", 0x81: "rfc822Name", 0xA3: "x400Address", 0xA4: "directoryName", 0xA5: "ediPartyName",
               0x86: "uniformResourceIdentifier", 0x87: "iPAddress", 0x88: "registeredID"}
KNOWN = {"2.5.4.6": "countryName", "2.5.4.7": "localityName", "2.5.4.8": "stateOrProvinceName", "2.5.4.10": "organizationName",
         "2.5.4.11": "organizationalUnitName", "1.2.840.113549.1.9.1": "emailAddress", "1.2.840.113549.1.9.7": "challengePassword",
         "1.2.840.113549.1.9.2": "unstructuredName", "2.5.29.14": "subjectKeyIdentifier", "2.5.29.15": "keyUsage",
         "2.5.29.19": "basicConstraints", "2.5.29.37": "extKeyUsage", "1.3.6.1.5.5.7.1.24": "tlsfeature",
         "1.3.6.1.4.1.311.2.1.14": "Microsoft's request for extensions"}
VERIFIED = ("verify OK", "Certificate request self-signature verify OK")
PEM = re.compile(r"\s*-----BEGIN ((?:NEW )?CERTIFICATE REQUEST)-----\r?\n([A-Za-z0-9+/=\r\n]*)-----END \1-----\s*")
NUMBER = re.compile(r"\d+|0[xX][0-9A-Fa-f]*")  # a name that ends so is an IPv4 address to browsers
TIME = re.compile(r"\d{4}-\d\d-\d\dT\d\d:\d\d:\d\dZ")
LABEL = re.compile(r"[A-Za-z0-9](?:[A-Za-z0-9-]{0,61}[A-Za-z0-9])?")


class Refused(Exception):
    """Why a CSR is refused."""
    status = 2


class BadSignature(Refused):
    status = 3


class SystemFailed(Refused):
    status = 5


class Reader:
    """Reads elements of DER one after the other, each in its shortest form and no longer than what holds it."""

    def __init__(self, data, what):
        self.data, self.at, self.what = data, 0, what

    def tag(self):
        return self.data[self.at] if self.at < len(self.data) else None

    def bounds(self):
        """Where the contents of the next element begin and end."""
        at = self.at + 2
        if at > len(self.data) or self.tag() & 31 == 31:
            raise Refused(f"{self.what}: an element is cut, or has a long tag")
        length = self.data[at - 1]
        if length >= 128:
            count = length - 128
            coded = self.data[at:at + count]
            length, at = int.from_bytes(coded, "big"), at + count
            if not 1 <= count <= 3 or len(coded) < count or coded[0] == 0 or length < 128:
                raise Refused(f"{self.what}: a length isn't in its shortest form")
        if at + length > len(self.data):
            raise Refused(f"{self.what}: an element is longer than what holds it")
        return at, at + length

    def whole(self, tag):
        """The next element, which has to have this tag, with tag and length."""
        if self.tag() != tag:
            raise Refused(f"{self.what}: element {tag:02x} is missing")
        begin, (_, end) = self.at, self.bounds()
        self.at = end
        return self.data[begin:end]

    def contents(self, tag):
        start = self.bounds()[0] - self.at if self.tag() == tag else 0
        return self.whole(tag)[start:]

    def inner(self, tag, what):
        return Reader(self.contents(tag), what)

    def end(self):
        if self.at != len(self.data):
            raise Refused(f"{self.what}: something follows it")


def dotted(octets):
    """An object identifier as text."""
    arcs, value = [], 0
    if len(octets) > MOST_OID:
        raise Refused("an object identifier is too long")
    for octet in octets:
        value = value << 7 | octet & 127
        if octet < 128:
            arcs.append(value)
            value = 0
    if not arcs or octets[-1] >= 128:
        raise Refused("an object identifier is cut")
    first = min(arcs[0] // 40, 2)
    return ".".join(map(str, [first, arcs[0] - 40 * first, *arcs[1:]]))


def called(identifier):
    return f"{KNOWN[identifier]} ({identifier})" if identifier in KNOWN else identifier


def der_of(data):
    """The DER of a file in PEM or DER."""
    if data[:1] == b"\x30":
        return data
    try:
        match = PEM.fullmatch(data.decode("ascii"))
        return base64.b64decode(re.sub(r"[\r\n]", "", match[2]), validate=True)
    except (TypeError, ValueError):
        raise Refused("it is neither DER nor one block of PEM alone") from None


def common_name_of(subject):
    """The common name of a subject, or nothing where the subject is empty."""
    found = None
    while subject.tag() is not None:
        parts = subject.inner(SET, "the subject")
        one = parts.inner(SEQUENCE, "the subject")
        identifier = dotted(one.contents(OID))
        if identifier != COMMON_NAME:
            raise Refused(f"the subject has {called(identifier)}: ask with one commonName, or without a subject")
        if found is not None or parts.tag() is not None:
            raise Refused("the subject has two parts: ask with one commonName, or without a subject")
        if (kind := one.tag()) not in TEXTS:
            raise Refused("the commonName is no UTF8String, PrintableString or IA5String")
        try:
            found = one.contents(kind).decode(TEXTS[kind])
        except UnicodeDecodeError:
            raise Refused("the commonName isn't in its encoding") from None
        one.end()
    return found


def names_in(octets):
    """The names of a subjectAltName, each whole."""
    outer = Reader(octets, "the subjectAltName")
    names, found = outer.inner(SEQUENCE, "the subjectAltName"), []
    outer.end()
    while names.tag() is not None:
        if names.tag() != DNS:
            raise Refused(f"a name is of kind {OTHER_NAMES.get(names.tag(), f'{names.tag():02x}')}: only dNSName is taken")
        found.append(names.contents(DNS))
    return found


def names_of(extensions):
    """The names that a request for extensions asks for."""
    found = None
    while extensions.tag() is not None:
        one = extensions.inner(SEQUENCE, "an extension")
        identifier = dotted(one.contents(OID))
        if identifier != ALT_NAME:
            raise Refused(f"the extension {called(identifier)} isn't taken: the certificate would not have it")
        if found is not None:
            raise Refused("there are two subjectAltNames")
        if one.tag() == BOOLEAN and one.contents(BOOLEAN) != b"\xff":
            raise Refused("an extension says neither that it is critical nor nothing")
        found = names_in(one.contents(OCTETS))
        one.end()
    return found


def asked_names(attributes):
    """The names of the one attribute that a CSR may have, its request for extensions."""
    found = None
    while attributes.tag() is not None:
        one = attributes.inner(SEQUENCE, "an attribute")
        identifier = dotted(one.contents(OID))
        if identifier != EXTENSION_REQUEST:
            raise Refused(f"the attribute {called(identifier)} isn't taken")
        values = one.inner(SET, "the request for extensions")
        one.end()
        extensions = values.inner(SEQUENCE, "the request for extensions")
        if found is not None or values.tag() is not None:
            raise Refused("there are two requests for extensions")
        found = names_of(extensions) or []
    if not found:
        raise Refused("it asks for no dNSName: put the names into a subjectAltName")
    return found


def parts_of(der):
    """The names, the common name and the key of a CSR, by its structure alone."""
    outer = Reader(der, "the CSR")
    request = outer.inner(SEQUENCE, "the CSR")
    outer.end()
    info = request.inner(SEQUENCE, "the signed part")
    if info.contents(INTEGER) != b"\0":
        raise Refused("its version isn't the one of PKCS#10")
    common_name = common_name_of(info.inner(SEQUENCE, "the subject"))
    key = info.whole(SEQUENCE)
    names = asked_names(info.inner(ATTRIBUTES, "the attributes"))
    info.end()
    request.whole(SEQUENCE)
    request.whole(BITS)
    request.end()
    return names, common_name, key


def host_name(octets):
    """A dNSName as a host name by the grammar of a request file."""
    shown = ascii(octets.decode("latin-1"))
    name = octets.decode("ascii", "replace")
    labels = name.split(".")
    wild = labels[0] == "*" and len(labels) > 1
    if len(octets) > MOST_NAME or not all(map(LABEL.fullmatch, labels[wild:])):
        raise Refused(f"no host name: {shown}")
    if NUMBER.fullmatch(labels[-1]):
        raise Refused(f"an IP address, or no top domain: {shown}")
    if wild and len(labels) < 3:
        raise Refused(f"a wildcard over a whole top domain: {shown}")
    return name


def host_names(found):
    names = [host_name(octets) for octets in found]
    if len(names) > MOST_NAMES:
        raise Refused(f"{len(names)} names: {MOST_NAMES} are the most")
    lower = [name.lower() for name in names]
    if twice := [name for name in lower if lower.count(name) > 1]:
        raise Refused(f"a name stands twice: {twice[0]}")
    return names


def taken_common_name(common_name, names, rule):
    """The common name for the request, or nothing."""
    if common_name is None or rule == "drop":
        return None
    if not 1 <= len(common_name.encode()) <= 64 or not common_name.isprintable():
        raise Refused(f"the commonName isn't a printable text of 1 to 64 bytes: {ascii(common_name)}")
    # Beyond ASCII another sign may have the lower case of one in a name.
    if rule == "same" and not (common_name.isascii() and common_name.lower() in [name.lower() for name in names]):
        raise Refused(f"the commonName is none of the names: {ascii(common_name)}")
    return common_name


def verify(der):
    """Refuses a CSR whose signature isn't the one of its own key. Only these words of `openssl` count, alone and with status 0."""
    words = ["openssl", "req", "-config", os.devnull, "-verify", "-noout", "-inform", "DER"]
    try:
        ended = subprocess.run(words, input=der, capture_output=True, timeout=60)
    except (OSError, subprocess.TimeoutExpired) as why:
        raise SystemFailed(f"openssl: {why}") from None
    if ended.returncode or ended.stdout or ended.stderr.decode("ascii", "replace").strip() not in VERIFIED:
        raise BadSignature("its signature isn't one of its key, or OpenSSL can't verify it")


def request_of(der, days, begin, rule):
    """The text of the request file."""
    found, common_name, key = parts_of(der)
    verify(der)
    names = host_names(found)
    common_name = taken_common_name(common_name, names, rule)
    times = [f"{time:%Y-%m-%dT%H:%M:%SZ}" for time in (begin, begin + datetime.timedelta(days=days))]
    values = {"not_before": times[0], "not_after": times[1], "dns": names, "key": base64.b64encode(key).decode()}
    if common_name is not None:
        values["common_name"] = common_name
    # A text of JSON is one of TOML where it has no control character.
    text = "".join(f"{name} = {json.dumps(value, ensure_ascii=False)}\n" for name, value in values.items())
    if tomllib.loads(text) != values:
        raise Refused("it can't be written as TOML")
    return text


def write(path, text):
    """Puts a text into a file, which appears whole or not at all."""
    folder = os.path.dirname(path) or "."
    number, new = tempfile.mkstemp(prefix=".request-", dir=folder)
    try:
        with os.fdopen(number, "w", encoding="utf-8") as file:
            file.write(text)
            file.flush()
            os.fsync(file.fileno())
        mask = os.umask(0)
        os.umask(mask)
        os.chmod(new, 0o666 & ~mask)  # the authority may be another user
        os.replace(new, path)
    except OSError:
        os.unlink(new)
        raise


def read(path):
    with open(path, "rb") as file:
        data = file.read(MOST_BYTES + 1)
    if len(data) > MOST_BYTES:
        raise Refused(f"it has more than {MOST_BYTES} bytes")
    return data


def time_of(text):
    time = datetime.datetime.strptime(text, "%Y-%m-%dT%H:%M:%SZ")
    if not TIME.fullmatch(text) or not 1950 <= time.year < 9900:
        raise ValueError("the year is too low or too high")
    return time


def days_of(text):
    if not re.fullmatch(r"[1-9]\d{0,4}", text) or int(text) > MOST_DAYS:
        raise ValueError("a number of days is wanted")
    return int(text)


class Arguments(argparse.ArgumentParser):
    def error(self, message):
        self.exit(1, f"{self.prog}: {message}\n")


def arguments(words):
    parser = Arguments(prog="csr_to_request", description=__doc__, formatter_class=argparse.RawDescriptionHelpFormatter)
    parser.add_argument("csr")
    parser.add_argument("days", type=days_of)
    parser.add_argument("--begin", type=time_of)
    parser.add_argument("--common-name", choices=("same", "any", "drop"), default="same")
    parser.add_argument("--out")
    return parser.parse_args(words)


def main(words):
    given = arguments(words)
    begin = given.begin or datetime.datetime.now(datetime.timezone.utc)
    try:
        text = request_of(der_of(read(given.csr)), given.days, begin, given.common_name)
        if given.out:
            write(given.out, text)
        else:
            sys.stdout.write(text)
            sys.stdout.flush()
    except Refused as why:
        print(f"csr_to_request: {ascii(given.csr)[1:-1]}: {why}", file=sys.stderr)
        return why.status
    except OSError as why:
        print(f"csr_to_request: {ascii(str(why))[1:-1]}", file=sys.stderr)
        return 5
    return 0


if __name__ == "__main__":
    sys.exit(main(sys.argv[1:]))
