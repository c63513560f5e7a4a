"""What an authority is asked to issue, by docs/FORMATS.md, "Request file", and docs/COMMANDS.md, "issue" and "issue-list"."""

import base64
import binascii
import hashlib
import re
from datetime import UTC, datetime
from typing import NamedTuple

from . import certificate, der, times
from .der import SEQUENCE, SET, UTF8_STRING, Fields, encoded
from .fault import Fault
from .store import checked, field, log_name, parsed

KEYS = ("not_before", "not_after", "dns", "common_name", "key")
MOST_NAMES, MOST_HOST, MOST_COMMON_NAME = 100, 253, 64
LABEL = "[A-Za-z0-9](?:[A-Za-z0-9-]{0,61}[A-Za-z0-9])?"
VERSION, COMMON_NAME = bytes.fromhex("a003020102"), bytes.fromhex("0603550403")


class Request(NamedTuple):
    """The two times, the names, the common name or none, and the public key."""

    unix_times: list
    names: list
    common_name: str
    key: bytes


def unix_time(value):
    """The time of a text; none from another value."""
    form = "([0-9]{4})-([0-9]{2})-([0-9]{2})T([0-9]{2}):([0-9]{2}):([0-9]{2})Z"
    found = isinstance(value, str) and re.fullmatch(form, value)
    if not found or int(found[1]) < 1950:
        return None
    try:
        return int(datetime(*map(int, found.groups()), tzinfo=UTC).timestamp())
    except ValueError:
        return None


def is_host(value):
    """Whether a value is a host name."""
    fits = isinstance(value, str) and re.fullmatch(rf"(?:\*|{LABEL})(?:\.{LABEL})*", value)
    return bool(fits) and len(value) <= MOST_HOST


def hosts(value):
    """The host names of an array; none from another value."""
    fits = isinstance(value, list) and len(value) <= MOST_NAMES and all(map(is_host, value))
    return value if fits else None


def common_name(value):
    """A text that isn't empty or too long; none from another value."""
    return value if isinstance(value, str) and 1 <= len(value.encode()) <= MOST_COMMON_NAME else None


def public_key(value):
    """The one subjectPublicKeyInfo that stands in base64; none from another value."""
    try:
        text = base64.b64decode(value, validate=True)
        fields = Fields(text, 0, len(text))
        certificate.public_key(fields)
        fields.close()
    except (Fault, TypeError, ValueError, binascii.Error):
        return None
    return text if base64.b64encode(text).decode() == value else None


def read(text):
    """The request that these bytes are."""
    return read_table(parsed(text))


def read_table(table):
    """The request that a table is."""
    root = checked(table, *KEYS)
    first, last = field(root, "not_before", "NotBefore", unix_time), field(root, "not_after", "NotAfter", unix_time)
    names = field(root, "dns", "Dns", hosts)
    common = field(root, "common_name", "CommonName", common_name) if "common_name" in root else None
    key = field(root, "key", "PublicKey", public_key)
    if last < first:
        raise Fault("DatesReversed")
    if not names:
        raise Fault("NoNames")
    return Request([first, last], names, common, key)


def tables(value):
    """One table at least; none from another value."""
    fits = isinstance(value, list) and value and all(isinstance(one, dict) for one in value)
    return value if fits else None


def numbered(number, table):
    """The request of the table with this number, which follows a fault."""
    try:
        return read_table(table)
    except Fault as fault:
        raise Fault(str(fault), number) from None


def read_list(text):
    """The requests that these bytes are."""
    root = checked(parsed(text), "request")
    return [numbered(number, table) for number, table in enumerate(field(root, "request", "Requests", tables))]


def time(seconds):
    """The element of a time: a UTCTime up to 2049, and then a GeneralizedTime."""
    date = datetime.fromtimestamp(seconds, UTC)
    text = f"{date.year:04}{date:%m%d%H%M%S}Z".encode()
    return encoded(times.UTC_TIME, text[2:]) if date.year < 2050 else encoded(times.GENERALIZED_TIME, text)


def entry(asked, log, form):
    """The entry of a request in the log with this id."""
    subject = b""
    if asked.common_name is not None:
        named = COMMON_NAME + encoded(UTF8_STRING, asked.common_name.encode())
        subject = encoded(SET, encoded(SEQUENCE, named))
    names = encoded(SEQUENCE, b"".join(encoded(certificate.DNS_NAME, name.encode()) for name in asked.names))
    critical = b"" if subject else encoded(der.BOOLEAN, b"\xFF")
    mark = encoded(der.IDENTIFIER, certificate.ALT_NAME) + critical
    extension = encoded(SEQUENCE, mark + encoded(der.OCTET_STRING, names))
    validity = encoded(SEQUENCE, b"".join(map(time, asked.unix_times)))
    key_hash = encoded(der.OCTET_STRING, hashlib.sha256(asked.key).digest())
    extensions = encoded(certificate.EXTENSIONS, encoded(SEQUENCE, extension))
    algorithm = certificate.key_algorithm(asked.key) if form == 2 else b""
    return b"\0\1" + VERSION + log_name(log) + validity + encoded(SEQUENCE, subject) + algorithm + key_hash + extensions
