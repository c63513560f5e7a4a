"""Times (RFC 5280, section 4.1.2.5), by docs/FORMATS.md, "Times", as seconds since 1970-01-01T00:00:00Z."""

import re
from datetime import UTC, datetime

UTC_TIME, GENERALIZED_TIME = 0x17, 0x18


def unix_time(tag, contents):
    """The time of a UTCTime or a GeneralizedTime; none where its form isn't kept or there is no such time."""
    digits = 12 if tag == UTC_TIME else 14
    if not re.fullmatch(rb"[0-9]{%d}Z" % digits, contents):
        return None
    year, *others = [int(contents[:-11])] + [int(contents[at:at + 2]) for at in range(digits - 10, digits, 2)]
    if tag == UTC_TIME:
        year += 1900 if year >= 50 else 2000
    elif year < 2050:
        return None
    try:
        return int(datetime(year, *others, tzinfo=UTC).timestamp())
    except ValueError:
        return None
