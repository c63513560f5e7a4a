"""Files that are cut or longer, and such with other records or items, and what the commands on them have to say."""

from itertools import chain, product

from reference import cosigner, journal, mirror
from reference.cosigner import Sign
from reference.hss import u32
from reference.log import BATCH, batch_body
from reference.proof import vector

from .scenes import FORMLESS, LARGER, LATER, SPAN, advance, advanced, batch_bodies, export, items, log, log_bodies, lower_export
from .scenes import lower_settings, lower_steps, mirror_bodies, steps, used_up
from .single_bytes import answered, found, scenes


def cuts():
    """a file is cut at each length, or longer"""
    for label, (_, files, name, _) in scenes().items():
        whole = files[name]
        yield from ((label, whole[:size]) for size in range(len(whole) + 1))
        yield from ((label, whole + more) for more in (bytes(1), bytes(4), bytes(64), b"\xff", whole))


def lists_of(parts):
    """The list, and lists in which a part of it is missing, doubled or at another place."""
    yield parts
    for at, part in enumerate(parts):
        others = [*parts[:at], *parts[at + 1:]]
        yield from (others, [*parts[:at], part, *parts[at:]])
        yield from ([*others[:to], part, *others[to:]] for to in range(len(parts)) if to != at)


def sign(number, start, end, size):
    """The body of the record of a signature of a subtree, at this size."""
    return cosigner.sign_body(Sign(number, start, end, log().hash(start, end), log().proof(start, end, 0, size)))


def bodies():
    """The records of a longer export."""
    return [*steps(), sign(1, *SPAN, LATER), cosigner.advance_body(advance(LARGER, LATER)), sign(2, 4, 6, LARGER)]


def exported(whole, old, records):
    """An export with these records in place of the old ones."""
    return whole[:-sum(4 + len(body) for body in old)] + b"".join(u32(len(body)) + body for body in records)


def lower_bodies():
    """The records of a longer export of a key of two levels."""
    return [*lower_steps(), sign(1, *SPAN, LATER)]


def batches():
    """Records of the items of the log in place of its first ones: an item is missing, doubled or moved, or another count stands there."""
    whole = batch_body(items()[1:3])
    yield from map(batch_body, lists_of(items()[1:4]))
    yield from (bytes([BATCH]) + count.to_bytes(2, "big") + whole[3:] for count in (0, 1, 3, 256, 512))


def lists():
    """a record of an export or of a journal, an item of an entries file or a part of one, is missing, doubled or moved"""
    first, *_ = journal.bodies(advanced())
    for parts in lists_of(bodies()):
        yield "export", exported(export(), steps(), parts)
    for parts in lists_of(lower_bodies()):
        yield "export-of-two", exported(lower_export(), lower_steps(), parts)
    for parts in lists_of([first, *bodies()[:4]]):
        yield "journal", journal.written(parts)
    for label, parts in product(("journal-of-two", "child"), lists_of([lower_settings(), *lower_bodies()])):
        yield label, journal.written(parts)
    *used, last = used_up()
    for parts in lists_of([*([body] for body in used[:3]), used[3:], [last], [cosigner.child_body(1, 5)]]):
        yield "next-child", journal.written(chain(*parts))
    for label, parts in product(("log", "issue", "cert"), lists_of(log_bodies())):
        yield label, journal.written(parts)
    for label, parts in product(("batches", "certs"), lists_of(batch_bodies())):
        yield label, journal.written(parts)
    settings, _, *later = batch_bodies()
    for label, batch in product(("batches", "certs"), batches()):
        yield label, journal.written([settings, batch])
        yield label, journal.written([settings, batch, *later])
    mirrored = [*mirror_bodies(), mirror.batch_body([FORMLESS]), mirror.tiles_body(256)]
    for label, parts in product(("mirror", "mirror-take", "mirror-advance"), lists_of(mirrored)):
        yield label, journal.written(parts)
    for parts in lists_of([vector(text) + vector(key) for text, key in [*items()[:3], FORMLESS, (bytes(2), b"")]]):
        yield "mirror-list", b"".join(parts)
    for parts in lists_of([vector(text) + vector(key) for text, key in items()[:4]]):
        yield "entries", b"".join(parts)
    for parts in lists_of([vector(text) for item in items()[:3] for text in item]):
        yield "entries", b"".join(parts)


KINDS = [(kind, answered, found) for kind in (cuts, lists)]
