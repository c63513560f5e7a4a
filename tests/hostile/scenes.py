"""Files that belong together: a log of a few entries, a certificate of it, stores, an export, and a cosigner's journal."""

import base64
from functools import cache
from hashlib import sha256, sha384

from reference import certificate, cosigner, entry, journal, log as log_records, merkle, mirror, proof, request, store
from reference.cosigner import Advance, Sign
from reference.der import BIT_STRING, SEQUENCE, encoded
from reference.hss import u32
from reference.keys import Key
from reference.log import short
from reference.proof import vector

from .files import COSIGNERS, FIRST, LAST, LOG, asked, root_of, signed, signers, text_of, trusted

NOW = FIRST
KEY_HEAD = bytes.fromhex("302a300506032b6570032100")
# The algorithms of keys.
ED25519, P256 = bytes.fromhex("300506032b6570"), bytes.fromhex("301306072a8648ce3d020106082a8648ce3d030107")
HEIGHT_5, WIDTH_1 = 5, 1
# The sizes at which the cosigner has advanced, and the subtree that it has signed.
HELD, LATER, SPAN = 3, 5, (0, 2)
# A log that the cosigner of the journal is asked to hold.
LARGER = 7


@cache
def items():
    """The first entries of the log, each with its key; that of the certificate `small` is the second."""
    read = certificate.read(asked()["small"])
    found = [(bytes(2), b""), (entry.of_certificate(read, 1), read.key)]
    for number in range(2, LARGER):
        key = KEY_HEAD + number.to_bytes(32, "big")
        asked_for = request.Request([FIRST, LAST], [f"n{number}.example"], None, key)
        found.append((request.entry(asked_for, LOG, 1), key))
    return found


@cache
def log():
    return merkle.List([text for text, _ in items()])


def root(size):
    return log().hash(0, size)


def entries(count):
    """The entries file of the first entries."""
    return b"".join(vector(text) + vector(key) for text, key in items()[:count])


def advance(size, held):
    """A step to a size, with its proof from what is held."""
    return Advance(size, root(size), log().proof(0, held, 0, size) if held else [])


@cache
def steps():
    """The records of the cosigner: it advances, signs the subtree, and advances again."""
    signed_step = Sign(0, *SPAN, log().hash(*SPAN), log().proof(*SPAN, 0, HELD))
    return [cosigner.advance_body(advance(HELD, 0)), cosigner.sign_body(signed_step),
            cosigner.advance_body(advance(LATER, HELD))]


def export():
    """What the cosigner exports that has signed the certificate."""
    id, key, _ = signers()[0]
    prefix = short(id) + short(store.anchor_id(LOG)) + vector(key)
    return prefix + b"".join(u32(len(body)) + body for body in steps())


def cosigned():
    """The certificate with the signature of the cosigner."""
    id, _, text = signers()[0]
    return signed([(id, text)])


def ruled():
    """A store with a table of each kind, by whose rule the cosigned certificate is accepted."""
    subtree = {"start": 0, "end": 4, "hash": root(4).hex()}
    found = root_of(rule=[{"cosigners": COSIGNERS[:1], "count": 1}], subtree=[subtree], revoked=[{"start": 2, "end": 3}])
    found["cosigner"] = found["cosigner"][:1]
    return headed(found)


def trusting():
    """A store that trusts the subtree of the certificate."""
    return headed({"log": {"id": LOG}, "subtree": [trusted()["small"]]})


def headed(root):
    """A store as text, with a header for each table."""
    lines = []
    for name, tables in root.items():
        for table in tables if isinstance(tables, list) else [tables]:
            lines.append(f"[[{name}]]" if isinstance(tables, list) else f"[{name}]")
            lines += text_of(table).decode().splitlines()
    return "\n".join([*lines, ""]).encode()


@cache
def secret():
    return sha384(COSIGNERS[0].encode()).digest()


@cache
def lower_signer():
    """The public key of two levels of a cosigner with this secret, and its signature of the certificate's subtree."""
    key = Key(secret(), [HEIGHT_5, HEIGHT_5], WIDTH_1)
    message = proof.signed_bytes(store.anchor_id(COSIGNERS[0]), store.anchor_id(LOG), *SPAN, log().hash(*SPAN))
    return key.public, key.signature(0, message)


@cache
def lower_steps():
    """The records of that cosigner: it advances, makes a lower tree, signs the subtree, and advances again."""
    first, *later = steps()
    return [first, cosigner.child_body(0, 5), *later]


def lower_export():
    """What it exports."""
    prefix = short(store.anchor_id(COSIGNERS[0])) + short(store.anchor_id(LOG)) + vector(lower_signer()[0])
    return prefix + b"".join(u32(len(body)) + body for body in lower_steps())


def lower_cosigned():
    """The certificate with its signature."""
    return signed([(store.anchor_id(COSIGNERS[0]), lower_signer()[1])])


def lower_ruled():
    """A store by whose rule this certificate is accepted."""
    known = {"id": COSIGNERS[0], "key": base64.b64encode(lower_signer()[0]).decode()}
    return headed({"log": {"id": LOG}, "cosigner": [known], "rule": [{"cosigners": COSIGNERS[:1], "count": 1}]})


def lower_settings():
    """The body of the first record of its journal."""
    ids = short(store.anchor_id(COSIGNERS[0])) + short(store.anchor_id(LOG))
    return bytes([cosigner.COSIGNER_2]) + ids + u32(HEIGHT_5) + u32(HEIGHT_5) + u32(WIDTH_1) + secret()


def childless():
    """Its journal when it has no lower tree yet."""
    return journal.written([lower_settings(), *lower_steps()[:1]])


def with_child():
    """Its journal when it has signed the subtree, and holds no more of the log yet."""
    return journal.written([lower_settings(), *lower_steps()[:-1]])


@cache
def used_up():
    """Its records when each key of the lower tree has signed the subtree."""
    path = log().proof(*SPAN, 0, HELD)
    signs = [cosigner.sign_body(Sign(number, *SPAN, log().hash(*SPAN), path)) for number in range(1 << HEIGHT_5)]
    return [lower_settings(), *lower_steps()[:2], *signs]


def settings():
    """The body of the first record of a cosigner's journal."""
    ids = short(store.anchor_id(COSIGNERS[0])) + short(store.anchor_id(LOG))
    return bytes([cosigner.COSIGNER]) + ids + u32(HEIGHT_5) + u32(WIDTH_1) + secret()


@cache
def advanced(size=HELD):
    """The journal of a cosigner that holds a part of the log."""
    return journal.written([settings(), cosigner.advance_body(advance(size, 0))])


# An entry that isn't in its form, which has no key.
FORMLESS = (b"\0\1\x20", b"")


def mirror_bodies():
    """The records of a mirror: two entries of the log, and then one and another that isn't in its form."""
    return [mirror.mirror_body(store.anchor_id(LOG)), mirror.batch_body(items()[:2]), mirror.batch_body([items()[2], FORMLESS])]


def mirrored():
    """The journal of that mirror."""
    return journal.written(mirror_bodies())


def longer_list():
    """Its entries file, with one entry more."""
    return entries(3) + vector(FORMLESS[0]) + vector(b"") + vector(bytes(2)) + vector(b"")


def advance_request():
    """The request to hold more of the log."""
    return short(store.anchor_id(LOG)) + cosigner.advance_body(advance(LARGER, HELD))[1:]


def item_of(name, byte, form):
    """An entry of this form for a domain, with a key of such bytes."""
    key = KEY_HEAD + bytes([byte] * 32)
    return request.entry(request.Request([FIRST, LAST], [name], None, key), LOG, form), key


def large_item(size):
    """An entry and its key, which have so many bytes together."""
    def made(count):
        key = encoded(SEQUENCE, ED25519 + encoded(BIT_STRING, bytes(1 + count)))
        return request.entry(request.Request([FIRST, LAST], ["large.example"], None, key), LOG, 2), key

    text, _ = made(32)
    # In a long key the heads of two elements have four bytes each, and one says how many bits are unused.
    return made(size - len(text) - len(ED25519) - 9)


def misfits():
    """Items that no list has: the key isn't the entry's."""
    (text, key), no_key = item_of("misfit.example", 3, 2), b"no key"
    of_no_key = text.replace(sha256(key).digest(), sha256(no_key).digest())
    return {"no-key": (text, b""), "another-key": (text, item_of("misfit.example", 4, 2)[1]), "a-longer-key": (text, key + bytes(1)),
            "another-algorithm": (text.replace(ED25519, P256), key), "a-key-of-no-form": (of_no_key, no_key),
            "a-key-beside-no-form": (FORMLESS[0], key), "a-key-beside-null": (bytes(2), key)}


def log_settings():
    """The body of the first record of a log's journal, as in docs/FORMATS.md, "A journal byte by byte"."""
    return log_records.log_body(store.anchor_id(LOG), 2, 64)


def new_log():
    """The journal of a new log."""
    return journal.written([log_settings()])


@cache
def log_bodies():
    """The records of a longer log, the first entry of which is that of the certificate `small`: two entries, each with a
    landmark after it, a switch and an entry that names the algorithm of its key."""
    first, second = (log_records.entry_body(*item) for item in items()[1:3])
    named = log_records.entry_body(*item_of("named.example", 3, 2))
    return [log_settings(), first, log_records.landmark_body(2), second, log_records.landmark_body(3), log_records.switch_body(3), named]


def grown_log():
    """The journal of that log."""
    return journal.written(log_bodies())


@cache
def batch_bodies():
    """The records of the same log, where entries that follow one another stand in one record."""
    settings, _, _, _, landmark, switch, _ = log_bodies()
    named = [item_of("named.example", 3, 2), item_of("again.example", 4, 2)]
    return [settings, log_records.batch_body(items()[1:3]), landmark, switch, log_records.batch_body(named)]


def batched_log():
    """The journal of that log."""
    return journal.written(batch_bodies())


def issue_request():
    """The request file of docs/FORMATS.md."""
    key = base64.b64encode(KEY_HEAD + bytes(32)).decode()
    dates = {"not_before": "2026-01-01T00:00:00Z", "not_after": "2026-01-08T00:00:00Z"}
    return text_of({**dates, "dns": ["a.example"], "key": key})
