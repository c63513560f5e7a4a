"""Certificates and stores that are changed, with a time, and what `verify` has to say of them."""

import base64
import random
from hashlib import sha384
from itertools import combinations, product

from reference import certificate, commands, hss, judging, proof, store, times
from reference.der import SEQUENCE, encoded
from reference.keys import OnePath
from reference.proof import vector

from .changes import other_tables, pieces, variants, with_proof
from .files import COSIGNERS, FIRST, LAST, LOG, asked, rebuilt, root_of, signed, signers, text_of, trusted

# A critical extension that isn't known; the algorithm with parameters.
CRITICAL = encoded(SEQUENCE, bytes.fromhex("0603551d64 0101ff 040100"))
WITH_PARAMETERS = encoded(SEQUENCE, judging.MTC_PROOF[2:] + b"\x05\0")
# So many pairs of changes are tried.
PAIRS = 400
# Times at the ends of what there is, and such as there aren't.
EARLIEST, LATEST, LAST_SECOND = encoded(0x17, b"500101000000Z"), encoded(0x18, b"99991231235959Z"), 253402300799
TIMES = b"""
260101000000Z 491231235959Z 500101000000Z 991231235959Z 000229120000Z 240229000000Z 250229000000Z 260431000000Z
260630235959Z 261301000000Z 260001000000Z 260100000000Z 260132000000Z 260101240000Z 260101006000Z 260101000060Z
2601010000Z 260101000000 260101000000z 260101000000+0000 260101000000.0Z 26010100000\xb9Z -60101000000Z
2601010000000Z 20491231235959Z 20500101000000Z 20500228235959Z 20520229000000Z 21000229000000Z 24000229000000Z
99991231235959Z 20500101000060Z 20501301000000Z 205001010000Z 20500101000000.5Z 20500101000000 00010101000000Z
00000101000000Z
""".split()
TEXTS = [b"", b"[log", b"\xff", b'[log]\nid = "32473.1"\n', b'[[log]]\nid = "32473.1"\n', b'log.id = "32473.1"\r\n',
         b'[log]\nid = "32473.1"\nid = "32473.1"\n']


def samples():
    """Each certificate with a store that trusts its subtree, if one is trusted for it, and a time."""
    for label, now in (("small", FIRST), ("signed", LAST), ("large", FIRST), ("many", FIRST)):
        subtree = trusted().get(label, trusted()["small"])
        yield asked()[label], text_of(root_of(subtree=[subtree], revoked=[{"start": 7, "end": 9}])), now


def certificates():
    """one element of a certificate is another, dropped, doubled or moved to the end"""
    for sample, known, now in samples():
        yield from ((text, known, now) for text in {sample: 0, **dict.fromkeys(variants(sample))})


def proofs():
    """a proof is cut or longer, and the time is another"""
    text, known = asked()["signed"], text_of(root_of(subtree=[trusted()["signed"]]))
    whole = certificate.read(text).proof
    yield from ((with_proof(text, whole[:size]), known, FIRST) for size in range(len(whole)))
    yield from ((with_proof(text, whole + more), known, FIRST) for more in (b"\0", bytes(2), bytes(32), whole))
    yield from ((text, known, now) for now in (0, FIRST - 1, FIRST, LAST, LAST + 1, 253402300799))


def algorithms():
    """both algorithms of a certificate are another one"""
    known = text_of(root_of(subtree=[trusted()["small"]]))
    signature = certificate.read(asked()["small"]).proof
    for other in (judging.MTC_PROOF, *variants(judging.MTC_PROOF)):
        yield rebuilt(other, b"", signature), known, FIRST


def unix_times():
    """the first or the last time of a certificate is another, which is tried about that time"""
    known = text_of(root_of(subtree=[trusted()["small"]]))
    signature = certificate.read(asked()["small"]).proof
    yield asked()["small"], known, FIRST
    for text, tag, is_last in product(TIMES, (times.UTC_TIME, times.GENERALIZED_TIME), (False, True)):
        one = encoded(tag, text)
        validity = encoded(SEQUENCE, EARLIEST + one if is_last else one + LATEST)
        changed, unix_time = rebuilt(judging.MTC_PROOF, b"", signature, validity), times.unix_time(tag, text)
        about = [FIRST] if unix_time is None else [unix_time - 1, unix_time, unix_time + 1]
        yield from ((changed, known, now) for now in about if 0 <= now <= LAST_SECOND)


def reasons():
    """each set of reasons against a certificate, of which the first is reported"""
    good = certificate.read(asked()["small"]).proof
    longer = good[:16] + vector(good[18:50] * 2) + bytes(2)
    algorithms, extensions = (judging.MTC_PROOF, WITH_PARAMETERS), (b"", CRITICAL)
    beside, within = [{"start": 0, "end": 1}, {"start": 2, "end": 3}], [{"start": 1, "end": 2}]
    for words in product(algorithms, extensions, (good, longer, good + b"\0")):
        for log, revoked, hash in product((LOG, COSIGNERS[0]), (beside, within), (None, "00" * 32)):
            subtree = {**trusted()["small"], **({"hash": hash} if hash else {})}
            known = text_of(root_of(log={"id": log}, subtree=[subtree], revoked=revoked))
            yield from ((rebuilt(*words), known, now) for now in (FIRST - 1, FIRST, LAST + 1))


def two_changes():
    """two fields of a certificate, or two values of a store, are another, and the first fault is reported"""
    random.seed(1)
    text, known = signed([(id, text) for id, _, text in signers()]), text_of(whole_root())
    yield text, known, FIRST
    body, *following = pieces(text)
    for _ in range(PAIRS):
        fields = pieces(body)
        for place in random.sample(range(len(fields)), 2):
            fields[place] = random.choice([*variants(fields[place])])
        yield encoded(SEQUENCE, encoded(SEQUENCE, b"".join(fields)) + b"".join(following)), known, FIRST
    for one in random.sample([*other_tables(whole_root())], PAIRS):
        yield text, text_of(random.choice([*other_tables(one)])), FIRST


def signature_lists():
    """Lists of signatures: good ones, of others, changed ones, and more than one of a cosigner."""
    good = [(id, text) for id, _, text in signers()]
    (one, text), (two, other), _ = good
    bad = one, text[:-1] + bytes([text[-1] ^ 1])
    for count in range(4):
        yield from combinations(good, count)
    yield from ([bad], [bad, good[0]], [good[0], bad], [bad, *good[1:]], [good[0], good[0]], good[::-1])
    yield from ([(two, text)], [(one, other), (two, text)], [(one, text[:-1])], [(one, b"")], [(b"\1", text), good[1]])


def signatures():
    """a certificate has other signatures, and the store has other rules"""
    few, rest = COSIGNERS[:1], COSIGNERS[1:]
    rules = [[], [(COSIGNERS, 1)], [(COSIGNERS, 2)], [(COSIGNERS, 3)], [(few, 1), (rest, 1)], [(rest, 2), (few, 1)]]
    stores_of = [root_of(rule=[{"cosigners": some, "count": count} for some, count in found]) for found in rules]
    for other in ({"hash": "00" * 32}, {"start": 1}, {"end": 1}):
        stores_of.append(root_of(subtree=[{**trusted()["small"], **other}]))
    yield from ((signed(some), text_of(root), LAST) for some in signature_lists() for root in stores_of)


# The typecodes of the height and of the width of each level of a key, by which all changes are tried; of all others the signature alone.
ONE_LEVEL = [[(lms, ots)] for lms, ots in product(hss.LMS, hss.LMOTS)]
LEVELS = [[(5, 3)] * 2, [(6, 2), (5, 3)], [(5, 4), (6, 1)], [(5, 3)] * 3, *([(5, 4)] * count for count in range(4, 9))]
CHANGED = [[(5, 4)], [(9, 4)], [(5, 3)] * 2, [(5, 4)] * 3]


def signed_by(types, message):
    """A key with these levels, and a signature by the last one-time key of each."""
    trees = [OnePath(*type, sha384(bytes([at])).digest(), (1 << hss.LMS[type[0]]) - 1) for at, type in enumerate(types)]
    signature = hss.u32(len(types) - 1)
    for above, below in zip(trees, trees[1:]):
        signature += above.signature(above.number, below.public()) + below.public()
    return hss.u32(len(types)) + trees[0].public(), signature + trees[-1].signature(trees[-1].number, message)


def other_signatures(types, key, text):
    """Other keys and signatures: a byte of a field of one level is another, the key has another number of levels or is short, the
    signature is cut or longer."""
    places, at = [0, 3], 4
    for _, ots in types:
        path = at + 8 + 32 * (1 + hss.LMOTS[ots][1])
        places += [at, at + 3, at + 7, at + 8, at + 40, path - 1, path + 3, path + 4]
        at += hss.prefix_length(text[at:])
        places += [at - 1, *(one for one in (at, at + 3, at + 7, at + 8, at + 24, at + 55) if one < len(text))]
        at += 56
    yield from ((key, text[:place] + bytes([text[place] ^ 1]) + text[place + 1:]) for place in places)
    yield from ((key, other) for other in (b"", text[:3], text[:4], text[:len(text) // 2], text[:-1], text + b"\0", b"\xff" * 4 + text[4:]))
    yield from ((key[:place] + bytes([key[place] ^ 1]) + key[place + 1:], text) for place in (3, 7, 11, 12, 30))
    yield from ((other, text) for other in (key[:-1], hss.u32(9) + key[4:], hss.u32(0) + key[4:], hss.u32(len(types) + 1) + key[4:]))


def levels():
    """a signature is by a key of another height, width or number of levels, or one field of it or of the key is another"""
    id, node = store.anchor_id(COSIGNERS[0]), bytes.fromhex(trusted()["small"]["hash"])
    message = proof.signed_bytes(id, store.anchor_id(LOG), 0, 2, node)
    for types in [*ONE_LEVEL, *LEVELS]:
        key, text = signed_by(types, message)
        tried = [(key, text), (key, signed_by(types, message + b"\0")[1])]
        for key, text in [*tried, *(other_signatures(types, key, text) if types in CHANGED else ())]:
            known = root_of(rule=[{"cosigners": COSIGNERS[:1], "count": 1}])
            known["cosigner"] = [{"id": COSIGNERS[0], "key": base64.b64encode(key).decode()}]
            yield signed([(id, text)]), text_of(known), LAST


def whole_root():
    """The tree of a store with tables of each kind."""
    rules = [{"cosigners": COSIGNERS, "count": 2}, {"cosigners": COSIGNERS[:1], "count": 1}]
    subtrees = [trusted()["signed"], {**trusted()["small"], "end": 1}]
    return root_of(rule=rules, subtree=subtrees, revoked=[{"start": 5, "end": 6}])


def stores():
    """one value of a store is another, missing, doubled or not known"""
    root = whole_root()
    text = signed([(id, text) for id, _, text in signers()])
    yield from ((text, text_of(other), FIRST) for other in (root, *other_tables(root)))
    yield from ((text, other, FIRST) for other in TEXTS)
    for place, byte in ((3, 0), (3, 8), (3, 9), (7, 4), (7, 9), (7, 10), (11, 0), (11, 4), (11, 5)):
        key = bytearray(signers()[0][1])
        key[place] = byte
        keys = [{**root["cosigner"][0], "key": base64.b64encode(key).decode()}, *root["cosigner"][1:]]
        yield text, text_of({**root, "cosigner": keys}), FIRST
    for count in (64, 65):
        keys = [{**root["cosigner"][0], "id": str(number)} for number in range(count)]
        yield text, text_of({**root, "cosigner": keys, "rule": []}), FIRST


def wanted(text, store_file, now):
    """The status and the two texts of `verify`, by the readers."""
    return [commands.answer(["verify", "c", "store", str(now)], {"c": text, "store": store_file})]


def said(run, text, store_file, now):
    """What the program says; `run` writes files and runs it."""
    return [run({"c": text, "store": store_file}, ["verify", "c", "store", str(now)])]


KINDS = [(kind, wanted, said) for kind in (
    certificates, algorithms, unix_times, proofs, signatures, levels, stores, reasons, two_changes)]
