"""The judgement of a certificate, by docs/COMMANDS.md, "verify": accepted, or the first refusal."""

from . import certificate, entry, merkle, proof
from .fault import Fault
from .hss import hss_answer

MTC_PROOF = bytes.fromhex("300c060a2b0601040182da4b2f00")
KNOWN = [bytes.fromhex("551d" + last) for last in ("11", "13", "0f", "25")]


class Refused(Exception):
    """The name of a refusal, and what it says beside it: a fault, a number or nothing."""

    def __init__(self, name, reason=None):
        super().__init__(name, reason)
        self.name, self.reason = name, reason


def within(name, call, *words):
    """What a call answers; a fault of it is a refusal of this name."""
    try:
        return call(*words)
    except Fault as fault:
        raise Refused(name, fault) from None


def admitted(read, store, now):
    """What is asked of the fields of a certificate."""
    if read.algorithm != MTC_PROOF:
        raise Refused("Algorithm")
    if read.issuer != store.name:
        raise Refused("UnknownLog")
    if now < read.unix_times[0]:
        raise Refused("NotYet")
    if read.unix_times[1] < now:
        raise Refused("Expired")
    if any(one.critical and one.identifier not in KNOWN for one in read.extension_list):
        raise Refused("UnknownCritical")
    if any(start <= read.serial < end for start, end in store.revoked):
        raise Refused("Revoked")


def has_signed(cosigner, key, store, found, node):
    """Whether a signature of the proof has this id and verifies under this key."""
    message = proof.signed_bytes(cosigner, store.log, found.start, found.end, node)
    return any(id == cosigner and hss_answer(key, message, text) == "Ok" for id, text in found.signatures)


def decided(store, found, node):
    """A trusted interval decides alone; for any other there have to be rules, and each has to be met."""
    trusted = [hash for start, end, hash in store.subtrees if (start, end) == (found.start, found.end)]
    if trusted:
        if trusted[0] != node:
            raise Refused("LandmarkDiffers")
        return
    if not store.rules:
        raise Refused("TooFewCosigners", 0)
    for number, (places, count) in enumerate(store.rules, 1):
        if sum(has_signed(*store.cosigners[place], store, found, node) for place in places) < count:
            raise Refused("TooFewCosigners", number)


def judge(text, store, now):
    """The index of the entry and its interval, of a certificate that is accepted at this time."""
    read = within("Grammar", certificate.read, text)
    admitted(read, store, now)
    found = within("ProofGrammar", proof.read, read.proof)
    leaf = merkle.leaf(entry.of_certificate(read, store.form_at(read.serial)))
    node = within("ProofShape", merkle.evaluated, leaf, read.serial, found.start, found.end, found.path)
    decided(store, found, node)
    return read.serial, found.start, found.end
