"""Certificates and stores that are changed: those of certificates.txt, with signatures of three cosigners."""

import base64
from functools import cache
from hashlib import sha384
from pathlib import Path

from reference import certificate, proof, store
from reference.der import BIT_STRING, SEQUENCE, encoded
from reference.keys import Key
from reference.log import short
from reference.proof import vector

from .changes import pieces, toml, with_proof

LOG, COSIGNERS = "32473.1", ["32473.2", "32473.3", "32473.4"]
FIRST, LAST, SPAN = 1767225600, 1767830400, (0, 2)
HEIGHT_5, WIDTH_4 = 5, 3
# Places among the fields of a certificate's body.
ALGORITHM, VALIDITY, EXTENSIONS = 2, 4, 7


@cache
def lines():
    """The words of each line of certificates.txt."""
    text = (Path(__file__).parent / "certificates.txt").read_text()
    return [line.split() for line in text.splitlines() if not line.startswith("#")]


@cache
def asked():
    """The certificates, by their labels."""
    return {label: bytes.fromhex(text) for label, text, *_ in lines()}


@cache
def trusted():
    """The subtrees that are trusted, as tables of a store, by the labels of their certificates."""
    return {label: {"start": int(span[0]), "end": int(span[1]), "hash": span[2]} for label, _, *span in lines() if span}


@cache
def signers():
    """The id, the public key and the signature of each cosigner, over the subtree of the certificate `small`."""
    found, node = [], bytes.fromhex(trusted()["small"]["hash"])
    for text in COSIGNERS:
        key, id = Key(sha384(text.encode()).digest(), [HEIGHT_5], WIDTH_4), store.anchor_id(text)
        found.append((id, key.public, key.signature(0, proof.signed_bytes(id, store.anchor_id(LOG), *SPAN, node))))
    return found


def signed(signatures):
    """The certificate `small` with these signatures, each after an id."""
    path = proof.read(certificate.read(asked()["small"]).proof).path
    return with_proof(asked()["small"], proof.written(*SPAN, path, b"".join(short(id) + vector(text) for id, text in signatures)))


def root_of(**more):
    """The tree of a store of all cosigners, and of more tables."""
    keys = [{"id": text, "key": base64.b64encode(key).decode()} for text, (_, key, _) in zip(COSIGNERS, signers())]
    return {"log": {"id": LOG}, "cosigner": keys, **more}


def text_of(root):
    return "".join(f"{key} = {toml(value)}\n" for key, value in root.items()).encode()


def rebuilt(algorithm, extension, signature, validity=None):
    """The certificate `small` with these in place of its own, the algorithm twice, and one extension more."""
    fields = pieces(pieces(asked()["small"])[0])
    [listed] = pieces(fields[EXTENSIONS])
    extensions = encoded(SEQUENCE, b"".join(pieces(listed)) + extension)
    fields[ALGORITHM], fields[EXTENSIONS] = algorithm, encoded(certificate.EXTENSIONS, extensions)
    fields[VALIDITY] = validity or fields[VALIDITY]
    body = encoded(SEQUENCE, b"".join(fields))
    return encoded(SEQUENCE, body + algorithm + encoded(BIT_STRING, b"\0" + signature))
