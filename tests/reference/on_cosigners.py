"""What commands on the journal of a cosigner and on what it exported answer and leave, by docs/COMMANDS.md."""

import base64
from functools import cache

from . import cosigner, hss, journal, keys, log, proof, store
from .cosigner import SECRET, Sign
from .fault import Fault
from .room import appended, begun, checked, lines, opened

# The typecodes of LM-OTS, by the width.
WIDTHS = {width: code for code, (width, _, _) in hss.LMOTS.items()}


def secret_in(text):
    """The secret that these bytes are."""
    if len(text) != SECRET:
        raise Fault(*(("Short", 0) if len(text) < SECRET else ("Trailing",)))
    return text


@cache
def made(secret, heights, ots):
    """The key of a secret, with a level for each of these heights."""
    return keys.Key(secret, [*map(cosigner.type_of, heights)], ots)


def key_of(held):
    """The private key of a cosigner."""
    return made(held.secret, held.heights, held.ots)


def key_line(key):
    return lines(base64.b64encode(key.public).decode())


def secret_key(words, files, heights, width):
    """The key of a secret file, the last one that is named, and the secret."""
    secret = checked(words, words[-1], 2, secret_in, files[words[-1]])
    return made(secret, tuple(heights), WIDTHS[width]), secret


def keygen(words, files):
    return key_line(secret_key(words, files, [int(words[1])], int(words[2]))[0])


def init_cosigner(words, files):
    """Makes a cosigner whose key has a level for each height."""
    _, name, id, log_id, *heights, width, _ = words
    heights, width = [*map(int, heights)], int(width)
    key, secret = secret_key(words, files, heights, width)
    ids = store.anchor_id(id), store.anchor_id(log_id)
    begun(words, files, name, cosigner.settings_body(*ids, heights, WIDTHS[width], secret))
    return key_line(key)


def opened_cosigner(words, files, writes=True):
    """The cosigner of the journal that is named first."""
    return opened(words, files, words[1], cosigner.opened, writes)


def advance(words, files):
    _, name, file = words
    asked_log, asked = checked(words, file, 2, cosigner.advance_request, files[file])
    held = opened_cosigner(words, files)
    checked(words, None, 4, cosigner.advanced, held, asked_log, asked)
    appended(files, name, cosigner.advance_body(asked))
    return lines(f"advanced {asked.size}")


def child(words, files):
    held = opened_cosigner(words, files)
    checked(words, None, 4, cosigner.next_child, held)
    appended(files, words[1], cosigner.child_body(held.state.children, held.state.lower))
    return lines(f"child {held.state.children}")


def signature(files, name, held, asked):
    """The signature by the next one-time key, after its record."""
    number = held.state.signed
    appended(files, name, cosigner.sign_body(asked._replace(number=number)))
    text = key_of(held).signature(number, proof.signed_bytes(held.id, held.log, asked.start, asked.end, asked.node))
    return log.short(held.id) + proof.vector(text)


def cosign(words, files):
    _, name, file = words
    asked_log, asked = checked(words, file, 2, cosigner.sign_request, files[file])
    held = opened_cosigner(words, files)
    checked(words, None, 4, cosigner.signed, held, asked_log, asked)
    return signature(files, name, held, asked)


def export(words, files):
    held = opened_cosigner(words, files, writes=False)
    _, *steps = journal.bodies(files[words[1]])
    return cosigner.exported(held, key_of(held).public, steps)


def read_export(words, files):
    """What the export says that is named first; none of no bytes."""
    return checked(words, words[1], 2, cosigner.export, files[words[1]])


def signs(found):
    return [step for step in found.steps if isinstance(step, Sign)]


def left(key, state):
    """How many one-time keys are left, where the height of all trees is known."""
    if key.levels == 1:
        return [f"left {(1 << key.height) - state.signed}"]
    return [] if state.lower is None else [f"left {(1 << key.height + state.lower) - state.signed}"]


def held(words, files):
    found = read_export(words, files)
    if found is None:
        return lines("nothing")
    return lines(f"cosigner {store.id_text(found.cosigner)}", f"log {store.id_text(found.log)}",
                 f"key {base64.b64encode(found.key).decode()}", f"size {found.state.size}", f"root {found.state.root.hex()}",
                 f"signs {len(signs(found))}", *left(found.trees, found.state),
                 *(f"signed {one.number} {one.start} {one.end} {one.node.hex()}" for one in signs(found)))


def quarrel(words, files):
    found = read_export(words, files)
    signed = [] if found is None else signs(found)
    hashes = {(one.start, one.end): one.node for one in signed}
    assert all(hashes[one.start, one.end] == one.node for one in signed), "no two strings with one hash of SHA-256 are known"
    return lines("agree")


COMMANDS = {"keygen": keygen, "init-cosigner": init_cosigner, "init-cosigner2": init_cosigner, "advance": advance,
            "child": child, "cosign": cosign, "export": export, "held": held, "quarrel": quarrel}
