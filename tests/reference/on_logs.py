"""What commands on the journal of a log answer and leave, by docs/COMMANDS.md."""

import base64

from . import cosigner, entry, journal, judging, landmarks, log, merkle, proof, request, store
from .cosigner import Advance, Sign
from .fault import Fault
from .room import appended, begun, checked, lines, opened_with_tiles, refused, stored, stored_again

MOST_ITEM, MOST_SIGNATURES = 65_535, 65_535


def opened_log(words, files, writes=False, adopts=True):
    """The log of the journal that is named first."""
    return opened_with_tiles(words, words[1], files, log.opened, writes, adopts)


def init_log(words, files):
    _, name, id, active, limit = words
    begun(words, files, name, log.log_body(store.anchor_id(id), int(active), int(limit)))
    return lines(f"log {id}")


def checkpoint(words, files):
    held = opened_log(words, files)
    return lines(f"size {held.size}", f"root {merkle.root(held.items).hex()}")


def issue(words, files):
    _, name, file = words
    asked = checked(words, file, 2, request.read, files[file])
    held = opened_log(words, files, writes=True)
    if held.size == held.limit:
        raise refused(words, 9, "Full")
    text = request.entry(asked, store.id_text(held.id), held.form)
    if len(text) + len(asked.key) > MOST_ITEM:
        raise refused(words, 9, "TooLarge")
    appended(files, name, log.entry_body(text, asked.key))
    return lines(f"issued {held.size}")


def fitting(items):
    """How many of the first items one record holds."""
    return next((count for count in range(len(items)) if len(log.batch_body(items[:count + 1])) > journal.MOST), len(items))


def issue_list(words, files):
    _, name, file = words
    asked = checked(words, file, 2, request.read_list, files[file])
    held = opened_log(words, files, writes=True)
    items = [(request.entry(one, store.id_text(held.id), held.form), one.key) for one in asked]
    faults = [("Full", held.size + len(items) > held.limit), (f"TooMany {fitting(items)}", fitting(items) < len(items)),
              ("TooLarge", any(len(text) + len(key) > MOST_ITEM for text, key in items))]
    for fault, is_so in faults:
        if is_so:
            raise refused(words, 9, fault)
    appended(files, name, log.batch_body(items))
    return lines(*(f"issued {index}" for index in range(held.size, held.size + len(items))))


def switch(words, files):
    held = opened_log(words, files, writes=True)
    if held.switched is not None:
        raise refused(words, 4, f"AlreadySwitched {held.switched}")
    appended(files, words[1], log.switch_body(held.size))
    return lines(f"switched {held.size}")


def up_to(words, held, size):
    """That a log or a mirror has so many items."""
    if size > held.size:
        raise refused(words, 4, f"Beyond {held.size}")


def entries(words, files):
    held, size = opened_log(words, files), int(words[2])
    up_to(words, held, size)
    return entry.written(held.items[:size])


def rising(words, held, first, last):
    """That an interval has entries, which the log has."""
    if first >= last:
        raise refused(words, 4, "NothingNew")
    up_to(words, held, last)


def entries_from(words, files):
    held, first, size = opened_log(words, files), int(words[2]), int(words[3])
    rising(words, held, first, size)
    return entry.written(held.items[first:size])


def consist(words, files):
    held, old, new = opened_log(words, files), int(words[2]), int(words[3])
    rising(words, held, old, new)
    tree = merkle.of(held.items)
    asked = Advance(new, tree.hash(0, new), tree.proof(0, old, 0, new) if old else [])
    return log.short(held.id) + cosigner.advance_body(asked)[1:]


def subtree(words, files):
    held, (start, end, size) = opened_log(words, files), map(int, words[2:])
    if not merkle.is_subtree(start, end):
        raise refused(words, 4, "BadSubtree")
    up_to(words, held, size)
    if end > size:
        raise refused(words, 4, f"Beyond {size}")
    tree = merkle.of(held.items)
    asked = Sign(0, start, end, tree.hash(start, end), tree.proof(start, end, 0, size))
    # The tag and the number of the one-time key are those of a record alone.
    return log.short(held.id) + cosigner.sign_body(asked)[5:]


def landmark(words, files):
    held = opened_log(words, files, writes=True)
    if held.marks[-1:] == [held.size]:
        raise refused(words, 4, "NothingNew")
    appended(files, words[1], log.landmark_body(held.size))
    return lines(f"landmark {len(held.marks) + 1} {held.size}")


def landmarks_of(words, files):
    held = opened_log(words, files)
    return lines(*landmarks.text_of(landmarks.of_log(held.marks, held.active)))


def tile(words, files):
    held = opened_log(words, files, writes=True)
    full = held.size // log.TILE * log.TILE
    if full <= held.tiled:
        raise refused(words, 4, "NothingNew")
    stored(files, words[1], held, full)
    appended(files, words[1], log.tiles_body(full))
    return lines(f"tiled {full}")


def tile_anew(words, files):
    held = opened_log(words, files, writes=True, adopts=False)
    if held.tiled == 0:
        raise refused(words, 4, "NothingNew")
    stored_again(files, words[1], held)
    return lines(f"tiled {held.tiled}")


def certificate_in(held, index, start, end, signatures):
    """The certificate of an entry in a subtree."""
    written = proof.written(start, end, merkle.of(held.items).path(index, start, end), signatures)
    return entry.certificate_of(index, *held.items[index], judging.MTC_PROOF, written)


def is_certified(held, index):
    """That a certificate can be had of an entry."""
    if index >= held.size:
        raise Fault("NoSuchEntry")
    if index == 0:
        raise Fault("NullEntry")


def cert_of(held, index, start, end, signatures):
    """The certificate of an entry in this subtree, with these signatures."""
    is_certified(held, index)
    if not merkle.is_subtree(start, end):
        raise Fault("BadSubtree")
    if not start <= index < end:
        raise Fault("Outside")
    if end > held.size:
        raise Fault("Beyond", held.size)
    if len(signatures) > MOST_SIGNATURES:
        raise Fault("TooManySignatures")
    return certificate_in(held, index, start, end, signatures)


def light_cert_of(held, index):
    """The certificate of an entry in the subtree that an active landmark has for it."""
    is_certified(held, index)
    return certificate_in(held, index, *landmarks.covering(held.marks, held.active, index), b"")


def made(words, index, make, *values):
    """What is made of an entry; of several the index follows a fault. Too many signatures are a limit, all else is a state."""
    try:
        return make(*values)
    except Fault as fault:
        status = 9 if fault.name == "TooManySignatures" else 4
        raise refused(words, status, fault if index is None else f"{fault} {index}") from None


def signatures_of(words, files):
    """The signatures of a file, the last one that is named."""
    text = files[words[-1]]
    checked(words, words[-1], 2, proof.signatures_in, proof.Cursor(text, 0, len(text)))
    return text


def cert(words, files):
    signatures, held = signatures_of(words, files), opened_log(words, files)
    return made(words, None, cert_of, held, *map(int, words[2:5]), signatures)


def light_cert(words, files):
    return made(words, None, light_cert_of, opened_log(words, files), int(words[2]))


def pem(der):
    """A certificate in the textual encoding of RFC 7468, sections 2 and 5."""
    text = base64.b64encode(der).decode()
    return lines("-----BEGIN CERTIFICATE-----", *(text[at:at + 64] for at in range(0, len(text), 64)),
                 "-----END CERTIFICATE-----")


def pems(words, make):
    """The certificates of an interval of entries, one after the other; the first fault ends the command."""
    first, last = int(words[2]), int(words[3])
    if first >= last:
        raise refused(words, 4, "NothingNew")
    found, index = [], first
    while index < last:
        found.append(pem(made(words, index, make, index)))
        index += 1
    return b"".join(found)


def certs(words, files):
    signatures, held = signatures_of(words, files), opened_log(words, files)
    start, end = int(words[4]), int(words[5])
    return pems(words, lambda index: cert_of(held, index, start, end, signatures))


def light_certs(words, files):
    held = opened_log(words, files)
    return pems(words, lambda index: light_cert_of(held, index))


COMMANDS = {"init-log": init_log, "checkpoint": checkpoint, "issue": issue, "issue-list": issue_list, "switch": switch,
            "entries": entries, "entries-from": entries_from, "consist": consist, "subtree": subtree, "landmark": landmark,
            "landmarks": landmarks_of, "tile": tile, "tile-anew": tile_anew, "cert": cert, "certs": certs,
            "light-cert": light_cert, "light-certs": light_certs}
