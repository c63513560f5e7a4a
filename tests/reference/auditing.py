"""What an audit says of a certificate that is accepted, by docs/COMMANDS.md, "audit"."""

from . import certificate, cosigner, entry, judging, merkle, proof


class Foreign(Exception):
    """The list is another: the hash that is wanted, and that of the list."""


class Unrecorded(Exception):
    """The export doesn't record the signature that decided."""


class Collision(Exception):
    """Two strings have one hash; which ones is left open."""


def same_list(start, end, wanted, items):
    """That the items of an interval are there, and have the wanted hash."""
    found = merkle.root(items[start:end])
    if len(items) < end or found != wanted:
        raise Foreign(wanted, found)


def has_recorded(export, store, found, node):
    """Whether an export is one of a cosigner that counted, and records its signature of the accepted interval."""
    ruled = [store.cosigners[place] for place in sorted({place for places, _ in store.rules for place in places})]
    known = [(id, key) for id, key in ruled if judging.has_signed(id, key, store, found, node)]
    if export is None or export.log != store.log or (export.cosigner, export.key) not in known:
        return False
    return any(step[1:4] == (found.start, found.end, node) for step in export.steps if isinstance(step, cosigner.Sign))


def audit(text, store, now, items, export):
    """The index at which the entry stands, of a certificate that is accepted."""
    index, start, end = judging.judge(text, store, now)
    read = certificate.read(text)
    found, own = proof.read(read.proof), entry.of_certificate(read, store.form_at(index))
    node = merkle.evaluated(merkle.leaf(own), index, start, end, found.path)
    by_subtree = any((start, end) == trusted[:2] for trusted in store.subtrees)
    if by_subtree:
        same_list(start, end, node, items)
    elif export is not None:
        same_list(0, export.state.size, export.state.root, items)
    if not by_subtree and not has_recorded(export, store, found, node):
        raise Unrecorded
    if items[index:index + 1] != [(own, read.key)]:
        raise Collision
    return index
