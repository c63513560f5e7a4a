"""Input files, good and bad, made by the readers of tests/reference of what the journals of a history hold."""

import base64
from datetime import UTC, datetime

from hostile.changes import other_tables
from hostile.files import text_of
from reference import cosigner, journal, landmarks, log, merkle, mirror, request, store, tiles, watching
from reference.der import BIT_STRING, SEQUENCE, encoded

LOGS, COSIGNERS = ("32473.1", "32473.7"), ("32473.2", "32473.3", "2.999.18446744073709551615")
# The algorithms of keys: Ed25519, and points of P-256.
ALGORITHMS = [bytes.fromhex("300506032b6570"), bytes.fromhex("301306072a8648ce3d020106082a8648ce3d030107")]
FIRST, LAST = 1767225600, 1767830400
DAYS = (FIRST, LAST, FIRST - 1, 2524608000, 253402300799, -631152000)
# So many items stand in one record of a journal that is made here.
BATCH = 100
DOMAINS = ("a.example", "b.example", "example", "www.a.example", "xn--a-0.example")
HOSTS = (*DOMAINS, "*.a.example", "A.EXAMPLE", "n.b.example", "1", "a" * 63 + ".example")
COMMON_NAMES = ("a.example", "\u00e9", "a b", "\U0001f600" * 16)


def key(draws, size=32):
    """A subjectPublicKeyInfo of which the key has so many bytes."""
    return encoded(SEQUENCE, draws.choice(ALGORITHMS) + encoded(BIT_STRING, b"\0" + draws.randbytes(size)))


def times(draws):
    return [FIRST, LAST] if draws.random() < 0.9 else sorted(draws.choices(DAYS, k=2))


def hosts(draws):
    return draws.choices(HOSTS, k=draws.randrange(1, 4) if draws.random() < 0.97 else 100)


def long_size(draws):
    """The bytes of a key beside which an entry just has space, or hasn't."""
    return draws.choice((65_000, 65_200, 65_300, 65_400))


def item(draws, id, form, size=32):
    """An entry of a log with its key."""
    common = draws.choice(COMMON_NAMES) if draws.random() < 0.2 else None
    made = key(draws, size)
    return request.entry(request.Request(times(draws), hosts(draws), common, made), id, form), made


def table(draws, size=32):
    """What a request file asks."""
    first, last = (f"{datetime.fromtimestamp(one, UTC):%Y-%m-%dT%H:%M:%SZ}" for one in times(draws))
    asked = {"not_before": first, "not_after": last, "dns": hosts(draws), "key": base64.b64encode(key(draws, size)).decode()}
    return {**asked, "common_name": draws.choice(COMMON_NAMES)} if draws.random() < 0.2 else asked


def request_file(draws):
    size, root = 32 if draws.random() < 0.95 else long_size(draws), None
    root = table(draws, size)
    return text_of(draws.choice([*other_tables(root)]) if draws.random() < 0.15 and size == 32 else root)


def requests_file(draws, most):
    """A file of so many requests at most, or of some large ones."""
    kind, sizes = draws.random(), [32] * draws.randrange(1, most)
    if kind < 0.06:
        sizes = [draws.choice((30_000, long_size(draws))) for _ in range(draws.randrange(1, 6))]
    tables = [table(draws, size) for size in sizes]
    if kind > 0.9:
        place = draws.randrange(len(tables))
        tables[place] = draws.choice([*other_tables(tables[place])])
    return text_of({"request": tables})


def foreign_item(draws):
    """An item of a list that no log of ours has: an entry of another type, one that isn't in its form, or a large one."""
    kind = draws.random()
    if kind < 0.1:
        return item(draws, LOGS[0], draws.choice((1, 2)), long_size(draws))
    if kind < 0.3:
        return item(draws, LOGS[0], draws.choice((1, 2)))
    return draws.choice((bytes(2), b"\0\7", b"\0\1\7", b"")) + draws.randbytes(draws.randrange(40)), b""


def longer(draws, items, most):
    """A list that begins with these items; one of them may be another, or missing."""
    listed = [*items, *(foreign_item(draws) for _ in range(draws.randrange(most)))]
    if draws.random() < 0.1 and listed:
        listed[draws.randrange(len(listed))] = foreign_item(draws)
    if draws.random() < 0.1:
        listed = listed[:draws.randrange(len(listed) + 1)]
    return listed


def span(draws, size):
    """An interval in a list of so many items, mostly a subtree."""
    start = draws.randrange(size + 1)
    if draws.random() < 0.1:
        return start, start + draws.randrange(5)
    width = 1 << draws.randrange(max(size, 1).bit_length())
    start -= start % width
    return start, min(start + draws.randrange(width // 2, width) + 1, max(size, start + 1))


def member_file(draws, items):
    """A member file of an item of a list."""
    start, end = span(draws, len(items))
    if not merkle.is_subtree(start, end) or end > len(items):
        start, end = 0, len(items)
    index, tree = draws.randrange(start, end), merkle.of(items)
    path = b"".join(tree.path(index, start, end))
    numbers = b"".join(one.to_bytes(8, "big") for one in (index, start, end))
    return numbers + tree.hash(start, end) + len(path).to_bytes(2, "big") + path + items[index][0]


def landmark_list(held):
    return "".join(line + "\n" for line in landmarks.text_of(landmarks.of_log(held.marks, held.active))).encode()


def state_file(id, items):
    """The state of a monitor that has seen these items."""
    return f"{watching.state_line(watching.grown(watching.State(id, 0, []), items))}\n".encode()


def watch_file(draws):
    return "".join(f"{one}\n" for one in draws.sample(DOMAINS, draws.randrange(4))).encode()


def secret_file(draws):
    """One of a few secrets, so that few keys are made; rarely of another length."""
    text = bytes([draws.randrange(3)]) * 48
    return text if draws.random() < 0.93 else draws.choice((text[:47], text + b"\0", b""))


def changed(draws, text):
    """Other bytes in place of a file's: one byte is another, it is cut, or there are more."""
    if not text:
        return draws.randbytes(draws.randrange(1, 20))
    place, kind = draws.randrange(len(text)), draws.random()
    if kind < 0.5:
        byte = draws.choice((text[place] ^ 1 << draws.randrange(8), draws.randrange(256)))
        return text[:place] + bytes([byte]) + text[place + 1:]
    if kind < 0.75:
        return text[:place]
    if kind < 0.9:
        return text + draws.choice((b"\0", b"\n", text[place:], draws.randbytes(5)))
    return text[:place] + draws.choice((b"\0", b"\n", b"\xff", text[place:place + 4])) + text[place:]


def grown_log(draws, id, active, limit, count):
    """The records of a log with so many entries, of which a record holds some, and a landmark follows most."""
    found, size = [log.log_body(store.anchor_id(id), active, limit)], 1
    while size < count:
        items = [item(draws, id, 1) for _ in range(min(draws.choice((1, 3, BATCH)), count - size))]
        size += len(items)
        found += [log.batch_body(items), *([log.landmark_body(size)] if draws.random() < 0.6 else [])]
    return found


def tiled(found, items):
    """The records with one more for the tiles that these items fill, and these tiles."""
    full = len(items) // tiles.WIDTH * tiles.WIDTH
    return [*found, log.tiles_body(full)], tiles.over(b"", items, full)


def new_cosigner(id, log_id, heights, ots, secret):
    """The journal of a new cosigner."""
    return journal.written([cosigner.settings_body(store.anchor_id(id), store.anchor_id(log_id), heights, ots, secret)])


def grown_mirror(id, items):
    """The records of a mirror of these items."""
    batches = (mirror.batch_body(items[at:at + BATCH]) for at in range(0, len(items), BATCH))
    return [mirror.mirror_body(store.anchor_id(id)), *batches]
