"""The texts of a monitor, by docs/FORMATS.md, "The texts of a monitor", and what it reports, by docs/COMMANDS.md, "monitor"."""

import re
from typing import NamedTuple

from . import entry, landmarks, merkle, request, store
from .cosigner import Refusal
from .fault import Fault

WORDS, MOST_LINES, NULL, PRINTED = (b"match ", b"match-hex ", b"unread "), 1000, bytes(2), range(0x21, 0x7F)


class State(NamedTuple):
    """The id of the log, the number of its entries, and the peaks of its tree."""

    log: bytes
    size: int
    peaks: list


def state_in(line):
    """The state of a line; none of another line."""
    found = re.fullmatch(rb"state ([0-9.]+) ([0-9]+)((?: [0-9a-f]{64})*)", line)
    log, size = (store.anchor_id(found[1].decode()), landmarks.numbers(found[2], 1)) if found else (None, None)
    peaks = [bytes.fromhex(one.decode()) for one in found[3].split()] if found else []
    return State(log, size[0], peaks) if log and size and size[0].bit_count() == len(peaks) else None


def read_state(text):
    """The state at the end of a state file, of whose other lines the first word alone counts."""
    *lines, rest = text.split(b"\n")
    for number, line in enumerate(lines):
        if line.startswith(WORDS):
            continue
        state = state_in(line)
        if state is None:
            raise Fault("BadLine", number)
        if lines[number + 1:] or rest:
            raise Fault("BadLine", number + 1)
        return state
    raise Fault("BadLine", len(lines))


def is_domain(line):
    return b"*" not in line and line.isascii() and request.is_host(line.decode())


def read_watch(text):
    """The domains of a watch file."""
    *lines, rest = text.split(b"\n")
    for number, line in enumerate(lines):
        if number >= MOST_LINES or not is_domain(line):
            raise Fault("BadLine", number)
    if rest:
        raise Fault("BadLine", len(lines))
    return lines


def root(peaks):
    """The root of a tree with these peaks: pairs from the last to the first."""
    if not peaks:
        return merkle.NO_ENTRIES
    *others, value = peaks
    for peak in reversed(others):
        value = merkle.pair(peak, value)
    return value


def grown(state, items):
    """The state after these items."""
    stack = [(1 << place, peak) for place, peak in zip([at for at in reversed(range(64)) if state.size >> at & 1], state.peaks)]
    for text, _ in items:
        stack.append((1, merkle.leaf(text)))
        while len(stack) > 1 and stack[-1][0] == stack[-2][0]:
            (width, left), (_, right) = stack[-2:]
            stack[-2:] = [(2 * width, merkle.pair(left, right))]
    return State(state.log, state.size + len(items), [peak for _, peak in stack])


def leads_to(state, asked):
    """Whether the entries of a state are the first ones of a list, by its proof; there is none from size 0."""
    if state.size == 0:
        return not asked.proof
    return merkle.is_consistent(0, state.size, root(state.peaks), asked.size, asked.root, asked.proof)


def followed(state, log, asked, items):
    """The state after new entries that lead to what a request says; else the first refusal."""
    if log != state.log:
        raise Refusal("WrongLog")
    if asked.size <= state.size:
        raise Refusal("NotNewer", state.size)
    if len(items) != asked.size - state.size:
        raise Refusal("ItemCount", f"{len(items)} {asked.size - state.size}")
    if not leads_to(state, asked):
        raise Refusal("BadProof")
    after = grown(state, items)
    if root(after.peaks) != asked.root:
        raise Refusal("RootDiffers", f"{asked.root.hex()} {root(after.peaks).hex()}")
    return after


def lies_under(name, domain):
    name, domain = name.lower(), domain.lower()
    return name == domain or name.endswith(b"." + domain)


def found_in(index, text, watch):
    """The lines about an entry."""
    read = entry.key_in(text)
    if read is None:
        return [] if text == NULL else [f"unread {index}"]
    names = [name for name in read[2] if any(lies_under(name, domain) for domain in watch)]
    return [f"match {index} {name.decode()}" if all(byte in PRINTED for byte in name) else f"match-hex {index} {name.hex()}"
            for name in names]


def report(state, items, watch):
    """The lines about new entries that follow a state."""
    return [line for index, (text, _) in enumerate(items, state.size) for line in found_in(index, text, watch)]


def state_line(state):
    return " ".join(["state", store.id_text(state.log), str(state.size), *(peak.hex() for peak in state.peaks)])
