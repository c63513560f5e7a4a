"""What commands without a journal answer that read files of others or none, by docs/COMMANDS.md; those on certificates stand in
commands.py, and those on exports in on_cosigners.py."""

import re

from . import arguments, cosigner, drill, entry, landmarks, merkle, proof, store, watching
from .fault import Fault
from .proof import HASH
from .room import Refused, checked, lines

DRAFT = "draft-ietf-plants-merkle-tree-certs-00"


def member_in(text):
    """The index, the interval, its hash, the path and the entry of a member file."""
    cursor = proof.Cursor(text, 0, len(text))
    found = cursor.number(8), cursor.number(8), cursor.number(8), cursor.bytes(HASH), proof.path_in(cursor)
    return *found, text[cursor.place:]


def member(words, files):
    index, start, end, wanted, path, text = checked(words, words[1], 2, member_in, files[words[1]])
    try:
        if merkle.evaluated(merkle.leaf(text), index, start, end, path) != wanted:
            raise Fault("HashDiffers")
    except Fault as fault:
        raise Refused(3, lines(f"refused {fault}"), b"") from None
    return lines(f"member {index}")


def trust_landmarks(words, files):
    _, file, most, listed = words
    items = checked(words, listed, 2, entry.items, files[listed])
    found = checked(words, file, 2, landmarks.read, files[file], int(most), len(items))
    return landmarks.tables(found, items).encode()


def root(words, files):
    items = checked(words, words[1], 2, entry.items, files[words[1]])
    return lines(f"size {len(items)}", f"root {merkle.root(items).hex()}")


def monitor_init(words, _files):
    return lines(watching.state_line(watching.State(store.anchor_id(words[1]), 0, [])))


def monitor(words, files):
    readers = (watching.read_state, watching.read_watch, cosigner.advance_request, entry.items)
    read = [checked(words, name, 2, reader, files[name]) for name, reader in zip(words[1:], readers)]
    state, watch, (log, asked), items = read
    after = checked(words, None, 4, watching.followed, state, log, asked, items)
    return lines(*watching.report(state, items, watch), watching.state_line(after))


def drill_played(words, _files):
    return lines(*drill.summary(int(words[1])))


def help_text(_words, _files):
    """A line for each command, as tests/manual.sh makes it of the page's table."""
    shown = (f"{words}: {prints}".replace("`", "") for words, _, prints in arguments.rows())
    without_pages = (re.sub(r" \(FORMATS\.md, [^)]*\)", "", line) for line in shown)
    return lines(*(re.sub(r"\[([^]]*)\]\([^)]*\)", r"\1", line) for line in without_pages))


def version(_words, _files):
    return lines("profile 2", f"draft {DRAFT}")


COMMANDS = {"member": member, "trust-landmarks": trust_landmarks, "root": root, "monitor-init": monitor_init,
            "monitor": monitor, "drill": drill_played, "help": help_text, "version": version}
