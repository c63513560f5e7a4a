"""What commands on files answer, by docs/COMMANDS.md: the status, the output, and the line on standard error.

Words name files by their bytes in `files`, of which those that are written are changed there. Nothing fails but by them.
"""

from datetime import UTC, datetime

from . import arguments, auditing, certificate, cosigner, entry, judging, proof, store
from . import on_cosigners, on_files, on_logs, on_mirrors
from .fault import Fault
from .room import Refused, Room, checked, lines, read_inputs, shown

EMPTY_NAME, PRINTED = b"\x30\0", range(0x21, 0x7F)


def judged(words, call, *values):
    """What a judgement of the certificate answers; a refusal ends the command."""
    try:
        return call(*values)
    except judging.Refused as refused:
        name, reason = refused.name, refused.reason
    if name in ("Grammar", "ProofGrammar"):
        raise Refused(2, b"", f"mtc: {words[0]}: {shown(words[1])}: {reason}\n".encode())
    raise Refused(3, lines(" ".join(map(str, ["refused", name] + [reason] * (reason is not None)))), b"")


def name_line(name):
    is_plain = all(byte in PRINTED for byte in name)
    return f"name {name.decode()}" if is_plain else f"name-hex {name.hex()}"


def proof_lines(read):
    """The lines of the proof of a certificate."""
    try:
        if read.algorithm != judging.MTC_PROOF:
            return ["proof none"]
        found = proof.read(read.proof)
    except Fault:
        return ["proof none"]
    signed = [f"signature {store.id_text(id) or 'hex:' + id.hex()} {len(text)}" for id, text in found.signatures]
    return [f"interval {found.start} {found.end}", f"path {len(found.path)}", *signed]


def show(words, files):
    read = checked(words, words[1], 2, certificate.read, files[words[1]])
    first, last = (f"{datetime.fromtimestamp(unix_time, UTC):%Y-%m-%dT%H:%M:%SZ}" for unix_time in read.unix_times)
    names = [name_line(name) for one in read.extension_list for name in one.names]
    return lines(f"serial {read.serial}", f"issuer {store.log_of(read.issuer) or 'other'}", f"not_before {first}",
                 f"not_after {last}", f"subject {'empty' if read.subject == EMPTY_NAME else read.subject.hex()}",
                 f"key {read.key.hex()}", *names, *proof_lines(read))


def verify(words, files):
    _, cert, file, now = words
    known = checked(words, file, 2, store.read, files[file])
    return lines(f"accepted {judged(words, judging.judge, files[cert], known, int(now))[0]}")


def audit(words, files):
    _, cert, file, now, listed, exported = words
    known = checked(words, file, 2, store.read, files[file])
    items = checked(words, listed, 2, entry.items, files[listed])
    export = checked(words, exported, 2, cosigner.export, files[exported])
    try:
        return lines(f"stands {judged(words, auditing.audit, files[cert], known, int(now), items, export)}")
    except auditing.Foreign as foreign:
        raise Refused(3, lines(" ".join(["foreign", *(one.hex() for one in foreign.args)])), b"") from None
    except auditing.Unrecorded:
        raise Refused(3, lines("unrecorded"), b"") from None


COMMANDS = {"show": show, "verify": verify, "audit": audit, **on_logs.COMMANDS, **on_cosigners.COMMANDS, **on_mirrors.COMMANDS,
            **on_files.COMMANDS}


def answer(words, files):
    """The status and the two texts of a command."""
    fault = arguments.line_of_fault(words)
    if fault is not None:
        return 1, b"", f"mtc: {fault}\n".encode()
    room = files if isinstance(files, Room) else Room(files)
    try:
        read_inputs(words, room)
        return 0, COMMANDS[words[0]](words, room), b""
    except Refused as refused:
        return refused.args
    finally:
        files.update(room)
