"""judge.py LIBRARY CERT STORE NOW: what the library says of a certificate, as `mtc verify` does."""
import ctypes
import re
import sys

ABI, DONE, NO_MEMORY, OF_FIELD, MAX_NAME = 1, 0, 8, (3, 4), 32


class Verdict(ctypes.Structure):
    _fields_ = [("status", ctypes.c_uint32), ("refusal", ctypes.c_uint32)] + [
        (name, ctypes.c_uint64) for name in ("number", "index", "start", "end", "cosigners")]


def opened(path):
    """The library, whose interface has to be the one that is written here: ctypes checks none."""
    library = ctypes.CDLL(path)
    if not hasattr(library, "mtc_abi") or library.mtc_abi() != ABI:
        sys.exit(f"judge: {path}: another interface")
    return library


def judge(library, cert, store, now):
    verdict = Verdict()
    library.mtc_judge(cert, ctypes.c_size_t(len(cert)), store, ctypes.c_size_t(len(store)),
                      ctypes.c_int64(now), ctypes.byref(verdict))
    return verdict


def named(call, number):
    """The name of a refusal or of a field; the number, where the library knows no name."""
    room, length = ctypes.create_string_buffer(MAX_NAME), ctypes.c_uint64()
    status = call(number, room, ctypes.c_size_t(MAX_NAME), ctypes.byref(length))
    return room.raw[:length.value].decode() if status == DONE else str(number.value)


def refusal_of(library, verdict):
    """The refusal by its name, and what belongs to it: the name of a field, or a number."""
    name = named(library.mtc_refusal_name, ctypes.c_uint32(verdict.refusal))
    if verdict.refusal in OF_FIELD:
        return f"{name} {named(library.mtc_field_name, ctypes.c_uint64(verdict.number))}"
    return f"{name} {verdict.number}"


def seconds_of(text):
    """A number of 64 bits, and nothing before or after it: ctypes cuts a longer one."""
    if not re.fullmatch("-?[0-9]{1,19}", text) or not -1 << 63 <= int(text) < 1 << 63:
        sys.exit(f"judge: NOW: {text}")
    return int(text)


def main(path, cert, store, now):
    seconds = seconds_of(now)
    try:
        library = opened(path)
        cert, store = (open(name, "rb").read() for name in (cert, store))
    except OSError as why:
        print(f"judge: {why}", file=sys.stderr)
        return 5
    verdict = judge(library, cert, store, seconds)
    if verdict.status == DONE:
        print(f"accepted {verdict.index}")
    elif verdict.status == NO_MEMORY:
        print("judge: no memory", file=sys.stderr)
    else:
        print(f"not accepted: {refusal_of(library, verdict)}")
    return verdict.status


if __name__ == "__main__":
    if len(sys.argv) != 5:
        sys.exit("judge.py LIBRARY CERT STORE NOW")
    sys.exit(main(*sys.argv[1:]))
