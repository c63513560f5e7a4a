"""What is said of signatures of LMS and HSS with SHA-256 (RFC 8554); sections are those of that page.

The names of the answers are those of docs/DEFINITIONS.md: `Ok`, or the first that holds of the refusals.
"""

from hashlib import sha256

# Section 4.1: typecode, w, p, ls; the hash has 32 bytes.
LMOTS = {1: (1, 265, 7), 2: (2, 133, 6), 3: (4, 67, 4), 4: (8, 34, 0)}
# Section 5.1: typecode, h.
LMS = {5: 5, 6: 10, 7: 15, 8: 20, 9: 25}
D_PBLC, D_MESG, D_LEAF, D_INTR = b"\x80\x80", b"\x81\x81", b"\x82\x82", b"\x83\x83"


def u32(number):
    return number.to_bytes(4, "big")


def number_at(text, place):
    return int.from_bytes(text[place:place + 4], "big")


def hashed(*pieces):
    return sha256(b"".join(pieces)).digest()


def coef(text, i, w):  # 3.1.3
    return (1 << w) - 1 & text[i * w // 8] >> 8 - (w * (i % (8 // w)) + w)


def digits(message_hash, w, p, ls):  # 4.4
    total = sum((1 << w) - 1 - coef(message_hash, i, w) for i in range(256 // w))
    coded = message_hash + (total << ls).to_bytes(2, "big")
    return [coef(coded, i, w) for i in range(p)]


def chain(prefix, start, end, value):  # 4.3, 4.5, 4.6
    for j in range(start, end):
        value = sha256(prefix + bytes([j]) + value).digest()
    return value


def key_is_known(key):  # 5.3
    return len(key) == 56 and number_at(key, 0) in LMS and number_at(key, 4) in LMOTS


def prefix_length(text):
    """How many bytes the LMS signature has that the text begins with, by its own typecodes; None if it has none."""
    if len(text) < 8 or number_at(text, 4) not in LMOTS:
        return None
    once = 36 + 32 * LMOTS[number_at(text, 4)][1]
    if len(text) < 8 + once or number_at(text, 4 + once) not in LMS:
        return None
    whole = 8 + once + 32 * LMS[number_at(text, 4 + once)]
    return whole if whole <= len(text) else None


def level(key, message, signature):  # 4.6 and 5.4.2, algorithms 4b and 6a, for one whole signature
    w, p, ls = LMOTS[number_at(signature, 4)]
    following = 8 + 32 + 32 * p
    height = LMS.get(number_at(signature, following))
    if signature[following:following + 4] != key[0:4] or signature[4:8] != key[4:8]:
        return "TypeDiffers"
    q, identifier = number_at(signature, 0), key[8:24]
    if q >= 1 << height:
        return "BadIndex"
    goal = hashed(identifier, u32(q), D_MESG, signature[8:40], message)
    ends = []
    for i, a in enumerate(digits(goal, w, p, ls)):
        prefix = identifier + u32(q) + i.to_bytes(2, "big")
        ends.append(chain(prefix, a, (1 << w) - 1, signature[40 + 32 * i:72 + 32 * i]))
    candidate = hashed(identifier, u32(q), D_PBLC, *ends)
    place = (1 << height) + q
    value = hashed(identifier, u32(place), D_LEAF, candidate)
    for i in range(height):
        beside = signature[following + 4 + 32 * i:following + 36 + 32 * i]
        pair = (value, beside) if place % 2 == 0 else (beside, value)
        place //= 2
        value = hashed(identifier, u32(place), D_INTR, *pair)
    return "Ok" if value == key[24:56] else "WrongRoot"


def lms_answer(key, message, signature):  # 5.4.2
    if not key_is_known(key):
        return "BadKey"
    return level(key, message, signature) if prefix_length(signature) == len(signature) else "BadLength"


def is_hss_key(key):  # 6.1
    return len(key) == 60 and 1 <= number_at(key, 0) <= 8 and key_is_known(key[4:])


def hss_answer(key, message, signature):  # 6.1, 6.3
    if not is_hss_key(key):
        return "BadKey"
    if len(signature) < 4:
        return "BadLength"
    pairs, rest, signed = number_at(signature, 0), signature[4:], []
    for _ in range(pairs):
        length = prefix_length(rest)
        if length is None or len(rest) < length + 56:
            return "BadLength"
        signed.append((rest[:length], rest[length:length + 56]))
        rest = rest[length + 56:]
    if prefix_length(rest) != len(rest):
        return "BadLength"
    if pairs + 1 != number_at(key, 0):
        return "TypeDiffers"
    top = key[4:]
    for part, public in signed:
        name = level(top, public, part)
        if name != "Ok":
            return name
        top = public
    return level(top, message, rest)
