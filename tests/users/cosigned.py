"""One size for all cosigners, and the certificates with their signatures, by tools/authority_hour.sh."""

import os
import time

from .hours import hour, make_authority, names_in, request, stand_in
from .scene import IN_TIME, LOG, differ, lacks


def make_cosigner(scene, number):
    """A cosigner, with its table for a store."""
    folder = scene.path / f"c{number}"
    folder.mkdir()
    scene.file(f"secret{number}", bytes([number]) * 48)
    key = scene.mtc("init-cosigner", f"c{number}/journal", f"32473.{number}", LOG, 5, 1, f"secret{number}").decode().strip()
    (scene.path / f"a/cosigners/{number}").mkdir()
    return f'[[cosigner]]\nid = "32473.{number}"\nkey = "{key}"\n'


def fetched(scene, number):
    """The requests to a cosigner, fetched by the link that stands there now."""
    return (scene.path / f"a/cosigners/{number}/request").resolve(strict=True)


def sign(scene, number):
    """What a cosigner does with the requests to it, and sends."""
    requests, place = fetched(scene, number), f"a/cosigners/{number}"
    scene.mtc("advance", f"c{number}/journal", requests / "consist")
    scene.mtc("cosign", f"c{number}/journal", requests / "subtree", into=f"{place}/signature")
    scene.file(f"{place}/signed", (requests / "subtree").read_bytes())
    scene.mtc("export", f"c{number}/journal", into=f"{place}/export")


def next_hour(scene, name, **env):
    scene.file(f"a/requests/{name}.request", request(f"{name}.example"))
    return hour(scene, **env)


def asked(scene, *numbers):
    """The size that each cosigner is asked for, and the one that is asked for."""
    sizes = [int((fetched(scene, number) / "size").read_text()) for number in numbers]
    return sizes, int((scene.path / "a/asked").read_text().split()[0])


def check_common_size(scene):
    """authority_hour asks all cosigners for one size, until each has signed or is late, and makes the certificates with signatures"""
    lacks("openssl", "flock")
    make_authority(scene)
    (scene.path / "a/cosigners/one").rmdir()
    tables = make_cosigner(scene, 2) + make_cosigner(scene, 3)
    scene.file("a/about/log", f'[log]\nid = "{LOG}"\n')
    scene.file("a/about/cosigners", tables)
    rule = '[[rule]]\ncosigners = ["32473.2", "32473.3"]\ncount = 2\n'
    scene.file("store", f'[log]\nid = "{LOG}"\n{tables}{rule}')
    names = iter("abcdefghijklmnopqrstuvwxyz")
    # The two come at different hours, and the log grows each hour.
    for day in range(2):
        yield from differ(f"{day}: an hour", next_hour(scene, next(names))[0], 0)
        size = asked(scene)[1]
        sign(scene, 2)
        yield from differ(f"{day}: the next one", next_hour(scene, next(names))[0], 0)
        yield from differ(f"{day}: asked for", asked(scene, 3), ([size], size))
        sign(scene, 3)
        status, out, err = next_hour(scene, next(names))
        yield from differ(f"{day}: signed", (status, f" {size}: 2 signatures\n".encode() in out), (0, True))
        for index in range(1, size):
            yield from differ(f"{day}: {index}", scene.mtc("verify", f"a/signed/{index}.cert", "store", IN_TIME), b"accepted %d\n" % index)
    yield from differ("their certificates", names_in(scene.path / "a/signed"), sorted(f"{index}.cert" for index in range(1, size)))
    yield from whole_requests(scene)
    yield from wrong_signatures(scene, next(names))
    yield from late_cosigner(scene, names)


def whole_requests(scene):
    """The requests for one size stand in one folder, which a link names, and the older names lead into it."""
    size = asked(scene)[1]
    place = scene.path / "a/cosigners/2"
    yield from differ("the link", os.readlink(place / "request"), f"requests/{size}")
    yield from differ("its folder", names_in(fetched(scene, 2)), ["checkpoint", "consist", "from", "size", "subtree"])
    yield from differ("its subtree", (place / "subtree").read_bytes(), scene.mtc("subtree", "a/log", 0, size, size))
    held = int((fetched(scene, 2) / "from").read_text())
    yield from differ("its consist", (place / "consist").read_bytes(), scene.mtc("consist", "a/log", held, size))
    commands = scene.file("commands", "")
    line = f'[[ "$1" != consist && "$1" != subtree ]] || echo "$1" >>{commands}'
    yield from differ("an hour with nothing new", (hour(scene, **stand_in(scene, line))[0], commands.read_text()), (0, ""))


def wrong_signatures(scene, name):
    """Signatures that are cut, another's, of another interval or changed count for nothing, and stop nobody."""
    sign(scene, 2)
    sign(scene, 3)
    place = scene.path / "a/cosigners/3"
    signature, signed = (place / "signature").read_bytes(), (place / "signed").read_bytes()
    before = names_in(scene.path / "a/signed")
    next_hour(scene, name)
    done = names_in(scene.path / "a/signed")
    yield from differ("good ones", len(done) > len(before), True)
    (scene.path / "a/signed.to").write_text(f"{len(before) + 1}\n")
    for index in range(len(before) + 1, len(done) + 1):
        (scene.path / f"a/signed/{index}.cert").unlink()
    changed = signature[:-1] + bytes([signature[-1] ^ 1])
    other = (scene.path / "a/cosigners/2/signature").read_bytes()
    for what, text, interval, said in (
            ("cut", signature[:-1], signed, "isn't one signature"), ("none", b"", signed, "isn't one signature"),
            ("two", signature * 2, signed, "isn't one signature"), ("large", bytes(70000), signed, "more than 65535 bytes"),
            ("changed", changed, signed, "doesn't count"), ("the other's", other, signed, "signed already"),
            ("no request", signature, b"x", "no request"), ("another request", signature, signed[:-1] + bytes([signed[-1] ^ 1]), "isn't the request")):
        (place / "signature").write_bytes(text)
        (place / "signed").write_bytes(interval)
        status, _, err = hour(scene)
        yield from differ(f"a signature, {what}", (status, said in err, names_in(scene.path / "a/signed")), (0, True, before))
    (place / "signature").write_bytes(signature)
    (place / "signed").write_bytes(signed)
    yield from differ("then", (hour(scene)[0], names_in(scene.path / "a/signed")), (0, done))


def late_cosigner(scene, names):
    """One that doesn't come is waited for a day and an hour, and then no more until it comes."""
    next_hour(scene, next(names))
    size = asked(scene)[1]
    sign(scene, 2)
    next_hour(scene, next(names))
    yield from differ("waits", asked(scene)[1], size)
    scene.file("a/asked", f"{size} {int(time.time()) - 90001}\n")
    scene.file("a/enough", "1\n")
    status, out, err = next_hour(scene, next(names))
    yield from differ("no longer", (status, "cosigners/3 hasn't come" in err, asked(scene)[1] > size), (0, True, True))
    yield from differ("one is enough", b": 1 signatures\n" in out, True)
    sign(scene, 2)
    size = asked(scene)[1]
    next_hour(scene, next(names))
    yield from differ("and not again", asked(scene)[1] > size, True)
    sign(scene, 3)
    size = asked(scene)[1]
    sign(scene, 2)
    next_hour(scene, next(names))
    size = asked(scene)[1]
    sign(scene, 2)
    next_hour(scene, next(names))
    yield from differ("but once it has come", asked(scene)[1], size)


CHECKS = [check_common_size]
