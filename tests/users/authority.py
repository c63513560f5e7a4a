"""What an authority's hour does with hostile requests and exports, with a log that is full, and with many certificates, by
tools/authority_hour.sh."""

import base64
import os
import sys
import time

from .hours import LATE, hour, make_authority, names_in, request, size_of, stand_in
from .scene import LOG, TOOLS, differ, lacks

NESTED = "dns = " + "[" * 501
DOTTED = ".".join("a" * 32003) + " = 1\n"
# What would take a reader memory or time with the square of its bytes, or more, and what is said of it.
HOSTILE = [
    (NESTED, "it has values in each other"), (DOTTED, "it has dotted keys"), ("a = " + "{a=" * 20000, "it has values in each other"),
    ("dns = {" + DOTTED[:60000] + "= 1}\n", "it has dotted keys"), ('dns = ["""a"""", {' + DOTTED[:60000] + "= 1}]\n", "it has dotted keys"),
    ('\\"""\n' * 13000, "it is no TOML"), ('"""' + '\\"' * 32000, "it is no TOML"), ("'''x" * 16000, "it is no TOML"),
]


def check_hostile_lists(scene):
    """request_list refuses what would take a reader much memory or time, names each file that it refuses in one run, and needs no
    more memory than it says"""
    for number, (text, _) in enumerate(HOSTILE):
        scene.file(f"{number}.request", text)
    scene.file("good", "\ufeff" + request("a.example"))
    names = [f"{number}.request" for number in range(len(HOSTILE))]
    began = time.monotonic()
    status, out, err = scene.tool("request_list.py", "--skip", names[0], "good", *names[1:])
    yield from differ("its seconds", time.monotonic() - began < 60, True)
    wanted = [f"request_list: {name}: {why}" for name, (_, why) in zip(names, HOSTILE)]
    yield from differ("each file", (status, err.splitlines()), (2, wanted))
    yield from differ("the good one", out.decode(), "[[request]]\n" + request("a.example"))
    yield from differ("without --skip", scene.tool("request_list.py", "good", *names), (2, b"", err))
    yield from differ("none that is good", scene.tool("request_list.py", "--skip", "--out", "list", *names)[:2], (2, b""))
    yield from differ("its list", (scene.path / "list").exists(), False)
    os.mkfifo(scene.path / "pipe")
    os.symlink("good", scene.path / "link")
    for name in ("none", "pipe", "link", "."):
        status, out, err = scene.tool("request_list.py", "--skip", "good", name)
        yield from differ(f"no plain file, {name}", (status, out != b"", err.startswith(f"request_list: {name}: it can't be read")), (2, True, True))
    # A reader that takes memory without a bound is ended by its own.
    python = 'import resource, runpy, sys\nlist = runpy.run_path(sys.argv[1])\nlist["bound_memory"]()\nbytearray(1 << 30)\n'
    ended = scene.ended("python3", "-c", python, TOOLS / "request_list.py")
    yield from differ("more memory", (ended[0], "MemoryError" in ended[2]), (1, True))


def check_hostile_hour(scene):
    """authority_hour issues what is good beside hostile requests, sends these back, and goes on where request_list fails"""
    lacks("openssl", "flock")
    make_authority(scene)
    folder = scene.path / "a"
    for number, (text, _) in enumerate(HOSTILE):
        scene.file(f"a/requests/b{number}.request", text)
    for number in range(40):
        scene.file(f"a/requests/late{number}.request", request("c.example", dates=LATE))
        scene.file(f"a/requests/odd{number}.request", "not_before = 1\n")
    for name in ("a", "z"):
        scene.file(f"a/requests/{name}.request", request(f"{name}.example"))
    scene.file("a/requests/.x.request", request("x.example"))
    began = time.monotonic()
    status, out, err = hour(scene)
    scene.notes.append(f"88 bad requests: {time.monotonic() - began:.0f} s")
    yield from differ("an hour", (status, size_of(scene), names_in(folder / "certs")), (0, 3, ["1.cert", "2.cert"]))
    yield from differ("what is said", "begins with a dot" in err, True)
    yield from differ("what waits", (names_in(folder / "requests"), (folder / "begun").exists()), ([".x.request"], False))
    yield from differ("sent back", len(names_in(folder / "refused")), 2 * (80 + len(HOSTILE)))
    for number, (_, why) in enumerate(HOSTILE):
        yield from differ(f"why {number}", (folder / f"refused/b{number}.why").read_text(), f"request_list: {why}\n")
    yield from net(scene, folder)


def net(scene, folder):
    """Where request_list.py ends otherwise, and where `issue` is ended by a signal, no request stops the others."""
    for what, line, said in (("a reader that is killed", 'kill -9 "$$"', "status 137"), ("one that fails", "exit 1", "status 1")):
        size = size_of(scene)
        for name in ("a", "b", "c"):
            scene.file(f"a/requests/{name}.request", request(f"{name}.example"))
        scene.file("a/requests/bad.request", NESTED)
        python = scene.file("bin/python3", f'#!/bin/bash\n[[ "$*" != *request_list* ]] || {line}\nexec /usr/bin/env -S PATH="{os.environ["PATH"]}" python3 "$@"\n')
        python.chmod(0o755)
        status, _, err = hour(scene, PATH=f"{python.parent}:{os.environ['PATH']}")
        yield from differ(what, (status, size_of(scene), said in err), (0, size + 3, True))
        yield from differ(f"{what}: sent back", (folder / "refused/bad.why").read_text(), "mtc: issue: begun/bad.request: NotToml\n")
        (folder / "refused/bad.request").unlink()
    size = size_of(scene)
    for name in ("a", "killer", "z"):
        scene.file(f"a/requests/{name}.request", request(f"{name}.example"))
    line = '[[ "$1" != issue* || "$2" != log ]] || ! grep -q killer.example "$3" || kill -9 $$'
    yield from differ("issue is killed", (hour(scene, **stand_in(scene, line))[0], size_of(scene)), (0, size + 2))
    yield from differ("by that one", "status 137" in (folder / "refused/killer.why").read_text(), True)
    yield from long_issuing(scene, folder)


def long_issuing(scene, folder):
    """Issuing that takes too long leaves the rest to the next run, and all that was issued gets its certificate."""
    size = size_of(scene)
    for name in ("a", "b"):
        scene.file(f"a/requests/{name}.request", request(f"{name}.example"))
    status, _, err = hour(scene, ISSUING="0")
    yield from differ("no time", (status, size_of(scene), "2 requests wait" in err), (0, size, True))
    yield from differ("then", (hour(scene)[0], size_of(scene), names_in(folder / "issued")), (0, size + 2, []))


def check_bad_exports(scene):
    """authority_hour publishes, and asks all other cosigners, whatever one cosigner sends as its export"""
    lacks("openssl", "flock")
    make_authority(scene)
    folder = scene.path / "a"
    (folder / "cosigners/one").rmdir()
    exports = {"cut": b"junk", "folder": None, "large": b"", "link": b""}
    for name, text in exports.items():
        place = folder / f"cosigners/{name}/export"
        place.parent.mkdir()
        if text is None:
            place.mkdir()
        elif name == "link":
            place.symlink_to("/dev/zero")
        else:
            place.write_bytes(text)
    os.truncate(folder / "cosigners/large/export", 5 << 30)
    (folder / "cosigners/zz").mkdir()
    scene.file("a/requests/1.request", request("a.example"))
    status, out, err = hour(scene)
    yield from differ("an hour", (status, out), (0, b"landmark 1 2\npublished 2: 2 files\n"))
    yield from differ("each is said", [f"cosigners/{name}/export" in err for name in exports], [True] * len(exports))
    yield from differ("the other one", (folder / "cosigners/zz/request/size").read_text(), "2\n")
    yield from differ("its request", (folder / "cosigners/zz/consist").read_bytes(), scene.mtc("consist", "a/log", 0, 2))
    yield from differ("these", [names_in(folder / f"cosigners/{name}") for name in exports], [["export"]] * len(exports))


def check_full_log(scene):
    """authority_hour gives a log that is full its last landmark, certificates and publication, and ends with status 9 after that"""
    lacks("openssl", "flock")
    folder = scene.path / "a"
    for name in ("requests", "cosigners/one"):
        (folder / name).mkdir(parents=True)
    scene.mtc("init-log", "a/log", LOG, 168, 6)
    scene.tool("publish.py", "key", "log.example/1", "a/note.key")
    for name in ("a", "b", "c"):
        scene.file(f"a/requests/{name}.request", request(f"{name}.example"))
    yield from differ("an hour", (hour(scene)[0], size_of(scene)), (0, 4))
    for name in "defgh":
        scene.file(f"a/requests/{name}.request", request(f"{name}.example"))
    status, out, err = hour(scene)
    yield from differ("the last one", (status, size_of(scene), out), (9, 6, b"landmark 2 6\npublished 6: 2 files\n"))
    yield from differ("what is said", "3 requests wait in requests" in err, True)
    yield from differ("certificates", names_in(folder / "certs"), [f"{index}.cert" for index in range(1, 6)])
    yield from differ("what waits", names_in(folder / "requests"), ["f.request", "g.request", "h.request"])
    yield from differ("entries", (folder / "public/entries").read_bytes(), scene.mtc("entries", "a/log", 6))
    yield from differ("the landmarks", (folder / "public/landmarks").read_bytes(), scene.mtc("landmarks", "a/log"))
    yield from differ("asked for", (folder / "cosigners/one/request/size").read_text(), "4\n")
    commands = scene.file("commands", "")
    given = f'echo "$1 $2" >>{commands}'
    yield from differ("again", hour(scene, **stand_in(scene, given))[:2], (9, b""))
    yield from differ("by", commands.read_text().splitlines(), ["checkpoint log"])
    # A journal that is nearly full has room for a landmark still.
    scene.mtc("init-log", "other", LOG, 168, 64)
    (folder / "log").unlink()
    for name in ("published", "landmarks", "asked", "public/steps/list"):
        (folder / name).unlink()
    (scene.path / "other").rename(folder / "log")
    line = '[ "$*" != "-Lc %s log" ] || { echo 8589000000; exit; }'
    stat = scene.file("bin_stat/stat", f'#!/bin/bash\n{line}\nexec /usr/bin/stat "$@"\n')
    stat.chmod(0o755)
    status, out, err = hour(scene, PATH=f"{stat.parent}:{os.environ['PATH']}")
    yield from differ("a full journal", (status, size_of(scene), "3 requests wait" in err), (9, 1, True))


# A program that answers at once for a log of any size, which the file `size` has: so the scripts alone are tried.
ANSWERS = """#!{python} -S
import pathlib, sys
command, size = sys.argv[1], int(pathlib.Path("size").read_text())
with open("commands", "a") as file:
    print(command, file=file)
if command == "checkpoint":
    print(f"size {{size}}\\nroot {{'0' * 64}}")
elif command == "issue":
    print(f"issued {{size}}")
    pathlib.Path("size").write_text(f"{{size + 1}}")
elif command == "landmarks":
    print(f"1 1\\n{{size}}\\n0")
elif command == "light-certs":
    first, last = map(int, sys.argv[3:])
    print("".join(f"-----BEGIN CERTIFICATE-----\\n{{index:08}}\\n-----END CERTIFICATE-----\\n" for index in range(first, last)), end="")
elif command == "entries-from":
    print("x" * (int(sys.argv[4]) - int(sys.argv[3])), end="")
"""


def check_many_certificates(scene):
    """authority_hour certifies more entries than one command line names, and an hour costs what is new, by a program that answers at
    once"""
    lacks("flock")
    many, folder = 75_000, scene.path / "a"
    (folder / "issued").mkdir(parents=True)
    scene.mtc("init-log", "a/log", LOG, 168, 1 << 20)
    program = scene.file("answers", ANSWERS.format(python=sys.executable))
    program.chmod(0o755)
    (folder / "size").write_text(str(many + 1))
    for index in range(1, many + 1):
        (folder / f"issued/{index}.request").touch()

    def commands_of(what):
        began = time.monotonic()
        (folder / "commands").write_text("")
        status, _, err = hour(scene, MTC=str(program))
        scene.notes.append(f"{what}: {time.monotonic() - began:.1f} s")
        return (status, err), (folder / "commands").read_text().split()

    ended, commands = commands_of(f"{many:,} certificates")
    wanted = ["checkpoint", "landmark", "landmarks", *["light-certs"] * 8, "tile", "entries-from", "consist"]
    yield from differ("an hour", (ended, commands), ((0, ""), wanted))
    yield from differ("certificates", len(list((folder / "certs").iterdir())), many)
    yield from differ("their requests", (names_in(folder / "issued"), len(list((folder / "certified").iterdir()))), ([], many))
    for index in (1, 10_000, 10_001, many):
        yield from differ(f"that of {index}", (folder / f"certs/{index}.cert").read_bytes(), base64.b64decode(f"{index:08}"))
    yield from differ("nothing new", commands_of("nothing new"), ((0, ""), ["checkpoint"]))
    scene.file("a/requests/x.request", request("x.example"))
    wanted = ["checkpoint", "issue", "landmark", "landmarks", "light-certs", "entries-from", "consist"]
    yield from differ("one new entry", commands_of("one new entry"), ((0, ""), wanted))
    yield from differ("published", (folder / "public/entries").stat().st_size, many + 2)


def check_uncovered(scene):
    """authority_hour asks no more for the light certificate of an entry that no active landmark covers, also if certificates are moved
    away"""
    lacks("flock")
    folder = scene.path / "a"
    (folder / "requests").mkdir(parents=True)
    scene.mtc("init-log", "a/log", LOG, 1, 64)
    for name in ("a", "b"):
        scene.file(f"a/requests/{name}.request", request(f"{name}.example"))
    # As after a standstill: what is issued gets no certificate before the landmark leaves it.
    status, _, err = hour(scene, **stand_in(scene, "[ \"$1\" != light-certs ] || exit 8"))
    yield from differ("memory is refused", (status, names_in(folder / "issued")), (8, ["1.request", "2.request"]))
    for name in ("c", "d"):
        scene.file(f"a/requests/{name}.request", request(f"{name}.example"))
    status, _, err = hour(scene)
    yield from differ("the next hour", (status, names_in(folder / "uncovered"), names_in(folder / "certs")),
                      (0, ["1.request", "1.why", "2.request", "2.why"], ["3.cert", "4.cert"]))
    yield from differ("what is said", "2 without a light certificate, from 1 on" in err, True)
    for index in (3, 4):
        (folder / f"certs/{index}.cert").unlink()
    commands = scene.file("commands", "")
    yield from differ("and the next", hour(scene, **stand_in(scene, f'echo "$1" >>{commands}'))[0], 0)
    yield from differ("by", commands.read_text().split(), ["checkpoint"])
    yield from one_refused(scene, folder)


def one_refused(scene, folder):
    """One index for which the program has no certificate is set aside, and all others get theirs."""
    size = size_of(scene)
    for name in "efgh":
        scene.file(f"a/requests/{name}.request", request(f"{name}.example"))
    line = f'if [[ "$1" = light-certs && "$3" -le {size + 2} && "$4" -gt {size + 2} ]]; then echo "mtc: light-certs: TooLarge {size + 2}" >&2; exit 9; fi'
    status, _, err = hour(scene, **stand_in(scene, line))
    yield from differ("one that is refused", (status, (folder / f"uncovered/{size + 2}.request").exists()), (0, True))
    yield from differ("the others", [(folder / f"certs/{size + number}.cert").exists() for number in range(4)], [True, True, False, True])


CHECKS = [check_hostile_lists, check_hostile_hour, check_bad_exports, check_full_log, check_many_certificates, check_uncovered]
