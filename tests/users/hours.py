"""The hour of an authority and the day of a cosigner, by tools/authority_hour.sh and tools/cosigner_day.sh."""

import os
import shutil

from .scene import DATES, IN_TIME, KEY, LOG, TOOLS, differ, lacks, refused

LATE = 'not_before = "2026-01-08T00:00:00Z"\nnot_after = "2026-01-01T00:00:00Z"\n'


def request(*names, dates=DATES):
    return f'{dates}dns = {list(names)}\nkey = "{KEY}"\n'.replace("'", '"')


def names_in(folder):
    return sorted(path.name for path in folder.iterdir())


def size_of(scene):
    return int(scene.mtc("checkpoint", "a/log").split()[1])


def stand_in(scene, line):
    """The program, after this line."""
    path = scene.file("stand_in", f'#!/bin/bash\n{line}\nexec "{scene.program}" "$@"\n')
    path.chmod(0o755)
    return {"MTC": str(path)}


def hour(scene, **env):
    return scene.tool("authority_hour.sh", "a", env=env)


def make_authority(scene):
    (scene.path / "a/requests").mkdir(parents=True)
    (scene.path / "a/cosigners/one").mkdir(parents=True)
    scene.mtc("init-log", "a/log", LOG, 4, 64)
    scene.tool("publish.py", "key", "log.example/1", "a/note.key")


def check_authority_hour(scene):
    """authority_hour issues what waits by lists, once over each stop, sends back what `issue` refuses, and publishes"""
    lacks("openssl", "flock")
    make_authority(scene)
    folder = scene.path / "a"
    texts = (request("a.example"), "not_before = 1\n", request("b.example"), " " * 65537)
    for number, text in enumerate(texts, 1):
        scene.file(f"a/requests/{number}.request", text)
    os.symlink("../log", folder / "requests/5.request")
    (folder / "requests/6.request").mkdir()
    os.mkfifo(folder / "requests/7.request")
    scene.file("a/requests/8.request", request("c.example", dates=LATE))
    scene.file("a/requests/a b.request", request("c.example"))
    given = f'[[ "$1" != issue* && "$1" != light-cert* ]] || echo "$1" >>{scene.path}/commands'
    status, out, err = hour(scene, **stand_in(scene, given))
    yield from differ("an hour", (status, out), (0, b"landmark 1 3\npublished 3: 2 files\n"))
    yield from differ("what it says", err.count("\n"), 2)
    yield from differ("of its landmarks", "MAXACTIVE is 4, and a certificate lives for 168 hours" in err, True)
    commands = (scene.path / "commands").read_text().split()
    # Twice the list is only read: the second time it is in its form.
    yield from differ("by", commands, ["issue-list", "issue-list", "issue-list", "light-certs"])
    yield from differ("what waits", names_in(folder / "requests"), ["a b.request"])
    yield from differ("issued", (names_in(folder / "issued"), names_in(folder / "certified")), ([], ["1.request", "2.request"]))
    yield from differ("the second", (folder / "certified/2.request").read_text(), request("b.example"))
    sent_back = sorted(f"{number}.{end}" for number in (2, 4, 5, 6, 7, 8) for end in ("request", "why"))
    yield from differ("sent back", names_in(folder / "refused"), sent_back)
    for number, why in ((2, "request_list: not_before is no text\n"), (8, "mtc: issue-list: begun/list: DatesReversed\n")):
        yield from differ("why", (folder / f"refused/{number}.why").read_text(), why)
    yield from differ("certificates", names_in(folder / "certs"), ["1.cert", "2.cert"])
    for index in (1, 2):
        found = (folder / f"certs/{index}.cert").read_bytes()
        yield from differ(f"that of {index}", found, scene.mtc("light-cert", "a/log", index))
    yield from differ("public", names_in(folder / "public"), ["about", "checkpoint", "entries", "landmarks", "steps", "tile"])
    yield from differ("its entries", (folder / "public/entries").read_bytes(), scene.mtc("entries", "a/log", 3))
    yield from differ("to a cosigner", (folder / "cosigners/one/subtree").read_bytes(), scene.mtc("subtree", "a/log", 0, 3, 3))
    before = (folder / "log").read_bytes()
    yield from differ("again", hour(scene)[:2], (0, b""))
    yield from differ("its log", (folder / "log").read_bytes(), before)
    yield from large_lists(scene, folder)
    yield from wrong_stops(scene, folder)


def large_lists(scene, folder):
    """More requests than one record holds: of these it holds five."""
    names = [f"{number:03}{'.x' * 120}" for number in range(99)]
    wanted = [request(f"n{number}.example", *names) for number in range(8)]
    for number, text in enumerate(wanted):
        scene.file(f"a/requests/{number}.request", text)
    commands = scene.file("commands", "")
    given = f'[[ "$1" != issue* ]] || echo "$1" >>{commands}'
    yield from differ("large ones", (hour(scene, **stand_in(scene, given))[0], size_of(scene)), (0, 11))
    # Each list is read once before the log is opened, and the first one has to be given again.
    yield from differ("by", commands.read_text().split(), ["issue-list"] * 5)
    found = [(folder / f"certified/{index}.request").read_text() for index in range(3, 11)]
    yield from differ("each", found, wanted)


def wrong_stops(scene, folder):
    """Stops before and after a record, and an entry of which the script knows nothing."""
    issued = f'"{scene.program}" "$@" >/dev/null'
    for what, line, grown, is_wrong in (
            ("before the record", "exit 5", 0, True), ("after it", f"{issued}; exit 6", 1, True),
            ("by a signal after it", f"{issued}; kill -9 $$", 1, False), ("by a signal to all", f"{issued}; kill -9 0", 1, True)):
        for several in (1, 3):
            stop = f'[[ "$1" != issue* || "$2" != log ]] || {{ {line}; }}'
            yield from wrong_stop(scene, folder, f"{what}, of {several}", stop, grown * several, several, is_wrong)
    yield from wrong_disks(scene, folder)
    scene.file("a/begun/given", f"{size_of(scene) - 2}\nx.request\n")
    scene.file("a/begun/x.request", request("x.example"))
    yield from refused("entries of others", hour(scene), 20, "x.request were given to the log at")
    shutil.rmtree(folder / "begun")
    yield from differ("none of it", (hour(scene)[0], (folder / "begun").exists()), (0, False))
    scene.file("a/begun", "2 x.request\n")
    yield from refused("of an earlier version", hour(scene), 20, "earlier version")
    (folder / "begun").unlink()
    yield from refused("no folder", scene.tool("authority_hour.sh", "b"), 64, "FOLDER")
    (folder / "log").rename(folder / "gone")
    scene.file("a/log", "no journal")
    yield from refused("no journal", hour(scene), 2, "NotJournal")


def wrong_stop(scene, folder, what, line, grown, several, is_wrong):
    """The program ends so where it would issue so many requests: this run or the next one ends what was begun."""
    size = size_of(scene)
    wanted = [request(f"x{number}.example") for number in range(several)]
    for number, text in enumerate(wanted):
        scene.file(f"a/requests/x{number}.request", text)
    ended = scene.tool("authority_hour.sh", "a", env=stand_in(scene, line), start_new_session=True)
    yield from differ(f"{what}: ended", ended[0] != 0, is_wrong)
    yield from differ(f"{what}: the log", size_of(scene), size + grown)
    yield from differ(f"{what}: then", hour(scene)[0], 0)
    yield from differ(f"{what}: the log then", size_of(scene), size + several)
    issued = [(folder / f"certified/{size + number}.request").read_text() for number in range(several)]
    yield from differ(f"{what}: issued", issued, wanted)
    has = [(folder / f"certs/{size + number}.cert").is_file() for number in range(several)]
    yield from differ(f"{what}: their certificates", has, [True] * several)
    yield from differ(f"{what}: what waits", names_in(folder / "requests"), ["a b.request"])
    yield from differ(f"{what}: what is begun", [path.name for path in folder.glob("begun*")], [])


def failing(scene, tool, word):
    """A path on which a tool fails where an argument has this word."""
    stand_in = scene.file(f"bin_{tool}/{tool}", f'#!/bin/bash\n[[ "$*" != *{word}* ]] || exit 1\nexec {shutil.which(tool)} "$@"\n')
    stand_in.chmod(0o755)
    return {"PATH": f"{stand_in.parent}:{os.environ['PATH']}"}


def killing(scene, place, after, real):
    """A path on which the command with this number, counted over all, is the last one that runs, or the last that doesn't. Each command
    takes the first number that is free, also where several begin at once."""
    folder, counted = scene.path / "bin_kill", scene.path / "counted"
    folder.mkdir(exist_ok=True)
    shutil.rmtree(counted, ignore_errors=True)
    counted.mkdir()
    for tool in real:
        target = scene.program if tool == "mtc" else shutil.which(tool)
        run = f'"{target}" "$@"; ' if after else ""
        text = (f'#!/bin/bash\nset -C\nn=0\nuntil {{ : >"{counted}/$n"; }} 2>/dev/null; do n=$((n + 1)); done\nset +C\n'
                f'[ "$n" -ne {place} ] || {{ {run}kill -9 0; }}\nexec "{target}" "$@"\n')
        (folder / tool).write_text(text)
        (folder / tool).chmod(0o755)
    return {"PATH": f"{folder}:{os.environ['PATH']}", "MTC": str(folder / "mtc")}


def wrong_disks(scene, folder):
    """A disk that fails after a record, and before one; a name that is used again meanwhile; certificates that can't be made."""
    size = size_of(scene)
    first, second = request("x.example"), request("y.example")
    for name, text in (("x", first), ("y", second)):
        scene.file(f"a/requests/{name}.request", text)
    place = folder / f"issued/{size + 1}.request"
    place.mkdir()
    for number in range(2):
        # The second one's place is missed, and then the first one's is there.
        yield from differ(f"no place {number}", hour(scene)[0], 5)
        yield from differ(f"no place {number}: the log", size_of(scene), size + 2)
    place.rmdir()
    scene.file("a/requests/y.request", first)
    yield from differ("a name used again", (hour(scene)[0], size_of(scene)), (0, size + 3))
    issued = [(folder / f"certified/{size + number}.request").read_text() for number in range(3)]
    yield from differ("all requests", issued, [first, second, first])
    scene.file("a/requests/x.request", first)
    yield from differ("no sync", (hour(scene, **failing(scene, "sync", "begun"))[0], size_of(scene)), (1, size + 3))
    scene.file("a/requests/y.request", second)
    line = 'if [[ "$1" = light-cert* ]]; then exit 5; fi'
    yield from differ("no certificate", (hour(scene, **stand_in(scene, line))[0], size_of(scene)), (5, size + 5))
    yield from differ("nothing half", [path.name for path in folder.rglob("*.new")], [])
    has = lambda: [(folder / f"certs/{size + number}.cert").is_file() for number in (3, 4)]
    yield from differ("then", (hour(scene)[0], has(), names_in(folder / "issued")), (0, [True, True], []))



def day(scene, folder="c", kept="kept", *options, **env):
    """A day, without the warning that both files are on one disk, as they are here."""
    status, out, err = scene.tool("cosigner_day.sh", *options, folder, kept, env=env)
    return status, out, "".join(line for line in err.splitlines(True) if not line.startswith("guarded_cosign: warning: "))


def fetch(scene):
    """What an authority wrote to a cosigner, and what the cosigner publishes, is carried by someone else."""
    for name in ("consist", "subtree"):
        scene.file(f"c/{name}", (scene.path / f"a/cosigners/one/{name}").read_bytes())


def check_cosigner_day(scene):
    """cosigner_day signs each request once, continues where the log has grown, and stops at a fork; its signature counts"""
    lacks("openssl", "flock")
    make_authority(scene)
    scene.file("a/requests/1.request", request("a.example"))
    hour(scene)
    scene.file("secret", b"s" * 48)
    (scene.path / "c").mkdir()
    key = scene.mtc("init-cosigner", "c/journal", "32473.2", LOG, 5, 1, "secret").decode().strip()
    scene.run(TOOLS / "guarded_cosign.sh", "begin", "c/journal", "kept")
    fetch(scene)
    yield from differ("a day", day(scene), (0, b"advanced 2\n", ""))
    scene.mtc("cert", "a/log", 1, 0, 2, "c/signature", into="cert")
    rule = f'[[cosigner]]\nid = "32473.2"\nkey = "{key}"\n[[rule]]\ncosigners = ["32473.2"]\ncount = 1\n'
    scene.file("store", f'[log]\nid = "{LOG}"\n{rule}')
    yield from differ("its certificate", scene.mtc("verify", "cert", "store", IN_TIME), b"accepted 1\n")
    journal, signature = ((scene.path / f"c/{name}").read_bytes() for name in ("journal", "signature"))
    yield from differ("again", day(scene), (0, b"", ""))
    yield from differ("its journal", (scene.path / "c/journal").read_bytes(), journal)
    yield from differ("its signature", (scene.path / "c/signature").read_bytes(), signature)
    # The authority learns from the export what the cosigner holds.
    scene.file("a/cosigners/one/export", (scene.path / "c/export").read_bytes())
    scene.file("a/requests/2.request", request("b.example"))
    hour(scene)
    fetch(scene)
    yield from differ("the next day", day(scene), (0, b"advanced 3\n", ""))
    yield from differ("its export", b"size 3\n" in scene.mtc("held", "c/export"), True)
    scene.file("other", b"t" * 48)
    (scene.path / "d").mkdir()
    scene.mtc("init-cosigner2", "d/journal", "32473.3", LOG, 5, 5, 1, "other")
    scene.run(TOOLS / "guarded_cosign.sh", "begin", "d/journal", "kept_of_two")
    scene.mtc("consist", "a/log", 0, 3, into="d/consist")
    scene.mtc("subtree", "a/log", 0, 2, 3, into="d/subtree")
    yield from differ("a key of two levels", day(scene, "d", "kept_of_two", "--any-subtree"), (0, b"advanced 3\n", ""))
    yield from differ("its signature is its first", b"signs 1\n" in scene.mtc("held", "d/export"), True)
    scene.mtc("init-log", "fork", LOG, 4, 64)
    for name in ("c.example", "d.example", "e.example"):
        scene.file("r", request(name))
        scene.mtc("issue", "fork", "r")
    scene.mtc("consist", "fork", 3, 4, into="c/consist")
    scene.mtc("subtree", "fork", 0, 4, 4, into="c/subtree")
    journal = (scene.path / "c/journal").read_bytes()
    yield from refused("a fork", day(scene), 4, "BadProof")
    yield from differ("the journal then", (scene.path / "c/journal").read_bytes(), journal)
    yield from refused("no folder", scene.tool("cosigner_day.sh", "none", "kept"), 64, "FOLDER")
