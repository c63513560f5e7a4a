"""What relying parties and monitors make of the folder that an authority publishes, and the day of a monitor, by tools/authority_hour.sh,
tools/monitor_day.sh and tools/first_entries.py."""

import os
import shutil
import subprocess

from .hours import hour, killing, make_authority, names_in, request, size_of, stand_in
from .scene import IN_TIME, LOG, TOOLS, differ, lacks, refused


def published(scene, hours=3):
    """An authority that has published for some hours; each entry has a name under b.example."""
    make_authority(scene)
    scene.file("a/about/log", f'[log]\nid = "{LOG}"\n')
    scene.file("a/about/revoked", "[[revoked]]\nstart = 2\nend = 3\n")
    for number in range(hours):
        for name in ("x", "y"):
            scene.file(f"a/requests/{name}.request", request(f"{name}{number}.b.example", "a.example"))
        status, _, err = hour(scene)
        if status:
            raise RuntimeError(err)
    return scene.path / "a/public"


def check_public(scene):
    """a relying party has all that it needs in the folder that authority_hour publishes: certificates are accepted, and revoked ones
    refused"""
    lacks("openssl", "flock")
    public = published(scene)
    names = ["about", "checkpoint", "entries", "landmarks", "steps", "tile"]
    yield from differ("public", names_in(public), names)
    yield from differ("about", names_in(public / "about"), ["log", "maxactive", "revoked"])
    yield from differ("MAXACTIVE", (public / "about/maxactive").read_text(), "4\n")
    tables = scene.mtc("trust-landmarks", public / "landmarks", 4, public / "entries")
    scene.file("store", b"".join([(public / "about/log").read_bytes(), tables, (public / "about/revoked").read_bytes()]))
    for index, line in ((1, b"accepted 1\n"), (2, b"refused Revoked\n"), (6, b"accepted 6\n")):
        yield from differ(f"{index}", scene.ended(scene.program, "verify", f"a/certs/{index}.cert", "store", IN_TIME)[1], line)
    wanted = ["0-3", "3-5", "5-7"]
    yield from differ("steps", (public / "steps/list").read_text().split(), wanted)
    for step in wanted:
        first, last = step.split("-")
        found = [(public / f"steps/{step}.{kind}").read_bytes() for kind in ("consist", "entries")]
        same = [scene.mtc("consist", "a/log", first, last), scene.mtc("entries-from", "a/log", first, last)]
        yield from differ(f"step {step}", found, same)
    scene.file("a/about/revoked", "")
    (scene.path / "a/about/log").unlink()
    hour(scene)
    yield from differ("about, changed", [(path.name, path.read_bytes()) for path in sorted((public / "about").iterdir())],
                      [("maxactive", b"4\n"), ("revoked", b"")])
    yield from stopped_publication(scene, public)
    yield from old_log(scene)


def stopped_publication(scene, public):
    """A stop between the parts of a publication: the next run leaves what one run would have left."""
    for number, (what, line) in enumerate((
            ("the entries of a step", '[ "$1" != entries-from ] || exit 5'), ("its proof", '[ "$1" != consist ] || exit 5'),
            ("all that follows", '[ "$1" != consist ] || kill -9 0'))):
        size = size_of(scene)
        scene.file("a/requests/z.request", request(f"z{number}.example"))
        ended = scene.tool("authority_hour.sh", "a", env=stand_in(scene, line), start_new_session=True)
        yield from differ(f"{what}: a stop", ended[0] != 0, True)
        scene.file("a/requests/z.request", request(f"zz{number}.example"))
        yield from differ(f"{what}: then", hour(scene)[0], 0)
        yield from differ(f"{what}: the step", (public / "steps/list").read_text().split()[-1], f"{size}-{size + 2}")
        yield from differ(f"{what}: entries", (public / "entries").read_bytes(), scene.mtc("entries", "a/log", size + 2))
    # A list of steps that is ahead of what the script noted, as a stop between the two leaves it.
    size = size_of(scene)
    scene.file("a/published", "0 0\n")
    scene.file("a/requests/z.request", request("last.example"))
    yield from differ("a note that is behind", hour(scene)[0], 0)
    yield from differ("its step", (public / "steps/list").read_text().split()[-1], f"{size}-{size + 1}")
    yield from differ("its entries", (public / "entries").read_bytes(), scene.mtc("entries", "a/log", size + 1))
    names = names_in(public / "steps")
    listed = (public / "steps/list").read_text().split()
    yield from differ("no step beside those", names, sorted([f"{step}.{kind}" for step in listed for kind in ("consist", "entries")] + ["list"]))


def old_log(scene):
    """An old copy of the log that was put back issues nothing."""
    shutil.copy(scene.path / "a/log", scene.path / "old")
    scene.file("a/requests/n.request", request("n.example"))
    hour(scene)
    size = size_of(scene)
    shutil.copy(scene.path / "old", scene.path / "a/log")
    scene.file("a/requests/o.request", request("o.example"))
    yield from refused("an old log", hour(scene), 21, f"the log has {size - 1} entries, and {size} were published")
    yield from differ("its size", size_of(scene), size - 1)
    yield from differ("what waits", names_in(scene.path / "a/requests"), ["o.request"])


def make_monitor(scene, folder="m"):
    (scene.path / folder).mkdir()
    scene.mtc("monitor-init", LOG, into=f"{folder}/state")
    scene.file(f"{folder}/watch", "b.example\n")
    os.symlink("../a/public/steps", scene.path / folder / "steps")


def day(scene, folder="m", **env):
    return scene.tool("monitor_day.sh", folder, env=env)


def check_monitor_day(scene):
    """monitor_day goes along all steps that are published, from its state on, and a match is reported before the state moves"""
    lacks("openssl", "flock")
    published(scene)
    make_monitor(scene)
    matches = "".join(f"match {2 * number + place} {name}{number}.b.example\n" for number in range(3) for place, name in ((1, "x"), (2, "y")))
    yield from differ("three days that were missed", day(scene), (0, matches.encode(), ""))
    scene.mtc("monitor-init", LOG, into="state")
    scene.mtc("consist", "a/log", 0, 7, into="request")
    whole = scene.mtc("monitor", "state", "m/watch", "request", "a/public/entries").splitlines(keepends=True)
    state = (scene.path / "m/state").read_bytes()
    yield from differ("the state of one step", state, whole[-1])
    yield from differ("a day with nothing new", (day(scene), (scene.path / "m/state").read_bytes()), ((0, b"", ""), state))
    yield from differ("reports", names_in(scene.path / "m/reports"), ["0-3", "3-5", "5-7"])
    yield from hooks(scene, matches)
    yield from stops(scene, matches, state)
    yield from wrong_steps(scene)


def hooks(scene, matches):
    """A hook that fails keeps the state where it is; the next run reports once more, and goes on once the hook takes it."""
    make_monitor(scene, "h")
    hook = scene.file("h/hook", '#!/bin/bash\ncat -- "$1" >>taken\n[ ! -e full ] || exit 1\n')
    hook.chmod(0o755)
    scene.file("h/full", "")
    before = (scene.path / "h/state").read_bytes()
    for _ in range(2):
        yield from refused("a hook that fails", day(scene, "h"), 20, "reports/0-3 isn't reported")
        yield from differ("its state", (scene.path / "h/state").read_bytes(), before)
    (scene.path / "h/full").unlink()
    yield from differ("then", day(scene, "h"), (0, b"", ""))
    first = "".join(matches.splitlines(keepends=True)[:2])
    yield from differ("what it took", (scene.path / "h/taken").read_text(), first * 2 + matches)
    make_monitor(scene, "f")
    with open("/dev/full", "wb") as full:
        ended = subprocess.run([TOOLS / "monitor_day.sh", "f"], cwd=scene.path, stdout=full, stderr=subprocess.DEVNULL,
                               env={**os.environ, "MTC": str(scene.program)})
    yield from differ("a full output", (ended.returncode, (scene.path / "f/state").read_bytes()), (20, before))


def stops(scene, matches, state):
    """A kill at each command of a day: all matches are reported, some of them twice, and the state is the same."""
    tools = ("mtc", "sync", "mv", "rm", "tail", "cat", "awk")
    for after in (False, True):
        make_monitor(scene, "s")
        found, place = "", 0
        while place < 200:
            env = killing(scene, place, after, tools)
            status, out, _ = scene.tool("monitor_day.sh", "s", env=env, start_new_session=True)
            found += out.decode()
            if status == 0:
                break
            place += 3
        yield from differ(f"stops, {after}", (status, (scene.path / "s/state").read_bytes()), (0, state))
        lines = [line for line in matches.splitlines() if line not in found.splitlines()]
        yield from differ(f"stops, {after}: what isn't reported", lines, [])
        yield from differ(f"stops, {after}: there were some", place > 6, True)
        shutil.rmtree(scene.path / "s")


def wrong_steps(scene):
    """Steps that aren't there, don't follow, or are another log's, and folders that are none."""
    make_monitor(scene, "w")
    (scene.path / "w/steps").unlink()
    shutil.copytree(scene.path / "a/public/steps", scene.path / "w/steps")
    state = (scene.path / "w/state").read_bytes()
    steps = (scene.path / "w/steps/list").read_text()
    (scene.path / "w/steps/0-3.consist").unlink()
    yield from refused("a step that isn't there", day(scene, "w"), 21, "the step 0-3 isn't fetched whole")
    scene.file("w/steps/list", "../../state-3\n0-3; rm state\n" + steps.replace("0-3\n", ""))
    yield from refused("no step from there", day(scene, "w"), 21, "no step leads on from the size 0")
    scene.file("w/steps/list", steps)
    scene.file("w/steps/0-3.consist", scene.mtc("consist", "a/log", 0, 2))
    yield from refused("another step", day(scene, "w"), 4, "ItemCount")
    yield from differ("its state", (scene.path / "w/state").read_bytes(), state)
    yield from refused("no folder", day(scene, "none"), 64, "FOLDER")


def check_first_entries(scene):
    """first_entries cuts a list to its first entries, and compares it with what a cosigner holds"""
    scene.log("j", 300)
    entries = scene.mtc("entries", "j", 300, into="entries")
    for size in (0, 1, 2, 299, 300):
        yield from differ(f"{size}", scene.tool("first_entries.py", "entries", size), (0, scene.mtc("entries", "j", size), ""))
    yield from refused("more", scene.tool("first_entries.py", "entries", 301), 4, "it has 300 entries")
    scene.file("cut", entries[:-1])
    yield from refused("a list that is cut", scene.tool("first_entries.py", "cut", 300), 2, "it is cut in entry 299")
    yield from refused("a word", scene.tool("first_entries.py", "entries", "x"), 1, "usage")
    yield from refused("no list", scene.tool("first_entries.py", "none", 1), 5, "none")
    scene.file("secret", bytes(48))
    scene.mtc("init-cosigner", "c", "32473.2", LOG, 5, 1, "secret")
    scene.mtc("consist", "j", 0, 257, into="request")
    scene.mtc("advance", "c", "request")
    scene.mtc("export", "c", into="export")
    yield from differ("a cosigner's", scene.tool("first_entries.py", "--held", "export", "entries"), (0, b"same 257\n", ""))
    scene.file("other", entries.replace(b"a.example", b"b.example", 1))
    status, out, _ = scene.tool("first_entries.py", "--held", "export", "other")
    yield from differ("another list", (status, out.startswith(b"differs 257\nheld ")), (3, True))
    yield from refused("no export", scene.tool("first_entries.py", "--held", "entries", "entries"), 2, "no size and root")


CHECKS = [check_public, check_monitor_day, check_first_entries]
