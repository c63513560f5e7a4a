"""The days of a cosigner and of a mirror whose requests are torn, stopped or not the log's, by tools/cosigner_day.sh, mirror_day.sh and
check_note.py."""

import os
import shutil

from .scene import DATES, KEY, LOG, TOOLS, differ, lacks, refused

NAME = "log.example/1"


def day(scene, tool, *words, **options):
    """A day, without the warning that both files are on one disk, as they are here."""
    status, out, err = scene.tool(tool, *words, **options)
    return status, out, "".join(line for line in err.splitlines(True) if not line.startswith("guarded_cosign: warning: "))


def grow(scene, size):
    """Lets the log have so many entries, and publishes them with a signed checkpoint."""
    scene.file("r", f'{DATES}dns = ["a.example"]\nkey = "{KEY}"\n')
    while int(scene.mtc("checkpoint", "j", into="checkpoint").split()[1]) < size:
        scene.mtc("issue", "j", "r")
    scene.mtc("entries", "j", size, into="entries")
    status, _, err = scene.tool("publish.py", "log", "entries", "checkpoint", "note.key", "public")
    if status:
        raise RuntimeError(err)


def ask(scene, folder, consist, subtree):
    """Writes a pair of requests: to advance from one size to another, and to sign the entries up to a size."""
    scene.mtc("consist", "j", *consist, into=f"{folder}/consist")
    scene.mtc("subtree", "j", 0, *subtree, into=f"{folder}/subtree")


def prepare(scene, folder, number):
    scene.mtc("init-log", "j", LOG, 4, 64)
    (scene.path / "public").mkdir()
    (scene.path / folder).mkdir()
    scene.file(f"{folder}/verifier", scene.tool("publish.py", "key", NAME, "note.key")[1])
    grow(scene, 3)
    scene.file("secret", b"s" * 48)
    scene.mtc("init-cosigner", f"{folder}/journal", f"32473.{number}", LOG, 5, 1, "secret")
    scene.run(TOOLS / "guarded_cosign.sh", "begin", f"{folder}/journal", "kept")


def held(scene, folder):
    """The size that an export says, and the ends of what was signed."""
    words = [line.split() for line in scene.mtc("held", f"{folder}/export").decode().splitlines()]
    return next(int(line[1]) for line in words if line[0] == "size"), [int(line[3]) for line in words if line[0] == "signed"]


def check_note(scene):
    """check_note takes the requests of the checkpoint that the log signed, and refuses other ones, other notes and other forms"""
    lacks("openssl")
    prepare(scene, "c", 2)
    shutil.copy(scene.path / "public/checkpoint", scene.path / "note")
    ask(scene, "c", (0, 3), (3, 3))

    def tries(request="c/consist", note="note", verifier="c/verifier"):
        return scene.tool("check_note.py", note, verifier, request)

    yield from differ("to advance", tries(), (0, b"advance 3\n", ""))
    yield from differ("to sign", tries("c/subtree"), (0, b"subtree 0 3\n", ""))
    yield from differ("alone", scene.tool("check_note.py", "note", "c/verifier")[1], (scene.path / "checkpoint").read_bytes())
    note, consist = (scene.path / "note").read_bytes(), (scene.path / "c/consist").read_bytes()
    scene.mtc("consist", "j", 0, 2, into="older")
    scene.tool("publish.py", "key", NAME, "other.key")
    scene.file("others", scene.tool("publish.py", "verifier", "other.key")[1])
    files = {"root": consist[:20] + bytes([consist[20] ^ 1]) + consist[21:], "cut": consist[:-1], "none": b"", "long": bytes(1 << 20)}
    for name, text in files.items():
        scene.file(name, text)
    notes = {"changed": note.replace(b"\n3\n", b"\n4\n"), "unsigned": note.split(b"\n\n")[0] + b"\n\n", "bare": b"3\n", "huge": note + bytes(1 << 20)}
    for name, text in notes.items():
        scene.file(name, text)
    for what, ended, status, words in (
            ("another size", tries("older"), 4, "SizeDiffers 3 2"), ("another root", tries("root"), 4, "RootDiffers"),
            ("a request that is cut", tries("cut"), 2, "BadRequest"), ("no request", tries("none"), 2, "BadRequest"),
            ("a long request", tries("long"), 2, "TooLong"), ("a device", tries("/dev/zero"), 2, "NoFile"),
            ("a changed note", tries(note="changed"), 3, "BadSignature"), ("no signature", tries(note="unsigned"), 2, "BadNote"),
            ("no note", tries(note="bare"), 2, "BadNote"), ("a long note", tries(note="huge"), 2, "TooLong"),
            ("another key", tries(verifier="others"), 3, "NoSignature"), ("no verifier", tries(verifier="note"), 2, "BadVerifier")):
        yield from refused(what, ended, status, words)


def check_torn_requests(scene):
    """cosigner_day writes its export after every outcome, so a torn pair of requests stops it for one day, and signs what the log signed"""
    lacks("openssl", "flock")
    prepare(scene, "c", 2)
    shutil.copy(scene.path / "public/checkpoint", scene.path / "c/checkpoint")
    ask(scene, "c", (0, 3), (2, 2))
    yield from refused("a torn pair", day(scene, "cosigner_day.sh", "c", "kept"), 24, "subtree ends at 2")
    ask(scene, "c", (0, 2), (2, 2))
    yield from refused("not the checkpoint's", day(scene, "cosigner_day.sh", "c", "kept"), 25, "SizeDiffers 3 2")
    yield from differ("held then", held(scene, "c"), (0, []))
    ask(scene, "c", (0, 3), (3, 3))
    scene.file("c/size", "4\n")
    yield from refused("another size asked for", day(scene, "cosigner_day.sh", "c", "kept"), 24, "consist is for the size 3, and 4 is asked for")
    (scene.path / "c/size").unlink()
    yield from differ("a day", day(scene, "cosigner_day.sh", "c", "kept"), (0, b"advanced 3\n", ""))
    yield from differ("its request", (scene.path / "c/signed").read_bytes(), (scene.path / "c/subtree").read_bytes())
    # It advances, and is stopped before it signs: the export says so, and the log asks from there.
    grow(scene, 5)
    (scene.path / "c/verifier").unlink()
    ask(scene, "c", (3, 4), (2, 4))
    yield from refused("no landmark", day(scene, "cosigner_day.sh", "c", "kept"), 24, "subtree ends at 2")
    yield from differ("with the option", day(scene, "cosigner_day.sh", "--any-subtree", "c", "kept"), (0, b"advanced 4\n", ""))
    scene.mtc("subtree", "j", 0, 5, 5, into="c/subtree")
    scene.mtc("consist", "j", 3, 5, into="c/consist")
    yield from refused("from an older size", day(scene, "cosigner_day.sh", "c", "kept"), 4, "BadProof")
    size = held(scene, "c")[0]
    yield from differ("its export", size, 4)
    (scene.path / "c/requests/5").mkdir(parents=True)
    (scene.path / "c/request").symlink_to("requests/5")
    ask(scene, "c/requests/5", (size, 5), (5, 5))
    yield from differ("the next day", day(scene, "cosigner_day.sh", "c", "kept"), (0, b"advanced 5\n", ""))
    yield from differ("what it signed", held(scene, "c"), (5, [3, 2, 5]))


def noting(scene, *tools):
    """A path on which each call of these tools is noted in the file `calls`."""
    for tool in tools:
        path = scene.file(f"bin_note/{tool}", f'#!/bin/bash\necho "{tool} $*" >>"{scene.path}/calls"\nexec "{shutil.which(tool)}" "$@"\n')
        path.chmod(0o755)
    return {"PATH": f"{scene.path}/bin_note:{os.environ['PATH']}"}


def unsynced(calls):
    """Renames of files of which the bytes weren't synced before, or after which something else comes than a sync of their folder."""
    calls = [[word for word in line.split() if not word.startswith("-")] for line in calls]
    for place, (tool, *words) in enumerate(calls):
        if tool != "mv":
            continue
        source, target = words
        folder = os.path.dirname(target) or "."
        if source.endswith(".new") and not any(call[0] == "sync" and source in call for call in calls[:place]):
            yield f"mv {source} {target}: {source} isn't synced before"
        following = calls[place + 1] if place + 1 < len(calls) else ["the end"]
        if following[0] != "sync" or folder not in following:
            yield f"mv {source} {target}: then comes {' '.join(following)}"


def check_synced_day(scene):
    """cosigner_day syncs a file before it gets its name, and its folder after that, before anything else"""
    lacks("openssl", "flock")
    prepare(scene, "c", 2)
    (scene.path / "c/verifier").unlink()
    ask(scene, "c", (0, 3), (3, 3))
    yield from differ("a day", day(scene, "cosigner_day.sh", "c", "kept", env=noting(scene, "mv", "sync", "rm")), (0, b"advanced 3\n", ""))
    calls = (scene.path / "calls").read_text().splitlines()
    yield from unsynced(calls)
    yield from differ("some files got names", sum(line.startswith("mv ") for line in calls) > 2, True)


def check_mirror_day(scene):
    """mirror_day takes the steps that the log published, signs each interval once, and refuses entries that aren't the checkpoint's"""
    lacks("openssl", "flock")
    prepare(scene, "m", 5)
    scene.mtc("mirror-init", "m/mirror", LOG)
    (scene.path / "m/steps").mkdir()
    scene.mtc("entries-from", "j", 0, 3, into="m/steps/0-3.entries")
    shutil.copy(scene.path / "public/checkpoint", scene.path / "m/checkpoint")
    for again in ("", " again"):
        yield from differ(f"a day{again}", day(scene, "mirror_day.sh", "m", "kept")[0], 0)
        yield from differ(f"signed{again}", held(scene, "m"), (3, [3]))
    yield from differ("its request", (scene.path / "m/signed").read_bytes(), scene.mtc("subtree", "j", 0, 3, 3))
    grow(scene, 5)
    scene.mtc("entries-from", "j", 3, 5, into="m/steps/3-5.entries")
    yield from refused("an older checkpoint", day(scene, "mirror_day.sh", "m", "kept"), 0, "", b"")
    yield from differ("nothing new", held(scene, "m"), (3, [3]))
    shutil.copy(scene.path / "public/checkpoint", scene.path / "m/checkpoint")
    new = (scene.path / "m/steps/3-5.entries").read_bytes()
    scene.file("m/steps/3-5.entries", new.replace(b"a.example", b"b.example", 1))
    yield from refused("another list", day(scene, "mirror_day.sh", "m", "kept"), 24, "isn't the log's")
    scene.file("m/steps/3-5.entries", new)
    yield from differ("the next day", day(scene, "mirror_day.sh", "m", "kept"), (0, b"advanced 5\n", ""))
    yield from differ("what it signed", held(scene, "m"), (5, [3, 5]))
