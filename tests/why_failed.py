#!/usr/bin/env python3
"""Tries tools/why_failed.sh: for each cause of a `Failed` or a `Locked` a command of the program ends so at a file, and the
script, given that file, names the cause, says what to do, and changes nothing.

As root it runs both as nobody, so that modes count. Prints a line for each case, and below it what is wrong; a case for which this
machine lacks something is reported as left out.
Usage: tests/why_failed.py [PROGRAM]
"""

import contextlib
import fcntl
import os
import shutil
import subprocess
import sys

from files.commands import LOG, Scene
from files.disks import fill, mount, mounted, small_disk, wants_mounts
from files.folder import ROOT, LeftOut, failed, locked, unlike
from files.tracing import wants_trace
from harness import program_of

SCRIPT = ROOT / "tools/why_failed.sh"
TOO_LONG = "n" * 250


def script(scene, file, before=()):
    """How the script ends over a file, and what it says."""
    ended = subprocess.run([*before, "bash", SCRIPT, file], cwd=scene.path, capture_output=True, text=True, stdin=subprocess.DEVNULL,
                           **scene.owner)
    return ended.returncode, ended.stdout, ended.stderr


def inner(scene, mode=0o700):
    """A folder `d` with a copy of the log `j`."""
    folder = scene.path / "d"
    folder.mkdir()
    shutil.copy(scene.path / "j", folder / "j")
    scene.own(folder, folder / "j")
    folder.chmod(mode)


@contextlib.contextmanager
def held(scene, file, how):
    with open(scene.path / file, "rb") as lock:
        fcntl.flock(lock, how)
        yield


@contextlib.contextmanager
def full(scene, _file):
    """A disk `d` without space."""
    wants_mounts()
    with small_disk(scene.path / "d"):
        fill(scene.path / "d", 0)
        yield


@contextlib.contextmanager
def read_only(scene, _file):
    """A disk `d` with the log that may only be read."""
    wants_mounts()
    inner(scene)
    with mounted(scene.path / "d", "--bind", scene.path / "d"):
        mount("-o", "remount,bind,ro", scene.path / "d")
        yield


@contextlib.contextmanager
def immutable(scene, file):
    if not shutil.which("chattr") or subprocess.run(["chattr", "+i", scene.path / file], capture_output=True).returncode:
        raise LeftOut("no file can be made immutable here")
    try:
        yield
    finally:
        subprocess.run(["chattr", "-i", scene.path / file], check=True)


def made(make):
    """The scene once this was done."""
    @contextlib.contextmanager
    def entered(scene, _file):
        make(scene)
        yield
    return entered


def in_place(file, make):
    """Another thing in the place of a file."""
    def make_it(scene):
        (scene.path / file).unlink(missing_ok=True)
        make(scene.path / file)
        if not (scene.path / file).is_symlink():
            scene.own(scene.path / file)
    return made(make_it)


def mode(file, bits):
    return made(lambda scene: (scene.path / file).chmod(bits))


def injected(call, error):
    return ["strace", "-f", "-qq", "-o", "/dev/null", "-e", f"trace={call}", "-e", f"inject={call}:error={error}"]


# What a command is given, the file of its line and how the scene is made so; and what the script says of that file. A call of the
# system that is to fail does so of both.
CASES = [
    ("checkpoint d", "d", made(lambda scene: (scene.path / "d").mkdir(mode=0o755)), "d is a directory", None),
    ("checkpoint p", "p", in_place("p", os.mkfifo), "p is a fifo", None),
    ("checkpoint loop", "loop", in_place("loop", lambda path: path.symlink_to("loop")), "Too many levels of symbolic links", None),
    (f"init-log {TOO_LONG} {LOG} 2 9", TOO_LONG, made(lambda scene: None), "File name too long", None),
    (f"init-log none/new {LOG} 2 9", "none/new", made(lambda scene: None), "none/ is no folder", None),
    (f"init-log d/new {LOG} 2 9", "d/new", made(lambda scene: inner(scene, 0o500)), "may make no file in d/", None),
    ("checkpoint d/j", "d/j", made(lambda scene: inner(scene, 0o000)), "Permission denied", None),
    ("issue d/j r", "d/j", made(lambda scene: inner(scene, 0o300)), "can't be opened to be synced", None),
    ("checkpoint j", "j", mode("j", 0o000), "j can't be opened to be read", None),
    ("issue j r", "j", mode("j", 0o400), "j can't be opened to be written", None),
    ("issue j r", "j", immutable, "Operation not permitted", None),
    ("cosign s part", "s", mode("s", 0o640), "s of a cosigner is open to others, mode 640", None),
    ("issue d/j r", "d/j", read_only, "the file system of d/j may only be read", None),
    (f"init-log d/new {LOG} 2 9", "d/new", full, "the disk of d/new is full", None),
    ("issue j r", "j", made(lambda scene: None), "j can't be locked: No locks available", ("flock", "ENOLCK")),
    ("issue j r", "j", made(lambda scene: None), "j, can't be synced: Input/output error", ("fsync", "EIO")),
    ("issue j r", "j.tiles", in_place("j.tiles", lambda path: path.symlink_to("none")), "j.tiles is a link", None),
    ("issue j r", "j.tiles", in_place("j.tiles", lambda path: path.hardlink_to(path.parent / "none")), "j.tiles has 2 names", None),
    ("issue j r", "j.tiles", in_place("j.tiles", lambda path: shutil.copy(path.parent / "m", path)), "j.tiles is a journal", None),
    ("issue j d", "d", made(lambda scene: (scene.path / "d").mkdir(mode=0o755)), "d is a directory", None),
]


def check_case(scene, words, file, make, says, call):
    if call:
        wants_trace(scene)
    with make(scene, file):
        before, name = injected(*call) if call else [], words.split()[0]
        files = scene.files()
        yield from unlike(words, scene.run(words, before=before), failed(name, file))
        # What the command may have made is no matter here.
        files.update({made: text for made, text in scene.files().items() if made not in files})
        status, out, err = script(scene, file, before)
        told = [line for line in out.splitlines() if line.startswith("wrong: ") and says in line]
        yield from unlike("the script", (status, bool(told), err), (1, True, "")) if told else [f"{out}{err}"]
        yield from unlike("what to do stands below each cause", out.count("\n    do: "), out.count("wrong: "))
        yield from unlike("the files", scene.files() == files, True)


def check_locks(scene):
    """A lock of another process, and who has it"""
    for file, how in (("j", fcntl.LOCK_EX), ("j", fcntl.LOCK_SH), ("j.tiles", fcntl.LOCK_EX)):
        with held(scene, file, how):
            yield from unlike("issue", scene.run("issue j r"), locked("issue", file))
            status, out, err = script(scene, "j")
            yield from unlike(f"the script at {file}", (status, f"{file} is locked; process {os.getpid()} " in out, err), (1, True, ""))


def check_limit(scene):
    """A limit of the size of a file"""
    status, out, err = script(scene, "j", ["bash", "-c", 'ulimit -f 1; exec "$@"', "-"])
    yield from unlike("the script", (status, "ulimit -f" in out, err), (1, True, ""))


def check_nothing(scene):
    """A journal, a tile file and an input that can be opened, and a new journal that can be made, have no cause"""
    files = scene.files()
    for file in ("j", "j.tiles", "s", "m", "t", "r", "new"):
        status, out, err = script(scene, file)
        yield from unlike(file, (status, "wrong: " in out, "no cause was found" in out, err), (0, False, True, ""))
    yield from unlike("the files", scene.files() == files, True)
    for words in ([], ["j", "s"], [""]):
        status = subprocess.run(["bash", SCRIPT, *words], cwd=scene.path, capture_output=True).returncode
        yield from unlike(f"the status of {words}", status, 64)


def told(scene, name, lines):
    """Prints what came of a case, and answers whether it is wrong."""
    for file in scene.kept:
        if (scene.path / file).is_symlink() or (scene.path / file).stat().st_nlink > 1:
            (scene.path / file).unlink()
    scene.restore()
    for file in scene.kept:
        scene.own(scene.path / file)
        (scene.path / file).chmod(0o600)
    try:
        wrong = [*lines]
    except LeftOut as why:
        print(f"left out: why_failed: {name}: {why}")
        return False
    finally:
        for folder in (scene.path / "d", scene.path / "p"):
            if folder.is_dir():
                folder.chmod(0o700)
                shutil.rmtree(folder)
            else:
                folder.unlink(missing_ok=True)
    print(f"{'wrong' if wrong else 'ok'}: {name}", *wrong, sep="\n    ", flush=True)
    return bool(wrong)


def main(words):
    scene = Scene(program_of(words))
    found = [told(scene, f"{case[0]:.40}: {case[3]}", check_case(scene, *case)) for case in CASES]
    found += [told(scene, check.__doc__, check(scene)) for check in (check_locks, check_limit, check_nothing)]
    shutil.rmtree(scene.path)
    return int(any(found))


if __name__ == "__main__":
    sys.exit(main(sys.argv[1:]))
