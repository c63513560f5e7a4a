"""Kills of an authority's hour at each command that it gives, by tools/authority_hour.sh."""

import os
import re

from .hours import hour, killing, make_authority, names_in, request, size_of
from .scene import differ, lacks

COMMANDS = ("mtc", "sync", "mv", "rm", "find", "sed", "tail", "cat", "cp", "awk", "mkdir", "ln", "python3", "stat")
# So many commands apart the hours are killed, so that all of them together stop at each part of an hour.
APART = 5


def check_stopped_hours(scene):
    """after hours that were killed at each of their parts each request is in the log once, with its certificate, and all is published"""
    lacks("openssl", "flock")
    make_authority(scene)
    scene.mtc("init-log", "log", "32473.1", 168, 1024)
    os.replace(scene.path / "log", scene.path / "a/log")
    given, place, ended = 0, 0, False
    while not ended and place < 400:
        for _ in range(2):
            scene.file(f"a/requests/{given % 7}-{given}.request", request(f"n{given}.example"))
            given += 1
        scene.file(f"a/requests/bad{place}.request", "dns = [[]]")
        env = killing(scene, place, place // APART % 2 == 1, COMMANDS)
        ended = scene.tool("authority_hour.sh", "a", env=env, start_new_session=True)[0] == 0
        place += APART
    scene.notes.append(f"{place // APART - 1} hours were killed, {given} requests")
    yield from differ("hours that were killed", place > 10 * APART, True)
    yield from differ("the last one", hour(scene)[0], 0)
    yield from differ("the log", size_of(scene), given + 1)
    entries = scene.mtc("entries", "a/log", given + 1)
    found = sorted(int(number) for number in re.findall(rb"n(\d+)\.example", entries))
    yield from differ("each request, once", found, list(range(given)))
    folder = scene.path / "a"
    yield from differ("what waits", (names_in(folder / "requests"), names_in(folder / "issued"), (folder / "begun").exists()), ([], [], False))
    yield from differ("certificates", len(names_in(folder / "certs")), given)
    yield from differ("sent back", len([name for name in names_in(folder / "refused") if name.endswith(".request")]), place // APART)
    yield from differ("entries", (folder / "public/entries").read_bytes() == entries, True)
    yield from differ("landmarks", (folder / "public/landmarks").read_bytes(), scene.mtc("landmarks", "a/log"))
    yield from whole_steps(scene, folder, given + 1)


def whole_steps(scene, folder, size):
    """The steps lead from nothing to the size, and each is the log's."""
    at = 0
    for step in (folder / "public/steps/list").read_text().split():
        first, last = map(int, step.split("-"))
        yield from differ(f"step {step} follows", first, at)
        same = (folder / f"public/steps/{step}.entries").read_bytes() == scene.mtc("entries-from", "a/log", first, last)
        yield from differ(f"step {step}", same, True)
        at = last
    yield from differ("the last step", at, size)
    checkpoint = (folder / "public/checkpoint").read_text().split("\n")
    yield from differ("the checkpoint", checkpoint[1], str(size))


CHECKS = [check_stopped_hours]
