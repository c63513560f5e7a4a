"""The way from a release to running timers, as docs/OPERATIONS.md has it, in a root of its own."""

import re
import shutil

from .hours import request
from .scene import IN_TIME, LOG, ROOT, LeftOut, differ, lacks

HEADING = "### From a release to timers"
# A root over that of this machine, which takes all that is written, and goes with the process. There is no systemd in it: `systemctl`
# writes links, and what asks the running one is left out.
ROOTED = """set -e
mount -t tmpfs tmpfs {place}
mkdir {place}/upper {place}/work {place}/root
mount -t overlay overlay -o lowerdir=/,upperdir={place}/upper,workdir={place}/work {place}/root
mount --bind /dev {place}/root/dev
mount -t proc proc {place}/root/proc
mkdir -p {place}/root/run
cp mtc.tar.gz steps {place}/root/run
exec chroot {place}/root /bin/bash /run/steps
"""


def block():
    """The commands of the page."""
    text = (ROOT / "docs/OPERATIONS.md").read_text()
    return re.search(r"```sh\n(.*?)```", text[text.index(HEADING):], re.DOTALL)[1]


def starting(unit):
    """Starts what a unit starts, as its user, with its environment."""
    text = (ROOT / f"tools/systemd/{unit}.service").read_text()
    user, environment, command = (re.search(rf"^{key}=(.*)", text, re.M)[1] for key in ("User", "Environment", "ExecStart"))
    return f"runuser -u {user} -- env {environment} {command}\n"


def check_from_release(scene):
    """the page's way from a release to timers leaves users, folders, units and timers, and what the units start does its work"""
    lacks("unshare", "useradd", "runuser", "systemctl", "git")
    shutil.copy(scene.program, scene.path / "program")
    line = "rt: 1234 passed, 0 failed"
    status, _, err = scene.tool("release.py", "mtc.tar.gz", line, "--program", "program", "--kit", "a kit")
    if status:
        raise LeftOut(f"no release can be packed here: {err.strip()}")
    (scene.path / "root").mkdir()
    asked = "/var/lib/mtc/authority/requests/a.request"
    steps = (f'cd /run\nsystemctl() {{ [ "$1" != enable ] || command systemctl "$@"; }}\n{block()}\nset -x\n'
             f"useradd --system -G mtc-front front\n"
             f"runuser -u front -g mtc-front -- tee {asked} >/dev/null <<'END'\n{request('www.example.com')}END\n"
             f"{starting('mtc-authority')}"
             "runuser -u mtc-monitor -- cp -r /var/lib/mtc/authority/public/steps /var/lib/mtc/monitor/steps\n"
             f"{starting('mtc-monitor')}"
             "mtc trust-landmarks /var/lib/mtc/authority/public/landmarks 168 /var/lib/mtc/authority/public/entries >tables\n"
             "cat /var/lib/mtc/authority/public/about/log tables >store\n"
             f"mtc verify /var/lib/mtc/authority/certs/1.cert store {IN_TIME}\n"
             "ls /etc/systemd/system/timers.target.wants\nstat -c '%U %G %a' /var/lib/mtc/authority/requests /var/lib/mtc/authority/log\n")
    scene.file("steps", steps)
    if scene.ended("unshare", "--mount", "true")[0]:
        raise LeftOut("unshare: not allowed here")
    status, out, err = scene.ended("unshare", "--mount", "--propagation", "private", "/bin/bash", "-c", ROOTED.format(place=scene.path / "root"))
    if status and "mount:" in err:
        raise LeftOut(f"mount: {err.strip():.200}")
    yield from differ("status", (status, err if status else ""), (0, ""))
    wanted = [f"log {LOG}", "landmark 1 2", "match 1 www.example.com", "accepted 1", "mtc-authority.timer", "mtc-monitor.timer",
              "mtc-authority mtc-front 2775", "mtc-authority mtc-authority 600"]
    yield from differ("what it prints", [line for line in wanted if line not in out.decode().splitlines()], [])


CHECKS = [check_from_release]
