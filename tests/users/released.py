"""The units of tools/systemd, the container file, and the release that tools/release.py packs."""

import hashlib
import io
import json
import re
import shutil
import subprocess
import tarfile

from .scene import DATES, KEY, LOG, ROOT, TOOLS, LeftOut, differ, lacks, refused

LINE = "rt: 1234 passed, 0 failed"
INSTALLED = "/usr/local/lib/mtc"


def check_units(scene):
    """systemd takes the units and timers, and the scripts that they start are there"""
    lacks("systemd-analyze")
    tools = scene.path / "mtc/tools"
    shutil.copytree(TOOLS, tools)
    units = []
    for unit in sorted((tools / "systemd").iterdir()):
        text = unit.read_text()
        for script in re.findall(rf"{INSTALLED}/(\S+\.sh)", text):
            yield from differ(f"{unit.name}: {script}", (scene.path / "mtc" / script).is_file(), True)
        unit.write_text(text.replace(INSTALLED, str(scene.path / "mtc")))
        units.append(unit)
    names = sorted({unit.name.partition(".")[0] for unit in units})
    yield from differ("those of", {"mtc-authority", "mtc-cosigner", "mtc-mirror", "mtc-monitor"} <= set(names), True)
    yield from differ("units", [unit.name for unit in units], [f"{name}.{kind}" for name in names for kind in ("service", "timer")])
    yield from differ("users", [re.findall(r"^User=(.*)", unit.read_text(), re.M) for unit in units],
                      [wanted for name in names for wanted in ([name], [])])
    yield from differ("systemd-analyze", scene.ended("systemd-analyze", "verify", *units), (0, b"", ""))
    # It sees a wrong one.
    bad = scene.file("bad.service", units[0].read_text().replace("ExecStart=", "ExecStart=/nowhere"))
    status, _, err = scene.ended("systemd-analyze", "verify", bad)
    yield from differ("a wrong unit", status != 0 or err != "", True)


def check_container(scene):
    """in the root that the container file makes, with the C library and its loader alone of the image, the program keeps a log"""
    lacks("unshare", "ldd")
    text = (TOOLS / "Containerfile").read_text()
    steps = dict(line.split(maxsplit=1) for line in text.splitlines() if not line.startswith("#"))
    yield from differ("its steps", list(steps), ["FROM", "COPY", "VOLUME", "WORKDIR", "ENTRYPOINT"])
    yield from differ("where it runs", steps["WORKDIR"], steps["VOLUME"])
    root, (source, target) = scene.path / "root", steps["COPY"].split()
    yield from differ("what is copied", source, "mtc")
    libraries = re.findall(r"(/\S+) \(0x", scene.run("ldd", scene.program).decode())
    yield from differ("its libraries", sorted(path.split("/")[-1] for path in libraries), ["ld-linux-x86-64.so.2", "libc.so.6"])
    for path, place in [*((path, path) for path in libraries), (scene.program, target)]:
        (root / place[1:]).parent.mkdir(parents=True, exist_ok=True)
        shutil.copy(path, root / place[1:])
    volume = root / steps["VOLUME"][1:]
    volume.mkdir()
    contained = ["unshare", "--map-root-user", f"--root={root}", f"--wd={steps['WORKDIR']}"]
    if scene.ended(*contained[:2], "true")[0]:
        raise LeftOut("unshare: not allowed here")
    contained += json.loads(steps["ENTRYPOINT"])
    (volume / "r").write_text(f'{DATES}dns = ["a.example"]\nkey = "{KEY}"\n')
    for words, wanted in (("init-log j 32473.1 7 1000", f"log {LOG}\n"), ("issue j r", "issued 1\n")):
        yield from differ(words, scene.ended(*contained, *words.split()), (0, wanted.encode(), ""))
    yield from differ("the log outside", scene.mtc("checkpoint", volume / "j"), scene.run(*contained, "checkpoint", "j"))
    yield from differ("a file outside", scene.ended(*contained, "show", scene.program)[0] != 0, True)


def packed(scene, out, *more, **options):
    return scene.tool("release.py", out, LINE, "--program", "program", "--kit", "a kit", *more, **options)


def made_library(scene, name):
    """A folder with files that look like the C library."""
    scene.file(f"{name}/libmtc.a", b"!<arch>\n")
    scene.file(f"{name}/libmtc.so.1", b"\x7fELF")
    return "--library", name


def check_release(scene):
    """release packs the same bytes twice, and the program in it runs; the line of a gate that failed is refused"""
    if not shutil.which("git") or subprocess.run(["git", "-C", ROOT, "rev-parse", "HEAD"], capture_output=True).returncode:
        raise LeftOut("git isn't here, or this is no clone")
    shutil.copy(scene.program, scene.path / "program")
    library = made_library(scene, "library")
    yield from differ("a release", packed(scene, "one.tar.gz", *library), (0, b"", ""))
    (scene.path / "program").touch()
    (scene.path / "program").chmod(0o600)
    other = {"env": {"TZ": "Asia/Tokyo", "LC_ALL": "C"}, "umask": 0o077}
    yield from differ("another one", packed(scene, "two.tar.gz", *library, **other), (0, b"", ""))
    one = (scene.path / "one.tar.gz").read_bytes()
    yield from differ("both", hashlib.sha256((scene.path / "two.tar.gz").read_bytes()).hexdigest(), hashlib.sha256(one).hexdigest())
    yield from wrong_contents(scene, one, True)
    yield from differ("a release without the library", packed(scene, "three.tar.gz"), (0, b"", ""))
    yield from wrong_contents(scene, (scene.path / "three.tar.gz").read_bytes(), False)
    yield from refused_releases(scene)


def refused_releases(scene):
    """What is no line of a gate that passed, no program and no library is refused, and nothing is written."""
    for line in ("1234 passed, 1 failed", "0 passed, 0 failed", "", "1 passed, 0 failed\nmore", "1 failed: no; 3 passed, 0 failed"):
        yield from refused(f"the line {line!r}", scene.tool("release.py", "out", line, "--program", "program"), 1, "the line isn't")
    yield from refused("no program", packed(scene, "out", "--program", "one.tar.gz"), 2, "no program")
    yield from differ("a file that isn't there", packed(scene, "out", "--program", "none")[0], 2)
    yield from differ("a library that isn't there", packed(scene, "out", "--library", "none")[0], 2)
    scene.file("library/libmtc.so.1", b"no")
    yield from refused("no library", packed(scene, "out", "--library", "library"), 2, "no library")
    yield from differ("nothing of these", (scene.path / "out").exists(), False)


def packed_of(scene, commit, has_library):
    """The names in a release of a commit: those of its pages, scripts and examples, and what is made for it."""
    folders = scene.run("git", "-C", ROOT, "ls-tree", "-r", "--name-only", commit, "tools", "docs", "examples").decode().split()
    left = {"tools/release.py", "tools/c_library.sh", "docs/mtc.1", "docs/mtc.bash"}
    names = {name for name in folders if name not in left and (has_library or not name.startswith("examples/c/"))}
    names |= {"README", "README.md", "VERSION", "mtc", "mtc.1", "mtc.bash"}
    if has_library:
        names |= {"include/mtc.h", "lib/libmtc.a", "lib/libmtc.so", "lib/libmtc.so.1", "lib/pkgconfig/mtc.pc"}
    return sorted(names)


def wrong_contents(scene, text, has_library):
    """What is packed: names, modes, owners and times, VERSION, and a program that runs."""
    with tarfile.open(fileobj=io.BytesIO(text)) as tar:
        members = tar.getmembers()
        tar.extractall(scene.path, filter="data")
    top, names = members[0].name.split("/")[0], [member.name.partition("/")[2] for member in members]
    commit = scene.run("git", "-C", ROOT, "rev-parse", "HEAD").decode().strip()
    yield from differ("its folder", top, f"mtc-{commit[:12]}")
    yield from differ("owners and times", {(member.uid, member.gid, member.uname) for member in members}, {(0, 0, "root")})
    yield from differ("times", len({member.mtime for member in members}), 1)
    yield from differ("files", names, packed_of(scene, commit, has_library))
    yield from differ("links", [(member.name.split("/")[-1], member.linkname) for member in members if member.issym()],
                      [("libmtc.so", "libmtc.so.1")] * has_library)
    for word in re.findall(r"^COPY (\S+)", (TOOLS / "Containerfile").read_text(), re.M):
        yield from differ(f"the container's {word}", word in names, True)
    yield from wrong_version(scene, scene.path / top, commit, [member.name.partition("/")[2] for member in members if member.isfile()])
    ended = scene.ended("./mtc", "member", "examples/first.member", cwd=scene.path / top)
    yield from differ("its program", ended, (0, b"member 0\n", ""))
    shutil.rmtree(scene.path / top)


def wrong_version(scene, folder, commit, names):
    """What VERSION says: the commit, the kit, the gate, and a sum of each file but itself, as sha256sum reads it."""
    lines = (folder / "VERSION").read_text().splitlines()
    yield from differ("VERSION", lines[:3], [f"commit {commit}", "kit a kit", f"gate {LINE}"])
    yield from differ("its files", [line.split("  ")[1] for line in lines[3:]], [name for name in names if name != "VERSION"])
    check = re.search(r"^    (sed .*sha256sum.*)$", (folder / "README").read_text(), re.M)[1]
    yield from differ(check, scene.ended("sh", "-c", check, cwd=folder), (0, b"", ""))
    (folder / "mtc.1").write_text("another")
    yield from differ("a file that was changed", scene.ended("sh", "-c", check, cwd=folder)[0] != 0, True)


def check_machine(scene):
    """what the pages and the release say of the machine is what the program asks of its C library"""
    lacks("objdump")
    asked = re.findall(r"GLIBC_(\d+)\.(\d+)", scene.run("objdump", "-T", scene.program).decode())
    newest = ".".join(map(str, max((int(major), int(minor)) for major, minor in asked)))
    for page in ("tools/release.py", "docs/OPERATIONS.md"):
        said = re.findall(r"C\s+library,\s+(\d+\.\d+)\s+or\s+newer", (ROOT / page).read_text())
        yield from differ(f"{page}: the C library", said, [newest])
        yield from differ(f"{page}: the processor", "x86-64-v2" in (ROOT / page).read_text(), True)
