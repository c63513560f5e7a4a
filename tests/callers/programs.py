"""Programs that call the C library: those of examples/c, and those that stand beside this file."""

import os
import shutil
import subprocess
import sys
from pathlib import Path

ROOT = Path(__file__).resolve().parent.parent.parent
HERE, EXAMPLES = Path(__file__).resolve().parent, ROOT / "examples/c"
COMPILE = ["cc", "-std=c11", "-D_GNU_SOURCE", "-Wall", "-Wextra", "-Werror", "-O2", f"-I{ROOT}/include"]
# Words that are no time.
NO_TIMES = ("", "abc", "1767571200x", "12 ", "99999999999999999999", "-9223372036854775809")
# What nulls.c has to print of null pointers with no bytes, and of others. A certificate of no bytes is cut at 0: the store is first.
NULLS = "2 3 2 2 9 9 9 9 9 9 4\n" + "1 1 7 1 1 1 1 1 1 1 1 7 1 1 1 1 1 1\n"


def compiled(source, into, *more):
    subprocess.run([*COMPILE, source, *more, "-o", into], check=True)
    return into


def examples(folder, archive, shared):
    """The programs of examples/c, with their words; None where there is no compiler."""
    yield "C", [compiled(EXAMPLES / "judge.c", folder / "judge", archive)]
    yield "Python", [sys.executable, EXAMPLES / "judge.py", shared]
    if not shutil.which("go"):
        yield "Go", None
        return
    shutil.copytree(EXAMPLES / "go", folder / "go")
    environment = {"CGO_CFLAGS": f"-I{ROOT}/include", "CGO_LDFLAGS": str(archive), "CGO_ENABLED": "1"}
    subprocess.run(["go", "build", "-o", folder / "judge_go", "."], cwd=folder / "go", check=True, env={**os.environ, **environment})
    yield "Go", [folder / "judge_go"]


def ended(*words):
    """Status and standard output of a command line, and how many lines it wrote on standard error."""
    run = subprocess.run([str(word) for word in words], capture_output=True, text=True)
    return run.returncode, run.stdout, len(run.stderr.splitlines())


def wrong_words(command):
    """What a caller says of words that are no time, of too few words, and of a file that isn't there."""
    cert, known = ROOT / "examples/www.cert", ROOT / "examples/log.store"
    for word in NO_TIMES:
        if (said := ended(*command, cert, known, word)) != (1, "", 1):
            yield f"{word!r}: {said}"
    if (said := ended(*command, cert, known)) != (1, "", 1):
        yield f"two words: {said}"
    if (said := ended(*command, cert, "/none", "0")) != (5, "", 1):
        yield f"a file that isn't there: {said}"


def of_another(folder, interface):
    """A library of this interface that always lacks memory."""
    return compiled(HERE / "other.c", folder / f"other{interface}.so", "-shared", "-fPIC", f"-DABI={interface}")


def wrong_libraries(folder, interface):
    """What callers say of a library that lacks memory, of another interface, of one without a number, and of none."""
    cert, known = ROOT / "examples/www.cert", ROOT / "examples/log.store"
    for number, said_of in ((interface, (8, "", 1)), (interface + 1, (1, "", 1))):
        library = of_another(folder, number)
        program = compiled(EXAMPLES / "judge.c", folder / "judge_other", library, f"-Wl,-rpath,{folder}")
        for command in ([program], [sys.executable, EXAMPLES / "judge.py", library]):
            if (said := ended(*command, cert, known, "0")) != said_of:
                yield f"{Path(command[-1]).name}: {said} in place of {said_of}"
    for library, said_of in (("libc.so.6", (1, "", 1)), ("/none.so", (5, "", 1)), (cert, (5, "", 1))):
        if (said := ended(sys.executable, EXAMPLES / "judge.py", library, cert, known, "0")) != said_of:
            yield f"judge.py {library}: {said} in place of {said_of}"


def wrong_nulls(folder, archive):
    """What is answered where pointers are null."""
    program = compiled(HERE / "nulls.c", folder / "nulls", archive)
    if (said := ended(program, ROOT / "examples/www.cert")) != (0, NULLS, 0):
        yield f"{said} in place of {NULLS!r}"


def in_threads(folder, archive, rows):
    """The verdicts on rows, each found in a thread with no more stack than the header says: lines of numbers, and a last one of how much
    of the stack was used."""
    program = compiled(HERE / "rows.c", folder / "rows", archive, "-pthread")
    text = b"".join(len(cert).to_bytes(8, sys.byteorder) + cert + len(known).to_bytes(8, sys.byteorder) + known
                    + now.to_bytes(8, sys.byteorder, signed=True) for cert, known, now in rows)
    run = subprocess.run([program], input=text, capture_output=True)
    return run.returncode, run.stdout.decode().splitlines()
