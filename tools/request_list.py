#!/usr/bin/env python3
"""Joins request files, as `mtc issue` takes them, into one file for `mtc issue-list`, in the order in which they are given.

Each file is read as TOML and written anew as one table: so no file can add a second request, or keys to another one. A file is refused
that isn't TOML, has a key that no request has, lacks one, or has another kind of value there than a text, or a list of texts for `dns`.
What the values say, `mtc issue-list` tests: it names the request by its number, counted from 0 in this order.

Strangers write requests. So a file that nests values, or has long dotted keys, is refused before it is read as TOML, which would take
memory with the square of its bytes; the whole script has at most 512 MiB of memory; and one run names every file that it refuses.

It is tested, and not proved.

Usage: tools/request_list.py [--skip] [--out LIST] FILE ..
       Without LIST the text is printed; LIST appears whole or not at all. If a file is refused, no list is written. With --skip the
       list has all other files, and a file that can't be read or is no plain one is refused too; no list is written without any file.
Status: 0 done, 1 arguments, 2 files are refused, a line for each on standard error, 5 the system failed.
Example: tools/request_list.py --out list requests/*.request && mtc issue-list log list
"""

import argparse
import json
import os
import re
import resource
import stat
import sys
import tempfile
import tomllib

MOST_BYTES = 65536
MOST_MEMORY = 1 << 29
# How deep brackets stand in each other, and how many dots stand outside of texts and comments: a request has one bracket and no dot.
MOST_DEPTH, MOST_DOTS = 8, 64
KINDS = {"not_before": str, "not_after": str, "dns": list, "common_name": str, "key": str}
OPTIONAL = {"common_name"}
# What stands in quotes or after a number sign, as TOML reads it. A text that isn't ended goes on to the end of its line, or of the file,
# so that the file is gone through once.
TEXTS = re.compile(r'"""(?:[^\\]|\\.|\\\Z)*?(?:"{3,5}|\Z)|' r"'''.*?(?:'{3,5}|\Z)|" r'"(?:[^"\\\n]|\\.)*"?|'
                   r"'[^'\n]*'?|#[^\n]*", re.DOTALL)


class Refused(Exception):
    """Why a file is refused."""


def refuse_nested(text):
    """Refuses a text whose values or keys would be nested deep."""
    signs, depth = re.sub(r"[^\[\]{}.]+", "", TEXTS.sub("", text)), 0
    for sign in signs:
        depth += (sign in "[{") - (sign in "]}")
        if depth > MOST_DEPTH:
            raise Refused("it has values in each other")
    if signs.count(".") > MOST_DOTS:
        raise Refused("it has dotted keys")


def parsed(data):
    """The values of a text in TOML."""
    try:
        text = data.decode("utf-8-sig")
        refuse_nested(text)
        return tomllib.loads(text)
    except (ValueError, RecursionError):
        raise Refused("it is no TOML") from None


def opened(path, is_plain):
    """A request file. If it has to be a plain one, no link is followed, and a pipe isn't waited for."""
    if not is_plain:
        return open(path, "rb")
    file = open(os.open(path, os.O_RDONLY | os.O_NOFOLLOW | os.O_NONBLOCK | os.O_CLOEXEC), "rb")
    if not stat.S_ISREG(os.fstat(file.fileno()).st_mode):
        file.close()
        raise OSError(0, "it is no plain file")
    return file


def read(path, is_plain):
    """The values of a request file."""
    with opened(path, is_plain) as file:
        data = file.read(MOST_BYTES + 1)
    if len(data) > MOST_BYTES:
        raise Refused(f"it has more than {MOST_BYTES} bytes")
    values = parsed(data)
    for name in sorted(values.keys() - KINDS.keys()):
        raise Refused(f"it has the key {ascii(name)[1:-1]:.80}")
    for name, kind in KINDS.items():
        if name not in values and name not in OPTIONAL:
            raise Refused(f"it lacks {name}")
        if not isinstance(values.get(name, kind()), kind):
            raise Refused(f"{name} is no {'list' if kind is list else 'text'}")
    if not all(isinstance(name, str) for name in values["dns"]):
        raise Refused("dns is no list of texts")
    return values


def quoted(value):
    """A value as TOML has it. A text of JSON is one of TOML, but for the control character that JSON lets stand."""
    return json.dumps(value, ensure_ascii=False).replace("\x7f", "\\u007f")


def table(values):
    """One request of the list."""
    text = "[[request]]\n" + "".join(f"{name} = {quoted(values[name])}\n" for name in KINDS if name in values)
    if tomllib.loads(text) != {"request": [values]}:
        raise Refused("it can't be written as one table")
    return text


def tables(paths, skip):
    """The requests of the files that are read, and each file that is refused, with why."""
    texts, wrong = [], []
    for path in paths:
        try:
            texts.append(table(read(path, skip)))
        except Refused as why:
            wrong.append((path, why))
        except MemoryError:
            wrong.append((path, "it takes too much memory"))
        except OSError as why:
            if not skip:
                raise
            wrong.append((path, f"it can't be read: {why.strerror}"))
    return texts, wrong


def write(path, text):
    """Puts a text into a file, which appears whole or not at all."""
    number, new = tempfile.mkstemp(prefix=".list-", dir=os.path.dirname(path) or ".")
    try:
        with os.fdopen(number, "w", encoding="utf-8") as file:
            file.write(text)
            file.flush()
            os.fsync(file.fileno())
        mask = os.umask(0)
        os.umask(mask)
        os.chmod(new, 0o666 & ~mask)
        os.replace(new, path)
    except OSError:
        os.unlink(new)
        raise


def bound_memory():
    """Bounds the memory of this process, where no lower bound stands."""
    least, most = resource.getrlimit(resource.RLIMIT_AS)
    if least == resource.RLIM_INFINITY or least > MOST_MEMORY:
        resource.setrlimit(resource.RLIMIT_AS, (MOST_MEMORY, most))


class Arguments(argparse.ArgumentParser):
    def error(self, message):
        self.exit(1, f"{self.prog}: {message}\n")


def main(words):
    parser = Arguments(prog="request_list", description=__doc__, formatter_class=argparse.RawDescriptionHelpFormatter)
    parser.add_argument("--skip", action="store_true")
    parser.add_argument("--out")
    parser.add_argument("files", nargs="+", metavar="FILE")
    given = parser.parse_args(words)
    bound_memory()
    try:
        texts, wrong = tables(given.files, given.skip)
        for path, why in wrong:
            print(f"request_list: {ascii(path)[1:-1]}: {why}", file=sys.stderr)
        if wrong and not (given.skip and texts):
            return 2
        if given.out:
            write(given.out, "".join(texts))
        else:
            sys.stdout.write("".join(texts))
            sys.stdout.flush()
    except OSError as why:
        print(f"request_list: {ascii(str(why))[1:-1]}", file=sys.stderr)
        return 5
    return 2 if wrong else 0


if __name__ == "__main__":
    sys.exit(main(sys.argv[1:]))
