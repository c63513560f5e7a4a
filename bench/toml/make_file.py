"""Writes a TOML file of SIZE bytes that takes its reader long, or much memory. Usage: make_file.py KIND SIZE FILE
KIND is header: a header of half the bytes, and short lines below it, at each of which the whole header is compared;
tables: an array of inline tables, each of six bytes; numbers: an array of numbers of two bytes; or
nested: 80 inline tables in each other, and a header and keys of 80 parts, each of which is a table: 6,559 in each other, as many
as are read, and after them a line that isn't TOML, so that all are let go at once. SIZE is not asked then."""
import sys


def header(size):
    """A header, and lines with different keys."""
    name = size // 2
    lines = (size - name - 5) // 8
    return f'["{"h" * name}"]\n' + "".join(f"{at:05x}=0\n" for at in range(lines))


def array(item, size):
    """An array of as many of these items."""
    return "x=[" + ",".join([item] * ((size - 4) // (len(item) + 1))) + "]"


def nested():
    """The deepest tables that are read."""
    name = "a." * 79 + "a"
    return f"[{name}]\n" + f"{name}={{" * 80 + f"{name}=0" + "}" * 80 + "\n=\n"


kind, size, file = sys.argv[1], int(sys.argv[2]), sys.argv[3]
text = nested() if kind == "nested" else header(size) if kind == "header" else array({"tables": "{a=0}", "numbers": "0"}[kind], size)
with open(file, "w", encoding="ascii") as out:
    out.write(text)
