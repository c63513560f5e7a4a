"""Lists of requests, by tools/request_list.py, and what the program makes of them."""

from .scene import DATES, KEY, LOG, differ, refused

REQUEST = f'{DATES}dns = ["{{}}.example"]\nkey = "{KEY}"\n'
FIRST = REQUEST.format("a")
# What a file in a list may not have, and what is said of it: first what would add a request, or a key to another one.
WRONG = [
    (f"{FIRST}[[request]]\n{FIRST}", "it has the key request"), (f"[[request]]\n{FIRST}", "it has the key request"),
    (f"{FIRST}[more]\n", "it has the key more"), (f'{FIRST}common_name = "b"\ncommon_name = "c"\n', "it is no TOML"),
    ("", "it lacks not_before"), (FIRST.replace("dns", "names"), "it has the key names"),
    (FIRST.replace('["a.example"]', '"a.example"'), "dns is no list"), (FIRST.replace('"a.example"', "1"), "dns is no list of texts"),
    (DATES.replace('"', "") + FIRST[len(DATES):], "not_before is no text"), (b"\xFF", "it is no TOML"),
    (FIRST + "#" * 65536, "it has more than 65536 bytes"),
]


def check_request_lists(scene):
    """request_list.py joins requests into a list that issues them as they are one by one, and refuses a file that would add any"""
    for name, text in (("a", FIRST), ("b", REQUEST.format("b") + 'common_name = "\\"b\\u0062"\n')):
        scene.file(name, text)
    for journal in ("one", "list"):
        scene.mtc("init-log", journal, LOG, "2", "64")
    for name in ("a", "b"):
        scene.mtc("issue", "one", name)
    yield from differ("a list of two", scene.tool("request_list.py", "--out", "requests", "a", "b"), (0, b"", ""))
    yield from differ("issue-list", scene.mtc("issue-list", "list", "requests"), b"issued 1\nissued 2\n")
    for words in (("checkpoint",), ("entries", "3")):
        found, wanted = (scene.mtc(words[0], journal, *words[1:]) for journal in ("list", "one"))
        yield from differ(f"{words[0]} of both logs", found, wanted)
    for text, why in WRONG:
        scene.file("wrong", text)
        yield from refused(why, scene.tool("request_list.py", "--out", "other", "a", "wrong"), 2, f"wrong: {why}")
        yield from differ(f"a list where {why}", (scene.path / "other").exists(), False)
    yield from refused("no such file", scene.tool("request_list.py", "absent"), 5, "absent")
    yield from refused("no file", scene.tool("request_list.py"), 1, "FILE")
    first, last = DATES.splitlines()
    late = f"{first.replace('before', 'after')}\n{last.replace('after', 'before')}\n"
    scene.file("late", late + FIRST[len(DATES):])
    scene.file("requests", scene.tool("request_list.py", "a", "late")[1])
    wanted = (2, b"", "mtc: issue-list: requests: DatesReversed 1\n")
    yield from differ("the second one's dates", scene.ended(scene.program, "issue-list", "list", "requests"), wanted)
