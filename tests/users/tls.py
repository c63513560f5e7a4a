"""A certificate of a log in TLS: a server in Go shows it, and a client in Go believes it by `mtc verify` (examples/tls)."""

import subprocess

from .scene import DATES, IN_TIME, LATER, LOG, ROOT, differ, lacks

EXAMPLES = ROOT / "examples"


class Server:
    """A server of examples/tls, on a port that the system chooses."""

    def __init__(self, program, cert, key):
        self.process = subprocess.Popen([program, "serve", cert, key, "localhost:0"], stdout=subprocess.PIPE, text=True)
        self.address = self.process.stdout.readline().removeprefix("serving ").strip()

    def __enter__(self):
        return self.address

    def __exit__(self, *_):
        self.process.kill()
        self.process.communicate()


def new_log(scene):
    """A light certificate of a new log with its key, and the store that its landmark gives."""
    scene.run("openssl", "genpkey", "-algorithm", "ed25519", "-out", "key")
    key = scene.run("openssl", "pkey", "-in", "key", "-pubout").decode().split("\n")[1]
    scene.file("r", f'{DATES}dns = ["www.a.example", "*.b.example"]\nkey = "{key}"\n')
    scene.mtc("init-log", "j", LOG, 2, 64)
    for _ in range(5):
        scene.mtc("issue", "j", "r")
    scene.mtc("landmark", "j")
    scene.mtc("light-cert", "j", 3, into="cert")
    scene.mtc("entries", "j", 6, into="entries")
    scene.mtc("landmarks", "j", into="landmarks")
    scene.file("rules", f'[log]\nid = "{LOG}"\n\n')
    tables = scene.mtc("trust-landmarks", "landmarks", 2, "entries")
    scene.file("store", (scene.path / "rules").read_bytes() + tables)
    scene.file("revoked", (scene.path / "store").read_bytes() + b"[[revoked]]\nstart = 3\nend = 4\n")


def check_tls(scene):
    """TLS 1.3 with a light certificate and no signature in it: a client in Go takes it by `mtc verify`, and none that is refused"""
    lacks("go", "openssl")
    tls = scene.built_in_go("tls", EXAMPLES / "tls/main.go")
    new_log(scene)
    size = (scene.path / "cert").stat().st_size
    shown = scene.mtc("show", "cert").decode()
    yield from differ("its signatures", [line for line in shown.split("\n") if line.startswith("signature")], [])
    good = f"accepted 3\n{size} bytes of certificate; the server says: hello\n"
    with Server(tls, scene.path / "cert", scene.path / "key") as address:
        for what, name, store, now, status, printed, words in (
                ("the client", "www.a.example", "store", IN_TIME, 0, good, ""),
                ("a wildcard", "x.b.example", "store", IN_TIME, 0, good, ""),
                ("no landmark", "www.a.example", "rules", IN_TIME, 1, "refused TooFewCosigners 0\n", "exit status 3"),
                ("revoked", "www.a.example", "revoked", IN_TIME, 1, "refused Revoked\n", "exit status 3"),
                ("expired", "www.a.example", "store", LATER, 1, "refused Expired\n", "exit status 3"),
                ("another name", "bank.example", "store", IN_TIME, 1, "accepted 3\n", "not bank.example"),
                ("no store", "www.a.example", "none", IN_TIME, 1, "", "Absent")):
            ended = scene.ended(tls, "ask", address, name, store, now)
            yield from differ(what, (ended[0], ended[1].decode(), words in ended[2]), (status, printed, True))
    # Whoever has the certificate and another key fails in the handshake, though the certificate is good.
    with Server(tls, scene.path / "cert", EXAMPLES / "www.key") as address:
        ended = scene.ended(tls, "ask", address, "www.a.example", "store", IN_TIME)
        yield from differ("another key", (ended[0], ended[1], "invalid signature" in ended[2]), (1, b"accepted 3\n", True))
    # What README shows.
    with Server(tls, EXAMPLES / "www.cert", EXAMPLES / "www.key") as address:
        ended = scene.ended(tls, "ask", address, "www.example", EXAMPLES / "log.store", IN_TIME)
        size = (EXAMPLES / "www.cert").stat().st_size
        yield from differ("README", ended, (0, f"accepted 1\n{size} bytes of certificate; the server says: hello\n".encode(), ""))
