"""Makes the certificates of bench/verifying.sh: make_files.py PROGRAM FOLDER. Prints the arguments of peer.c, one a line.

Of a log of 1,024 entries: a certificate whose subtree's hash the store trusts, and with 1 and 3 signatures of cosigners with keys of
height 10 and width 4 and 8. Of X.509 a server's certificate, an intermediate one and a root, with each algorithm that OpenSSL has.
"""

import hashlib
import re
import subprocess
import sys
from pathlib import Path

sys.path.insert(0, str(Path(__file__).resolve().parents[1] / "issuing"))
from time_runs import ALGORITHMS, Folder, store_of  # noqa: E402

ROOT = Path(__file__).resolve().parents[2]
SIZE, INDEX, LOG = 1024, 777, "32473.1"
PARTIES = {"root": "basicConstraints=critical,CA:true\nkeyUsage=critical,keyCertSign\nsubjectKeyIdentifier=hash\n",
           "between": "basicConstraints=critical,CA:true\nkeyUsage=critical,keyCertSign\nsubjectKeyIdentifier=hash\n"
                      "authorityKeyIdentifier=keyid\n",
           "server": "subjectAltName=DNS:www.example\nauthorityKeyIdentifier=keyid\n"}


def certificates_of_a_log(folder, program):
    """Lines NAME, CERT, STORE."""
    subprocess.run([sys.executable, "-B", str(ROOT / "bench/log/make_journal.py"), str(SIZE), "journal"], cwd=folder.path, check=True)
    store_of(folder, program)
    for name, words in (("consist", (0, SIZE)), ("subtree", (0, SIZE, SIZE))):
        (folder.path / name).write_bytes(folder.run(program, name, "journal", *map(str, words))[1])
    (folder.path / "light").write_bytes(certificate(folder, program, b""))
    yield "0", "light", "store"
    for width in ("4", "8"):
        signatures, store = [], f'[log]\nid = "{LOG}"\n'
        for number in (2, 3, 4):
            own, journal = f"32473.{number}", f"cosigner-{width}-{number}"
            (folder.path / "secret").write_bytes(hashlib.sha384(journal.encode()).digest())
            key = folder.run(program, "init-cosigner", journal, own, LOG, "10", width, "secret")[1].decode().strip()
            folder.run(program, "advance", journal, "consist")
            signatures.append(folder.run(program, "cosign", journal, "subtree")[1])
            store += f'[[cosigner]]\nid = "{own}"\nkey = "{key}"\n'
        for count in (1, 3):
            named = ", ".join(f'"32473.{number}"' for number in (2, 3, 4)[:count])
            (folder.path / f"store-{width}-{count}").write_text(f"{store}[[rule]]\ncosigners = [{named}]\ncount = {count}\n")
            (folder.path / f"cert-{width}-{count}").write_bytes(certificate(folder, program, b"".join(signatures[:count])))
            yield f"{count} {width}", f"cert-{width}-{count}", f"store-{width}-{count}"


def certificate(folder, program, signatures):
    (folder.path / "signatures").write_bytes(signatures)
    return folder.run(program, "cert", "journal", str(INDEX), "0", str(SIZE), "signatures")[1]


def chain(folder, algorithm):
    """Whether OpenSSL has the algorithm; then there are its three certificates."""
    above = None
    for party, extensions in PARTIES.items():
        words = ALGORITHMS["Ed25519"] if party == "server" else ALGORITHMS[algorithm]
        if subprocess.run(["openssl", "genpkey", *words, "-out", f"{party}.key"], cwd=folder.path, capture_output=True).returncode:
            return False
        (folder.path / "extensions").write_text(extensions)
        folder.run("openssl", "req", "-new", "-key", f"{party}.key", "-subj", f"/CN={party}", "-out", "csr")
        signed = ["-CA", f"{above}.pem", "-CAkey", f"{above}.key"] if above else ["-signkey", f"{party}.key"]
        folder.run("openssl", "x509", "-req", "-in", "csr", *signed, "-set_serial", "77", "-days", "30", "-extfile", "extensions",
                   "-out", f"{party}.pem")
        folder.run("openssl", "x509", "-in", f"{party}.pem", "-outform", "DER", "-out", f"{party}-{algorithm}")
        above = party
    return True


def main(program, path):
    folder = Folder(path)
    for name, *files in certificates_of_a_log(folder, str(Path(program).resolve())):
        print("mtc", re.sub(" ", "/", name), *files, sep="\n")
    for algorithm in ALGORITHMS:
        if chain(folder, algorithm):
            print("x509", algorithm, *(f"{party}-{algorithm}" for party in ("server", "between", "root")), sep="\n")
        else:
            print(f"left out: verifying: this OpenSSL has no {algorithm}", file=sys.stderr)


if __name__ == "__main__":
    main(*sys.argv[1:])
