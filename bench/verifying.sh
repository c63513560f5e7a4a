#!/bin/bash
# How many certificates are judged a second on one processor, each time from its bytes on: by the C library, which reads the store each
# time too, and by OpenSSL a chain of two certificates of X.509 under a root that it holds. Certificates of a log of 1,024 entries: with
# a hash that the store trusts, and with 1 and 3 cosignatures by keys of height 10 and width 4 and 8. Processor time, the least of five
# rounds. Needs python3, openssl with its headers, and a C compiler. Not part of the gate.
# Usage: bench/verifying.sh [--write]   with --write the figures go into bench/verifying/figures.txt
# The variable PROGRAM names another program than that of ./mtc; LIBRARY a folder with libmtc.a in place of what tools/c_library.sh makes
# shellcheck source=bench/program.sh
. "$(dirname "$0")/program.sh"
need_program
[ -n "${LIBRARY-}" ] || "$root/tools/c_library.sh" "$work"
cc -O2 -I "$root/include" -o "$work/peer" "$root/bench/verifying/peer.c" "${LIBRARY:-$work}/libmtc.a" -lcrypto
python3 -B "$root/bench/verifying/make_files.py" "$program" "$work" >"$work/words"
mapfile -t words <"$work/words"
(cd "$work" && ./peer 1767571200 "${words[@]}") >"$work/took"
awk '
    $1 == "0" { work = "judging by the C library"; of = "1 certificate without signatures" }
    $1 ~ "/" { split($1, by, "/"); work = "judging by the C library"; of = "1 certificate with " by[1] " cosignatures of width " by[2] }
    $1 !~ "^[0-9]+(/|$)" { work = "OpenSSL, `X509_verify_cert`"; of = "1 chain of two certificates, " $1 }
    { sub(/1 cosignatures/, "1 cosignature", of); printf "%s|%s|%.7f||\n", work, of, $2 / 1e9 }' "$work/took" | tee "$work/figures"
keep_figures verifying "WORK|OF|SECONDS|CLOCK|SYNCS" <"$work/figures"
