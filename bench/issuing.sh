#!/bin/bash
# What it takes from a request to a certificate that is verified, at logs of some sizes: `issue`, `cert` over all entries and `verify`,
# each a run of the program, of the processor and by the clock, and what its syncs take of that. Then the same of lists of 10, 100 and
# 700 requests: one `issue-list`, one `certs`, and `verify` of each certificate in turn. The log has the size that is named when the
# entries are in it. The checkpoint between them isn't counted, nor are cosignatures of it (bench/cosigners.sh has these).
# Beside it what a user would take instead on the same machine: `openssl x509 -req` and `openssl verify`, with each algorithm that this
# OpenSSL has; and Go's sumdb/tlog, where Debian's golang-go and golang-golang-x-mod-dev are installed: StoredHashes into a file, with
# one sync a batch of 1, 10, 100 or 700 entries, at the last size, and no certificate. Needs python3, openssl and, for syncs, strace.
# Not part of the gate.
# Usage: bench/issuing.sh [--write] [ENTRIES ..]   with --write the figures go into bench/issuing/figures.txt
# The variable ROUNDS says of how many rounds the median counts (5)
# shellcheck source=bench/program.sh
. "$(dirname "$0")/program.sh"
[ $# -gt 0 ] || set -- 1000 100000 1048576
rounds=${ROUNDS:-5}
need_program

for count; do
    rm -f "$work"/journal*
    python3 -B "$root/bench/log/make_journal.py" "$count" "$work/journal"
    python3 -B "$root/bench/issuing/time_runs.py" log "$program" "$work" "$count" "$rounds" "$root/examples/www.request"
done | tee "$work/figures"
rm -f "$work"/journal*
python3 -B "$root/bench/issuing/time_runs.py" openssl "$work" "$rounds" | tee -a "$work/figures"

if go_peer issuing "$work" "$rounds" "${@: -1}" >"$work/appended"; then
    awk '{ printf "tlog'"'"'s `StoredHashes` into a file|a batch of %d, at %s entries|%.4f|%.4f|%.4f in 1\n", $2, $1, $3, $4, $5 }' \
        "$work/appended" | tee -a "$work/figures"
else
    echo "left out: issuing: Go or its sumdb/tlog isn't here" >&2
fi
keep_figures issuing "WORK|OF|SECONDS|CLOCK|SYNCS" <"$work/figures"
