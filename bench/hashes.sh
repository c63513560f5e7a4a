#!/bin/bash
# How fast `Sha` of tree_core hashes, on messages of 1 MiB and of 64 bytes: as ratios within one run against the
# same loops in C over OpenSSL, where gcc and OpenSSL's headers are there, and else against `openssl speed`.
# Three runs, one after the other. Times are processor times of one thread.
# Usage: bench/hashes.sh [--write]   with --write the ratios go into bench/hashes/figures.txt, if the peer is in C
# shellcheck source=bench/program.sh
. "$(dirname "$0")/program.sh"
build_and_run hashes tree_core anyhow

peer="OpenSSL in C"
if ! gcc -O2 -Wno-deprecated-declarations -o "$work/peer" "$root/bench/hashes/peer.c" -lcrypto 2> "$work/peer.err"; then
    peer="openssl speed"
fi

# Lines LENGTH NANOSECONDS COUNT of the peer.
run_peer() {
    if [ "$peer" = "OpenSSL in C" ]; then
        "$work/peer"
        return
    fi
    for length in 1048576 64; do
        openssl speed -seconds 1 -bytes "$length" -evp sha256 2>/dev/null | awk -v length_in="$length" \
            'tolower($1) == "sha256" { sub(/k$/, "", $2); printf "%d %.0f 1\n", length_in, length_in / ($2 * 1000) * 1e9 }'
    done
}

for run in 1 2 3; do
    run_again hashes | grep -E '^(1048576|64) [0-9]+ [0-9]+$' | sed "s/^/ours $run /"
    run_peer | sed "s/^/peer $run /" || true
done > "$work/all"

awk -v peer="$peer" '
    { each[$1, $2, $3] = $4 / $5 }
    END {
        for (which = 1; which <= 2; which++) {
            length_in = which == 1 ? 1048576 : 64
            line = (which == 1 ? "SHA-256 of 1 MiB" : "SHA-256 of 64 bytes") "|" peer "|"
            for (run = 1; run <= 3; run++) {
                ours = each["ours", run, length_in]
                theirs = each["peer", run, length_in]
                printf "%8d bytes: %8.1f MB/s, %s times the time of %s\n", length_in, length_in / ours * 1000,
                    theirs ? sprintf("%.2f", ours / theirs) : "?", peer > "/dev/stderr"
                line = line (run > 1 ? " " : "") (theirs ? sprintf("%.2f", ours / theirs) : "")
            }
            print line
        }
    }' "$work/all" > "$work/figures"

if [ "${1-}" = --write ] && [ "$peer" = "OpenSSL in C" ]; then
    keep_figures hashes "WORK|AGAINST|RATIOS" < "$work/figures"
fi
