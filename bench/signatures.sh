#!/bin/bash
# How fast keys are made, messages signed and signatures verified, as ratios within one run:
# against as many hashes of 55 bytes by the kit's sha2, one for each block of 64 bytes that the work
# hashes; against the same loops in C over OpenSSL, where gcc and OpenSSL's headers are there; and
# against BouncyCastle, where java and its jar are there (BCPROV names it, or /usr/share/java has it).
# Times are processor times of one thread.
# Usage: bench/signatures.sh [--write]   with --write the ratios go into bench/signatures/figures.txt
# shellcheck source=bench/program.sh
. "$(dirname "$0")/program.sh"
build_and_run signatures hss_core sha2 hex anyhow

# The same loops in C.
: > "$work/c"
if command -v gcc > /dev/null && gcc -O2 -Wno-deprecated-declarations -o "$work/signatures" "$root/bench/signatures/peer.c" -lcrypto 2> /dev/null; then
    "$work/signatures" > "$work/c"
    # The two make the same keys, or they are not to be compared.
    diff <(grep '^root ' "$work/printed") <(grep '^root ' "$work/c")
fi

# BouncyCastle's key generator, signer and verifier.
: > "$work/java"
jar=${BCPROV:-/usr/share/java/bcprov.jar}
if command -v javac > /dev/null && [ -e "$jar" ]; then
    (cd "$work" && javac -d . -cp "$jar" "$root/bench/signatures/Bench.java" && java -cp "$jar:." Bench) > "$work/java"
fi

# Milliseconds of a key, microseconds of a signature, and the ratios of the time spent.
awk '
    function ratio(a, b) { return b ? sprintf("%.2f", a / b) : "-" }
    FILENAME ~ /printed$/ && $1 == "bare" { bare[$2, ++seen[$2]] = $3; next }
    FILENAME ~ /printed$/ { kit[$1, $2] = $3; next }
    FILENAME ~ /c$/ { c[$1, $2] = $3; next }
    { java[$1, $2] = $3 }
    function keep(work, against, found) { if (found != "-") kept[work "|" against] = kept[work "|" against] " " found }
    END {
        printf "%-16s %5s %12s %12s %8s %8s\n", "work", "width", "time", "bare hashes", "C", "Java"
        for (w = 1; w <= 8; w *= 2) {
            both = kit["sign", w] + kit["verify", w]
            printf "%-16s %5d %9.1f ms %12s %8s %8s\n", "key of height 10", w, kit["make", w] / 1e6,
                ratio(kit["make", w], bare[w, 1]), ratio(kit["make", w], c["make", w]), ratio(kit["make", w], java["make", w])
            printf "%-16s %5d %9.1f us %12s %8s %8s\n", "sign", w, kit["sign", w] / 5e5,
                "", ratio(kit["sign", w], c["sign", w]), ratio(kit["sign", w], java["sign", w])
            printf "%-16s %5d %9.1f us %12s %8s %8s\n", "verify", w, kit["verify", w] / 5e5,
                "", ratio(kit["verify", w], c["verify", w]), ratio(kit["verify", w], java["verify", w])
            printf "%-16s %5d %9.1f us %12s %8s %8s\n", "sign and verify", w, both / 5e5,
                ratio(both, bare[w, 2]), ratio(both, c["sign", w] + c["verify", w]), ratio(both, java["sign", w] + java["verify", w])
            keep("making a key of height 10", "as many bare hashes of `sha2`", ratio(kit["make", w], bare[w, 1]))
            keep("making a key of height 10", "C over OpenSSL", ratio(kit["make", w], c["make", w]))
            keep("making a key of height 10", "BouncyCastle in Java", ratio(kit["make", w], java["make", w]))
            keep("signing and verifying", "as many bare hashes of `sha2`", ratio(both, bare[w, 2]))
            keep("signing", "C over OpenSSL", ratio(kit["sign", w], c["sign", w]))
            keep("verifying", "C over OpenSSL", ratio(kit["verify", w], c["verify", w]))
            keep("signing and verifying", "BouncyCastle in Java", ratio(both, java["sign", w] + java["verify", w]))
        }
        for (key in kept)
            print key "|" substr(kept[key], 2) > figures
    }' figures="$work/figures" "$work/printed" "$work/c" "$work/java"

keep_figures signatures "WORK|AGAINST|RATIOS" < "$work/figures"
