#!/bin/bash
# Audits a certificate that three cosigners have signed, with keys of height 10 and width 4, over logs of 1,024 up to 1,048,576
# entries and the export of one of them. Then audits the certificate over lists that are none of its log's: of the shortest items,
# four bytes each, and of the longest entries. It prints seconds of the processor, the least of five runs, or of as many as the
# variable ROUNDS says, and the most memory held. Lists after which two strings with one hash are looked for can't be had.
# An audit that stands hashes six blocks of SHA-256 an entry. So beside each log stands what it takes to read as many bytes and to
# hash them once: by openssl, and by the program's own hash, the kit's sha2. Of the largest log, and of the largest list of the
# shortest items, the ratios to both are printed, at six blocks an item too; of that list an audit hashes no more items than
# the cosigner holds. Needs python3, GNU time and openssl. Not part of the gate.
# Usage: bench/audit.sh [--write] [MOST]   with --write the figures go into bench/audit/figures.txt, and the ratios into
# ratios.txt. Logs of more than MOST entries are left out, and lists of more than 64 times MOST bytes
# shellcheck source=bench/program.sh
. "$(dirname "$0")/program.sh"
most=${1:-16777216}
need_program
cd "$work"

# Prints the row of the program's own hash over the blocks of so many entries, and keeps it.
own_hash() {
    for _ in $(seq "${ROUNDS:-5}"); do
        run_again audit <names
    done | awk 'NR == 1 || $2 < least { least = $2 } END { printf "%.2f\n", least / 1e9 }' >own
    by_own=$(cat own)
    echo "six blocks of SHA-256 an entry, by the program's hash|$1 entries|${by_own/#0.00/below 0.01}|" | tee -a figures
}

# A number as the page has it.
grouped() {
    sed -E ':again; s/([0-9])([0-9]{3})($|,)/\1,\2\3/; t again' <<<"$1"
}

# Prints the ratios of some work that took so long to what six blocks take of each of so many items, once:
# ratios WORK SECONDS ITEMS.
ratios() {
    awk -v work="$1" -v seconds="$2" -v share="$(($3 * 1000 / largest))" -v openssl="$by_openssl" -v own="$by_own" '
        function row(against, each) {
            if (seconds + 0 > 0 && each + 0 > 0)
                printf "%s|reading and hashing six blocks an item once, by %s|%.2f\n", work, against, seconds / (each * share / 1000)
        }
        BEGIN { row("openssl", openssl); row("the program'"'"'s hash", own) }' | tee -a against
}

# Backquotes are meant as such: the page has them.
# shellcheck disable=SC2016
{ audited='`audit` of a certificate with 3 cosignatures'; shortest='`audit`, the shortest items'; longest='`audit`, the longest entries'; }
{ printf '[log]\nid = "32473.1"\n'; for n in 2 3 4; do
    printf '%048d' "$n" >"secret$n"
    printf '[[cosigner]]\nid = "32473.%d"\nkey = "%s"\n' "$n" "$("$program" keygen 10 4 "secret$n")"
done; printf '[[rule]]\ncosigners = ["32473.2", "32473.3", "32473.4"]\ncount = 2\n'; } >store
head -c 384 /dev/zero >blocks
echo "$work/blocks" >names
build_and_run audit sha2 anyhow <names
for count in 1024 10000 100000 1048576; do
    [ "$count" -le "$most" ] || continue
    python3 "$root/bench/log/make_journal.py" "$count" journal
    "$program" consist journal 0 "$count" >advance
    "$program" subtree journal 0 1024 "$count" >subtree
    rm -f signatures s2 s3 s4
    for n in 2 3 4; do
        "$program" init-cosigner "s$n" "32473.$n" 32473.1 10 4 "secret$n" >/dev/null
        "$program" advance "s$n" advance >/dev/null
        "$program" cosign "s$n" subtree >>signatures
    done
    "$program" export s2 >"export"
    "$program" cert journal 1000 0 1024 signatures >cert
    "$program" entries journal "$count" >entries
    row "$audited" "$count entries" 0 "$program" audit cert store 1767225600 entries export
    [ "$(cat found)" = "stands 1000" ] || { echo "wrong: $count entries: $(cat found)"; exit 1; }
    largest=$count audit=$(cut -d '|' -f 1 least)
    head -c $((count * 384)) /dev/zero >blocks
    row "six blocks of SHA-256 an entry, by openssl" "$count entries" 0 openssl dgst -sha256 blocks
    by_openssl=$(cut -d '|' -f 1 least)
    own_hash "$count"
    rm blocks
done

items=''
# A list that isn't the log's is foreign: all of it is read, and as many of its first entries are hashed as the cosigner holds.
for size in 1048576 67108864 1073741824; do
    [ "$size" -le $((most * 64)) ] || continue
    head -c "$size" /dev/zero >entries
    row "$shortest" "$size bytes" 3 "$program" audit cert store 1767225600 entries export
    items=$((size / 4)) of_shortest=$(cut -d '|' -f 1 least)
    python3 -c '
import sys
item = b"\xff\xff" + bytes(65535) + b"\0\0"
sys.stdout.buffer.write(item * (int(sys.argv[1]) // len(item)))' "$size" >entries
    row "$longest" "$(stat -c %s entries) bytes" 3 "$program" audit cert store 1767225600 entries export
done
ratios "\`audit\`, $(grouped "$largest") entries" "$audit" "$largest"
[ -z "$items" ] || ratios "\`audit\`, $(grouped "$items") of the shortest items" "$of_shortest" "$items"
keep_figures audit "WORK|OF|SECONDS|MEMORY" <figures
keep_figures audit "WORK|AGAINST|RATIOS" ratios <against
