#!/bin/bash
# Makes a log of almost 16,777,216 entries, the most that one may have, whose tiles it rebuilds, and runs the commands of an
# authority, of a cosigner and of an auditor over it: once each, with the seconds of the processor and the most memory that it held.
# It fails if a command holds 1.5 GB. Needs python3, GNU time, ten gigabytes of disk below the folder that TMPDIR names, and some half
# an hour. Not part of the gate.
# Usage: bench/largest.sh [--write] [ENTRIES]   with --write the figures go into bench/largest/figures.txt
# shellcheck source=bench/program.sh
. "$(dirname "$0")/program.sh"
need_program
# Room for one entry, for a list of 700, and for what is left over.
count=$((${1:-16777216} - 1000))
cd "$work"

# Runs a command once, its output into a file, and prints a row: ran FILE OF COMMAND ARGUMENT..
ran() {
    local into=$1 of=$2 held
    shift 2
    once "\`$1\`${of:+ $of}" "$size entries" 0 "$program" "$@"
    mv found "$into"
    held=$(sed 's/.*|//; s/ MB//' least)
    [ "$held" -lt 1500 ] || { echo "wrong: $1 holds $held MB" >&2; exit 1; }
}

python3 "$root/bench/log/make_journal.py" "$count" log 65536
cp "$root/examples/www.request" request
for _ in $(seq 700); do
    echo "[[request]]"
    cat request
done >requests
head -c 48 /dev/zero >secret
size=$count
ran answer "of a log whose tiles are lost" tile-anew log
ran answer "" checkpoint log
ran answer "" issue log request
ran answer "of 700 requests" issue-list log requests
size=$((count + 701))
ran answer "" landmark log
ran answer "of what isn't stored yet" tile log
ran list "" landmarks log
ran light "" light-cert log $((size - 1))
ran certificates "of 700 certificates" light-certs log $((size - 700)) "$size"
ran consist "" consist log 0 "$size"
ran subtree "" subtree log 0 "$size" "$size"
"$program" init-cosigner cosigner 32473.2 32473.1 5 4 secret >key
ran answer "" advance cosigner consist
ran signature "by a key of height 5 and width 4" cosign cosigner subtree
ran certificate "" cert log $((size - 1)) 0 "$size" signature
ran export "" export cosigner
ran entries "of all entries" entries log "$size"
ran answer "of the last 256" entries-from log $((size - 256)) "$size"
ran answer "" root entries
ran trusted "of 1 landmark" trust-landmarks list 2 entries
printf '[log]\nid = "32473.1"\n[[cosigner]]\nid = "32473.2"\nkey = "%s"\n[[rule]]\ncosigners = ["32473.2"]\ncount = 1\n' "$(cat key)" >store
{ printf '[log]\nid = "32473.1"\n' && cat trusted; } >trusting
ran answer "of a certificate with 1 cosignature" verify certificate store 1767571200
ran answer "of a certificate without signatures" verify light trusting 1767571200
ran answer "of a certificate with 1 cosignature" audit certificate store 1767571200 entries export
cat answer
keep_figures largest "WORK|OF|SECONDS|MEMORY" <figures
