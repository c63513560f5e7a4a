#!/bin/bash
# A mirror takes all entries of a log at once, by tools/take_entries.sh, and has a cosigner with a key of height 5 and width 4 advance
# to them and sign: the seconds of the processor, and the most memory that a command held. How long the journal is beside the list
# is compared, and fails the script where docs/OPERATIONS.md says something else. Needs python3 and GNU time. Not part of the gate.
# Usage: bench/mirrors.sh [--write] [MOST]   with --write the figures go into bench/mirrors/figures.txt; logs of more than MOST
# entries, 100,000 if nothing is said, are left out
# shellcheck source=bench/program.sh
. "$(dirname "$0")/program.sh"
most=${1:-100000}
need_program
cd "$work"
head -c 48 /dev/zero >secret

# The script's own work is beside that of the commands; so is the one more that finds nothing new, and `root`.
export MTC=$program
# Backquotes are meant as such: the page has them.
# shellcheck disable=SC2016
for count in 1000 10000 100000 1000000; do
    [ "$count" -le "$most" ] || continue
    python3 "$root/bench/log/make_journal.py" "$count" log
    "$program" entries log "$count" >entries
    rm -f m m.tiles s
    "$program" mirror-init m 32473.1 >/dev/null
    "$program" init-cosigner s 32473.2 32473.1 5 4 secret >/dev/null
    once '`mirror-take` until nothing is new' "$count entries" 0 "$root/tools/take_entries.sh" m entries
    [ "$(cat found)" = "$count" ] || { echo "wrong: take_entries printed $(cat found) of $count" >&2; exit 1; }
    records=$(python3 - <<'END'
text, place, count = open("m", "rb").read(), 16, 0
while text[place]:
    place, count = place + 5 + int.from_bytes(text[place + 1:place + 5], "big"), count + 1
print(count - 1)
END
)
    # The header, the record of the log's id, eight bytes a record beside its items, and the last commit byte.
    longer=$(($(wc -c <m) - $(wc -c <entries)))
    [ "$longer" -eq $((16 + 11 + 8 * records + 1)) ] || { echo "wrong: the journal is $longer bytes longer than the list" >&2; exit 1; }
    echo "$count entries: $records records, $(wc -c <m) bytes"
    once '`mirror-take` of nothing new' "$count entries" 4 "$program" mirror-take m entries
    once '`mirror-advance`' "$count entries" 0 "$program" mirror-advance s m "$count"
    once '`mirror-cosign`' "$count entries" 0 "$program" mirror-cosign s m 0 "$count"
    once '`mirror-entries` of all entries' "$count entries" 0 "$program" mirror-entries m "$count"
    cmp -s found entries || { echo "wrong: the entries of $count" >&2; exit 1; }
    once '`mirror-tile`' "$count entries" 0 "$program" mirror-tile m
    once '`mirror-cosign` with tiles' "$count entries" 0 "$program" mirror-cosign s m 0 "$count"
done
keep_figures mirrors "WORK|OF|SECONDS|MEMORY" <figures
