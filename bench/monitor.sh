#!/bin/bash
# Runs a monitor that watches 1,000 domains, from the state of no entries: over logs of 1,024 up to 1,048,576 entries, over lists
# of the shortest items, four bytes each, of which each is reported as unread, and over lists of entries with as many of the
# shortest names as they can have, each of which is compared with each domain. Runs `root` over the same logs and the same
# shortest items. It prints seconds of the processor, the least of five runs, and the most memory held. Needs python3 and GNU
# time. Not part of the gate.
# Usage: bench/monitor.sh [--write] [MOST]   with --write the figures go into bench/monitor/figures.txt. Logs of more than MOST
# entries are left out, and lists of more than 64 times MOST bytes
# shellcheck source=bench/program.sh
. "$(dirname "$0")/program.sh"
most=${1:-16777216}
need_program
cd "$work"
"$program" monitor-init 32473.1 >state
for n in $(seq 1000); do echo "d$n.example.org"; done >watch

# The request to hold all entries of a file, with the root that the program computes.
request_of() {
    "$program" root "$1" | python3 -c '
import sys
size, root = (line.split()[1] for line in sys.stdin)
sys.stdout.buffer.write(bytes.fromhex("0481fd5901") + int(size).to_bytes(8, "big") + bytes.fromhex(root) + bytes(2))'
}

# Backquotes are meant as such: the page has them.
# shellcheck disable=SC2016
{ watched='`monitor` of 1,000 domains'; shortest='`monitor`, the shortest items'; names='`monitor` of 1,000 domains, the shortest names'; }
# shellcheck disable=SC2016
{ hashed='`root`'; shortest_hashed='`root`, the shortest items'; }
for count in 1024 10000 100000 1048576; do
    [ "$count" -le "$most" ] || continue
    python3 "$root/bench/log/make_journal.py" "$count" journal
    "$program" consist journal 0 "$count" >request
    "$program" entries-from journal 0 "$count" >entries
    row "$watched" "$count entries" 0 "$program" monitor state watch request entries
    [ "$(wc -l <found)" = 1 ] || { echo "wrong: $count entries: $(head -n 1 found)"; exit 1; }
    row "$hashed" "$count entries" 0 "$program" root entries
    [ "$(head -n 1 found)" = "size $count" ] || { echo "wrong: $count entries: $(cat found)"; exit 1; }
done
for size in 1048576 16777216 67108864; do
    [ "$size" -le $((most * 64)) ] || continue
    head -c "$size" /dev/zero >entries
    request_of entries >request
    row "$shortest" "$size bytes" 0 "$program" monitor state watch request entries
    [ "$(wc -l <found)" = $((size / 4 + 1)) ] || { echo "wrong: $size bytes: $(wc -l <found) lines"; exit 1; }
    row "$shortest_hashed" "$size bytes" 0 "$program" root entries
    [ "$(head -n 1 found)" = "size $((size / 4))" ] || { echo "wrong: $size bytes: $(cat found)"; exit 1; }
done
for size in 1048576 16777216; do
    [ "$size" -le $((most * 64)) ] || continue
    python3 "$root/bench/monitor/make_names.py" "$size" entries
    request_of entries >request
    row "$names" "$(stat -c %s entries) bytes" 0 "$program" monitor state watch request entries
    [ "$(wc -l <found)" = 1 ] || { echo "wrong: $size bytes of names: $(head -n 1 found)"; exit 1; }
done
keep_figures monitor "WORK|OF|SECONDS|MEMORY" <figures
