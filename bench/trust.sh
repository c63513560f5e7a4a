#!/bin/bash
# Trusts the subtrees of the landmarks of logs of up to 1,000,000 entries, one after each hundredth part of them, and prints
# seconds of the processor, the least of five runs, and the most memory held. Needs python3 and GNU time. Not part of the gate.
# Usage: bench/trust.sh [--write]   with --write the figures go into bench/trust/figures.txt
# shellcheck source=bench/program.sh
. "$(dirname "$0")/program.sh"
need_program
cd "$work"
for count in 1000 10000 100000 1000000; do
    python3 "$root/bench/log/make_journal.py" "$count" journal
    "$program" entries journal "$count" >entries
    { echo "100 100"; seq "$count" "-$((count / 100))" 0; } >list
    row "trusting the subtrees of 100 landmarks" "$count entries" 0 "$program" trust-landmarks list 100 entries
    [ "$(grep -c hash found)" -ge 100 ] || { echo "wrong: $count entries"; exit 1; }
done
keep_figures trust "WORK|OF|SECONDS|MEMORY" <figures
