#!/bin/bash
# How long `quarrel` takes over the largest export of signatures that one cosigner can make: 1,024, as many as a key of height 10
# has one-time keys, each of an entry of a log of 1,048,576, by a proof of 20 hashes. The program prints the export, and compares
# its signatures 98 times, so 100,352 of them: as a ratio against hashing each pair of hashes that the proofs open once, by the
# kit's hash. The program reads the file, opens each proof, and looks up each interval. Three rounds, of which the least times
# count, since work can only be held up. Of one run the processor seconds, the least of five, and the most memory held are printed.
# An export in which signatures are in conflict can't be had. Needs python3 and GNU time. Not part of the gate.
# Usage: bench/quarrel.sh [--write]   with --write the ratio goes into bench/quarrel/figures.txt
# shellcheck source=bench/program.sh
. "$(dirname "$0")/program.sh"
need_program
python3 -B "$root/bench/quarrel/make_journal.py" "$work/journal"
(cd "$work" && "$program" export journal >"export" && least_of_five 0 "$program" quarrel export >least)
echo "\`quarrel\`, $(stat -c %s "$work/export") bytes: $(tr '|' ' ' <"$work/least")" >&2
[ "$(cat "$work/found")" = agree ] || { echo "wrong: $(cat "$work/found")"; exit 1; }

# 1,024 proofs of 20 hashes, each opened by as many pairs.
echo "$((1024 * 20)) 98" >"$work/line"
build_and_run quarrel sha2 anyhow <"$work/line"
for _ in 1 2; do
    run_again quarrel <"$work/line" >>"$work/printed"
done
# shellcheck disable=SC2016
(cd "$work" && ROUNDS=3 least_of_five 0 bash -c 'for _ in $(seq 98); do "$0" quarrel export || exit; done' "$program") |
    awk -F '|' '{ printf "quarrel %.0f\n", $1 * 1e9 }' >"$work/runs_of_quarrel"

awk '
    !($1 in least) || $2 < least[$1] { least[$1] = $2 }
    END { printf "`quarrel` of 1,024 signatures with proofs of 20 hashes|hashing the openings once|%.2f\n", least["quarrel"] / least["bare"] }
    ' "$work/printed" "$work/runs_of_quarrel" | tee "$work/figures"
keep_figures quarrel "WORK|AGAINST|RATIOS" <"$work/figures"
