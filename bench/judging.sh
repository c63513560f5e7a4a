#!/bin/bash
# How long a certificate is judged that three cosigners have signed, of a log of 1,024 entries, and
# how long `cosign` takes on a real file, each against as many hashes of one block by the kit's sha2:
# as the judgement takes, and as making a key of height 10 and width 4 takes, which `cosign` does again.
# Times are processor times, so that no wait for a disk is in them. Needs python3. Not part of the
# gate.
# Usage: bench/judging.sh [--write]   with --write the ratios go into bench/judging/figures.txt
# shellcheck source=bench/program.sh
. "$(dirname "$0")/program.sh"
need_program
python3 -B "$root/bench/judging/make_files.py" "$program" "$work"
build_and_run judging relying_party policy_core tree_core sha2 hex anyhow <"$work/line"

for _ in 1 2 3 4 5; do
    run_again judging <"$work/line"
done >>"$work/printed"
python3 -B "$root/bench/judging/commands.py" "$program" "$work" >"$work/commands"

# The least of several times, since work can only be held up. Making a key of height 10 and width 4
# takes as many blocks as bench/signatures counts.
awk -v against="as many bare hashes of \`sha2\`" -v blocks="$(cut -d ' ' -f 4 "$work/line")" -v key=1135614 '
    { each = NF == 2 ? $2 : $2 / $3 }
    !($1 in least) || each < least[$1] { least[$1] = each }
    END {
        printf "judging a certificate with three cosignatures|%s|%.2f\n", against, least["judge"] / (blocks * least["bare"])
        printf "`cosign` on a real file|%s|%.2f\n", against, least["cosign"] / (key * least["bare"])
    }' "$work/printed" "$work/commands" | tee "$work/figures"
keep_figures judging "WORK|AGAINST|RATIOS" <"$work/figures"
