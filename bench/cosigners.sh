#!/bin/bash
# How long commands take over a log of 1,024 entries and three cosigners with keys of height 10 and width 4, and the most memory
# that they hold: `verify` of a certificate with three signatures, `advance` and `cosign` of a new cosigner, opening a cosigner
# whose one-time keys have all signed, so that `cosign` is refused, and its export; and `advance` of a new cosigner with keys of
# width 4 and 8. How long three of the four syncs of `advance` or `cosign` take by themselves, in a folder of the same disk. And
# commands over cosigners of two levels with up to 999,000 signatures whose proofs have 20 hashes.
# Needs python3 and GNU time. Not part of the gate.
# Usage: bench/cosigners.sh [--write]   with --write the figures go into bench/cosigners/figures.txt
# shellcheck source=bench/program.sh
. "$(dirname "$0")/program.sh"
need_program
python3 -B "$root/bench/judging/make_files.py" "$program" "$work"
cd "$work"
"$program" init-cosigner s 32473.2 32473.1 10 4 secret >/dev/null

# Backquotes are meant as such: the page has them. By the clock:
# shellcheck disable=SC2016
{
    BY_CLOCK=1 once '`verify` of a certificate of 1,024 entries' '3 cosignatures' 0 "$program" verify c store 1767225600
    BY_CLOCK=1 once '`advance`' 'a new cosigner' 0 "$program" advance s advance
    BY_CLOCK=1 once '`cosign`, with its key of height 10' 'a new cosigner' 0 "$program" cosign s subtree
    BY_CLOCK=1 once 'opening a cosigner' '1024 signatures' 4 "$program" cosign full subtree
    BY_CLOCK=1 once '`export`' '1024 signatures' 0 "$program" export full
    printf '%s|%s|%s|\n' 'three of the four syncs of `advance` or `cosign`, the least and the most of 25 rounds' 'a small file' \
        "$("$root/bench/cosigners/syncs.py" "$work")" | tee -a figures
}
# Cosigners of two levels, of heights 10 and 10 and width 4: opening one, as `child` does, which is refused while one-time keys are
# left; `cosign`, which makes two trees; and `export`, which makes one. In processor time.
for count in 999 99900 999000; do
    python3 -B "$root/bench/cosigners/make_journal.py" "$count" wide request
    # shellcheck disable=SC2016
    {
        once 'opening a cosigner of two levels, processor time' "$count signatures" 4 "$program" child wide
        once '`cosign` by a cosigner of two levels, processor time' "$count signatures" 0 "$program" cosign wide request
        once '`export` of a cosigner of two levels, processor time' "$((count + 1)) signatures" 0 "$program" export wide
    }
done
keep_figures cosigners "WORK|OF|SECONDS|MEMORY" <figures
