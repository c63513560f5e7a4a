#!/bin/bash
# Shows certificates of 64 KB, of 1 MB and of an input file's limit that consist of different extensions, and prints seconds of the
# processor, the least of five runs, and the most memory held. Such a certificate is what takes longest to read: each identifier is
# to be compared with all others. Then trusts landmarks by entries that have 65 extensions each. Needs python3 and GNU time. Not
# part of the gate.
# Usage: bench/extensions.sh [--write] [MOST]   with --write the figures go into bench/extensions/figures.txt. Files of more than MOST
# bytes are left out
# shellcheck source=bench/program.sh
. "$(dirname "$0")/program.sh"
most=${1:-67108864}
need_program

for size in 64000 1000000 16777000; do
    [ "$size" -le "$most" ] || continue
    python3 "$root/bench/extensions/make_certificate.py" "$size" "$work/certificate"
    row "\`show\` of extensions that all differ" "$size bytes" 0 "$program" show "$work/certificate"
done
printf '1 1\n4\n0\n' >"$work/landmarks"
for size in 1000000 16777000 67108864; do
    [ "$size" -le "$most" ] || continue
    python3 "$root/bench/extensions/make_entries.py" "$size" "$work/entries"
    row "trusting landmarks by entries of 65 extensions each" "$size bytes" 0 "$program" trust-landmarks "$work/landmarks" 4 "$work/entries"
done
keep_figures extensions "WORK|OF|SECONDS|MEMORY" <"$work/figures"
