#!/bin/bash
# Judges a certificate by stores that take the reader of TOML long, or much memory, for their bytes, and prints the seconds of the
# processor and the most memory held: the least of five runs, since work can only be held up. `issue` reads a request by the same
# reader. Then it prints the least stack, of some, with which the deepest tables are read. Needs python3 and GNU time. Not part
# of the gate.
# Usage: bench/toml.sh [--write] [MOST]   with --write the figures go into bench/toml/figures.txt. Files of more than MOST bytes are
# left out (else the largest has 16,777,216, and takes a quarter of an hour)
# shellcheck source=bench/program.sh
. "$(dirname "$0")/program.sh"
most=${1:-16777216}
need_program

# One kind of file, of some sizes: kind, what a page calls it, sizes.
measure() {
    local kind=$1 name=$2 size
    shift 2
    for size; do
        [ "$size" -le "$most" ] || continue
        python3 "$root/bench/toml/make_file.py" "$kind" "$size" "$work/store"
        row "reading a store: $name" "$(stat -c %s "$work/store") bytes" 2 "$program" verify "$root/examples/www.cert" "$work/store" 1767225600
    done
}

measure header "a header of half its bytes" 65536 262144 1048576 2097152 16777216
measure tables "inline tables of six bytes" 65536 1048576 4194304 16777216
measure numbers "numbers of two bytes" 65536 1048576 16777216

python3 "$root/bench/toml/make_file.py" nested 0 "$work/store"
for stack in 256 512 1024 1536 2048 3072 4096 8192; do
    status=0
    (ulimit -s "$stack" && exec "$program" verify "$root/examples/www.cert" "$work/store" 1767225600) >"$work/found" 2>&1 || status=$?
    echo "$(stat -c %s "$work/store") bytes of 6,559 nested tables, with $stack KiB of stack: status $status"
    [ "$status" -ne 2 ] || break
done
keep_figures toml "WORK|OF|SECONDS|MEMORY" <"$work/figures"
