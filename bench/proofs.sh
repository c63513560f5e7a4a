#!/bin/bash
# How long proofs take, by SHA-256: pushing 2^20 leaves to a `Cache`, which keeps the hash of each full subtree, as a log
# does; making inclusion paths over the first 2^10, 2^16 and 2^20 of them, and over all but the last, where the subtrees at
# the right edge aren't full; making consistency proofs over 65,536; evaluating and checking a path and a proof of these. Then
# the same leaves in `Tiles` over a file: writing, reading back and adopting each tile (tile), paths of leaves whose tiles are
# in frames (held), and of leaves all over the list, for most of which a tile is read (read). Each is reported in nanoseconds and
# in hashes of a pair of nodes, measured in the same run. The same paths over `Listed`, which rebuilds each node, stand in the
# rows of `rebuilt-`. Times are processor times of one thread. Beside them stands the same work by Go's package sumdb/tlog,
# where it is installed (Debian's golang-go and golang-golang-x-mod-dev): it too keeps the hash of each full subtree, and it
# reads tiles that are in memory. Usage: bench/proofs.sh [--write]   with --write the figures go into bench/proofs/figures.txt
# shellcheck source=bench/program.sh
. "$(dirname "$0")/program.sh"
build_and_run proofs tile_store frame_pool disk_core tree_cache tree_proofs tree_core mtc_io anyhow
report() {
    grep -E '^[a-z]+(-[0-9]+)? [0-9]+ [0-9]+$' "$1" >"$work/lines"
    awk '
        FNR == NR { if ($1 == "pair") one = $2 / $3; next }
        { printf "%-12s %12.0f ns, %9.1f hashes of a pair\n", $1, $2 / $3, $2 / $3 / one }' "$work/lines" "$work/lines"
}
report "$work/printed"

if ! GOMAXPROCS=1 go_peer proofs >"$work/peer.txt"; then
    echo "no peer: Go and its package sumdb/tlog aren't installed"
    exit 0
fi
echo "Go's sumdb/tlog"
report "$work/peer.txt"

# The ratios of processor times.
awk '
    FNR == NR { theirs[$1] = $2 / $3; next }
    $1 ~ /^[a-z]+(-[0-9]+)?$/ && NF == 3 { ours[$1] = $2 / $3 }
    function ratio(what) { return sprintf("%.2f", ours[what] / theirs[what]) }
    END {
        print "evaluating an inclusion path|sumdb/tlog in Go|" ratio("evaluate")
        print "checking a consistency proof|sumdb/tlog in Go|" ratio("check")
        print "making a path or a proof|sumdb/tlog in Go|" ratio("path-65536") " " ratio("consist")
        print "making a path of 1,048,576 leaves|sumdb/tlog in Go|" ratio("path-1048576")
        print "making a path of 1,048,575 leaves|sumdb/tlog in Go|" ratio("path-1048575")
    }' "$work/peer.txt" "$work/printed" > "$work/figures"
keep_figures proofs "WORK|AGAINST|RATIOS" < "$work/figures"
