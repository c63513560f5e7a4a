#!/bin/bash
# Opens logs of up to 1,048,576 entries without tiles, with tiles that were stored at once, and
# with tiles that were stored as the log grew, and prints seconds and the most memory held: for the tree hash, and for the
# certificate of one entry in the whole tree. Of the opening alone it prints
# the processor time, the least of five runs; beside it the time in which openssl reads and hashes the journal's bytes once,
# how much `issue` takes beside an opening, and how often the journal is read, where strace is there. The journals are made by
# a script of its own, since adding an entry by `issue` opens the log again each time. Needs python3 and GNU time. Not part of
# the gate.
# Usage: bench/log.sh [--write]   with --write the figures go into bench/log/figures.txt
# shellcheck source=bench/program.sh
. "$(dirname "$0")/program.sh"

# The rows of a log as it is now, and a line of how long its journal is, how often an opening reads it, its end among it, which is read
# to be written again, and the hash of its tree.
rows() {
    local how=$1 reads=-
    row "opening a log$how, processor time" "$count entries" 0 "$program" landmarks journal
    opening=$(cut -d '|' -f 1 least)
    BY_CLOCK=1 once "opening a log$how and making a certificate" "$count entries" 0 "$program" cert journal 777 0 "$count" none
    BY_CLOCK=1 once "opening a log$how and computing its tree hash" "$count entries" 0 "$program" checkpoint journal
    ! strace -qq -P journal -e trace=pread64 -o trace "$program" landmarks journal >/dev/null 2>&1 || reads=$(wc -l <trace)
    echo "         $(stat -c %s journal) bytes, read $reads times; $(grep root found | cut -c1-21)"
}

[ $# -gt 0 ] || set -- 1000 10000 100000 1000000 1048576
need_program
cd "$work"
: >none
for count; do
    rm -f journal*
    python3 "$root/bench/log/make_journal.py" "$count" journal
    rows ""
    without=$opening
    ! command -v openssl >/dev/null ||
        row "reading and hashing a journal once by openssl, processor time" "$count entries" 0 openssl dgst -sha256 journal
    "$program" tile journal >/dev/null
    rows " with tiles"
    if [ "$count" -lt 1048570 ]; then
        row "\`issue\` on a log with tiles, processor time" "$count entries" 0 "$program" issue journal "$root/examples/www.request"
        echo "         an opening takes $opening with tiles, $without without"
    fi
    # The file of the tiles is the same, whenever they were stored.
    python3 "$root/bench/log/make_journal.py" "$count" journal 256
    rows " tiled as it grew"
done
keep_figures log "WORK|OF|SECONDS|MEMORY" <figures
