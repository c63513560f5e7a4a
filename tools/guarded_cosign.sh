#!/bin/bash
# Releases a cosigner's signatures only while its journal has lost nothing. Before a command the export of the journal has to begin
# with the stored one. After the command what is new is stored, and only then a signature is released.
# KEPT, the file of that export, has to lie where nothing puts it back together with the journal: on another disk, and outside
# of the snapshots and images of the machine. It is never written again as a whole: what is new is appended and synced, and then
# KEPT.size gets the number of bytes that count. Bytes after these, which a stop may leave, are cut off by the next run. If KEPT.size
# isn't there or isn't one number, all of KEPT counts, but for zeros at its end. KEPT.new, KEPT.guard and JOURNAL.guard are made
# by this script too.
# Usage: tools/guarded_cosign.sh begin JOURNAL KEPT              stores the first export
#        tools/guarded_cosign.sh advance JOURNAL KEPT REQUEST    as `mtc advance JOURNAL REQUEST`
#        tools/guarded_cosign.sh cosign JOURNAL KEPT REQUEST     as `mtc cosign JOURNAL REQUEST`
#        tools/guarded_cosign.sh child JOURNAL KEPT              as `mtc child JOURNAL`
#        tools/guarded_cosign.sh mirror-advance JOURNAL KEPT MIRROR SIZE        as `mtc mirror-advance JOURNAL MIRROR SIZE`
#        tools/guarded_cosign.sh mirror-cosign JOURNAL KEPT MIRROR START END    as `mtc mirror-cosign JOURNAL MIRROR START END`
# MTC names the program, and else it is `mtc`. The statuses are those of the program, and these:
#   20  the journal has lost records, or it is another one: never sign with it again
#   21  there is no stored export, or it has fewer bytes than KEPT.size says; with `begin` there is one
#   22  another run of this script has the journal or KEPT
#   23  the export can't be stored; nothing was released. The journal may have the record by then: its key counts as used
#   64  the arguments are none of the above, JOURNAL is no file, or a file of this script is a journal or a symbolic link
set -euo pipefail
umask 077

refuse() {
    echo "guarded_cosign: $2" >&2
    exit "$1"
}

case "${1-}" in
    begin | child) [ $# -eq 3 ] || refuse 64 "$1 JOURNAL KEPT" ;;
    advance | cosign) [ $# -eq 4 ] || refuse 64 "$1 JOURNAL KEPT REQUEST" ;;
    mirror-advance) [ $# -eq 5 ] || refuse 64 "$1 JOURNAL KEPT MIRROR SIZE" ;;
    mirror-cosign) [ $# -eq 6 ] || refuse 64 "$1 JOURNAL KEPT MIRROR START END" ;;
    *) refuse 64 "begin, advance, cosign, child, mirror-advance or mirror-cosign" ;;
esac
command=$1 journal=$2 kept=$3
mtc=${MTC-mtc}
[ -f "$journal" ] || refuse 64 "$journal is no file"
folder=$(dirname -- "$kept")
# A link would lead to another disk until the first rename, and to none after it. And no file of this script may be the journal by
# another name, nor another journal.
for name in "$kept" "$kept.size" "$kept.new" "$kept.guard" "$journal.guard"; do
    [ ! -L "$name" ] || refuse 64 "$name is a symbolic link: name the file itself"
    if [ "$name" -ef "$journal" ] || [ "$(head -c 14 -- "$name" 2>/dev/null | tr -d '\0')" = mtc-journal/v1 ]; then
        refuse 64 "$name is a journal"
    fi
done
if [ "$(stat -Lc %d -- "$journal")" = "$(stat -Lc %d -- "$folder" || true)" ]; then
    echo "guarded_cosign: warning: $kept is on the disk of $journal: a snapshot would bring back both" >&2
fi

exec 9>>"$journal.guard" || refuse 22 "$journal.guard can't be opened"
flock -n 9 || refuse 22 "another run has $journal"
exec 8>>"$kept.guard" || refuse 22 "$kept.guard can't be opened"
flock -n 8 || refuse 22 "another run has $kept"

# Gives KEPT.new, once it is on the disk, this name.
place() {
    if ! sync -- "$kept.new" || ! mv -fT -- "$kept.new" "$1" || ! sync -- "$folder"; then
        refuse 23 "$1 can't be written: nothing is released"
    fi
}

# Lets so many bytes of KEPT count, which are on the disk.
count() {
    printf '%s\n' "$1" >"$kept.new" || refuse 23 "$kept.new can't be written: nothing is released"
    place "$kept.size"
    length=$1
}

# How many bytes KEPT has: without any no one can say what the journal has lost.
size() {
    [ -f "$kept" ] && [ -s "$kept" ] && wc -c <"$kept"
}

if [ "$command" = begin ]; then
    for name in "$kept" "$kept.size"; do
        [ ! -e "$name" ] || refuse 21 "$name is there: $kept is already the export of a journal"
    done
    : >"$kept.new" || refuse 23 "$kept.new can't be written"
    status=0
    "$mtc" export "$journal" >"$kept.new" || status=$?
    [ $status -ne 6 ] || refuse 23 "$kept.new can't be written"
    [ $status -eq 0 ] || exit $status
    place "$kept"
    count "$(wc -c <"$kept")"
    exit 0
fi

unknown="no one can say what $journal has lost"
length=$(size) || refuse 21 "$kept isn't there, is empty or can't be read: $unknown"
counted=$(head -c 32 -- "$kept.size" 2>/dev/null | tr '\0' x; echo .)
if [[ $counted =~ ^([1-9][0-9]{0,17})$'\n'\.$ ]]; then
    counted=${BASH_REMATCH[1]}
    [ "$counted" -le "$length" ] || refuse 21 "$kept has $length bytes, and not $counted as $kept.size says: $unknown"
    length=$counted
else
    sync -- "$kept" || refuse 23 "$kept can't be written: nothing is released"
    zeros=$(tail -c 65536 -- "$kept" | od -An -v -tx1 -w1 | awk '$1 != "00" { last = NR } END { print NR - last }')
    [ "$length" -gt "$zeros" ] || refuse 21 "$kept has zeros alone: $unknown"
    count $((length - zeros))
fi

# Compares the beginning of standard input with what counts of KEPT, and appends the rest.
append() {
    local found=0
    head -c "$length" 2>/dev/null | cmp -s -n "$length" -- - "$kept" || found=${PIPESTATUS[1]}
    if [ "$found" -ne 0 ]; then
        cat >/dev/null
        return $((19 + found))
    fi
    [ "$(size)" -eq "$length" ] || truncate -s "$length" -- "$kept" || return 23
    cat >>"$kept" || return 23
}

# Stores what is new in the export of the journal, where it begins with what counts of KEPT.
keep() {
    local statuses=(0 0) now
    now=$(size) && [ "$now" -ge "$length" ] || refuse 21 "$kept isn't there any more: $unknown"
    "$mtc" export "$journal" | append || statuses=("${PIPESTATUS[@]}")
    [ "${statuses[1]}" -ne 23 ] || refuse 23 "$kept can't be written: nothing is released"
    [ "${statuses[0]}" -eq 0 ] || exit "${statuses[0]}"
    case ${statuses[1]} in
        0) ;;
        20) refuse 20 "$journal has lost records that $kept has, or is another one: never sign with it again" ;;
        *) refuse 21 "$kept can't be read: $unknown" ;;
    esac
    now=$(size)
    if [ "$now" -ne "$length" ]; then
        sync -- "$kept" || refuse 23 "$kept can't be written: nothing is released"
        count "$now"
    fi
}

keep
# Where there is no room for a record, nothing is signed: two blocks are more than one has.
if ! : >>"$kept" || ! head -c 8192 /dev/zero >"$kept.new" || ! sync -- "$kept.new" || ! rm -- "$kept.new"; then
    refuse 23 "$kept or $kept.new can't be written: nothing is signed"
fi
before=$length
# What the command prints may hold any bytes, and no file has it before its record is stored.
printed=$("$mtc" "$command" "$journal" "${@:4}" | base64 -w 0) || exit $?
keep
[ "$length" -gt "$before" ] || refuse 20 "$journal has no record of what it did: never sign with it again"
printf %s "$printed" | base64 -d || exit 6
