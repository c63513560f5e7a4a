#!/bin/bash
# Takes the entries of a file into a mirror, one record after the other, until the mirror has them all. A run that was stopped is
# given again: the next one continues. ENTRIES, a plain file, has all entries of the log from the null entry on; or with --from those from
# the index FIRST on, as `mtc entries-from LOG FIRST SIZE` writes them, and the mirror has those before. Each `mirror-take` gets what the
# mirror has and one record more. So its copy, in TMPDIR, is written once.
# With CHECKPOINT nothing is taken before the list's root is the one that the log published: the two lines of `mtc checkpoint`, or with
# VERIFIER a signed note (check_note.py). Entries after its size are left out. Without CHECKPOINT nothing shows that the list is the log's,
# and what is taken can't be taken away.
# It is tested, and not proved; `mtc` is.
# Usage: tools/take_entries.sh [--from FIRST] MIRROR ENTRIES [CHECKPOINT [VERIFIER]]
#        prints how many entries the list has, a size for `mtc mirror-advance`
# MTC names the program, and else it is `mtc`. The statuses are those of `mtc mirror-take` and `mtc mirror-entries`, and these:
#   24  the list has fewer entries than CHECKPOINT says, or another root: nothing was taken
#   25  CHECKPOINT is none, or isn't signed by VERIFIER: nothing was taken
#   64  the arguments are others
set -euo pipefail
shopt -s inherit_errexit
mtc=${MTC-mtc} first=0
tools=$(dirname "$(readlink -f "${BASH_SOURCE[0]}")")

refuse() {
    echo "take_entries: $2" >&2
    exit "$1"
}

if [ "${1-}" = --from ] && [[ ${2-} =~ ^[0-9]{1,18}$ ]]; then
    first=$2
    shift 2
fi
if [ $# -lt 2 ] || [ $# -gt 4 ] || [ ! -f "$2" ]; then
    refuse 64 "[--from FIRST], MIRROR and ENTRIES, a plain file, and perhaps CHECKPOINT and VERIFIER"
fi
mirror=$1 entries=$2
work=$(mktemp -d)
trap 'rm -rf "$work"' EXIT

# Size and root that the log published.
if [ $# -eq 4 ]; then
    "$tools/check_note.py" "$3" "$4" >"$work/wanted" || refuse 25 "$3 isn't a checkpoint that the log signed"
elif [ $# -eq 3 ]; then
    head -c 200 -- "$3" >"$work/wanted" || refuse 25 "$3 can't be read"
    printf '%s\n' "$(<"$work/wanted")" | grep -qzxP 'size [1-9]\d{0,18}\nroot [0-9a-f]{64}\n' || refuse 25 "$3: not the two lines of \`mtc checkpoint\`"
fi
most=$(sed -n 's/^size //p' "$work/wanted" 2>/dev/null) || most=-1

# How many entries the mirror has is what it answers to a size that none has.
status=0
why=$("$mtc" mirror-entries "$mirror" 9000000000000000000 2>&1 >/dev/null) || status=$?
[[ "$status ${why##*$'\n'}" =~ ^"4 mtc: mirror-entries: Beyond "([0-9]+)$ ]] || { echo "$why" >&2; exit $status; }
has=${BASH_REMATCH[1]}
[ "$first" -le "$has" ] || refuse 4 "the mirror has $has entries, and those from $has to $first are missing"

# Prints an offset of ENTRIES and the index there, after each record's worth that the mirror lacks, and at last where the list ends. A part
# of an item at its end belongs to the last record, whose reader refuses it.
python3 - "$entries" "$first" "$has" "$most" >"$work/ends" <<'END'
import sys

RECORD, ITEMS = 131069, 65535
path, (index, has, most) = sys.argv[1], map(int, sys.argv[2:])
with open(path, "rb") as file:
    length, at, begin, count = file.seek(0, 2), 0, 0, 0
    file.seek(0)
    while at < length and not 0 <= most <= index:
        if index == has:
            begin, count = at, 0
        end = at
        for _ in range(2):
            end += 2 + int.from_bytes(file.read(2), "big")
            file.seek(end)
        if index >= has and at > begin and (end - begin > RECORD or count == ITEMS):
            print(at, index)
            begin, count = at, 0
        if end > length:
            at = length
            break
        at, index, count = end, index + 1, count + 1
print(at, index)
END
mapfile -t ends <"$work/ends"
read -r end size <<<"${ends[-1]}"
[ "$first" -eq 0 ] || "$mtc" mirror-entries "$mirror" "$first" >"$work/list"
if [ "$most" -ge 0 ]; then
    { [ ! -e "$work/list" ] || cat "$work/list"; head -c "$end" -- "$entries"; } | "$mtc" root /dev/stdin >"$work/found"
    cmp -s "$work/found" "$work/wanted" || refuse 24 "$entries isn't the log's: $(paste -sd ' ' "$work/found"), and wanted is $(paste -sd ' ' "$work/wanted")"
fi

at=0
for line in "${ends[@]}"; do
    read -r end index <<<"$line"
    dd if="$entries" iflag=skip_bytes,count_bytes bs=1M skip=$at count=$((end - at)) status=none >>"$work/list"
    at=$end
    status=0
    while [ $status -eq 0 ] && [ "$has" -lt "$index" ] || [ "$end $index" = "${ends[-1]}" ]; do
        printed=$("$mtc" mirror-take "$mirror" "$work/list" 2>"$work/why") || status=$?
        [ $status -eq 0 ] || break
        has=${printed##* }
    done
    # That there is nothing new is how it ends; every other refusal is for a person to read.
    if [ $status -ne 0 ] && { [ $status -ne 4 ] || [ "$(tail -n 1 "$work/why")" != "mtc: mirror-take: NothingNew" ]; }; then
        cat "$work/why" >&2
        exit $status
    fi
done
echo "$size"
