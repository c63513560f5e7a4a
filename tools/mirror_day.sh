#!/bin/bash
# What a mirror does each day, and the cosigner that signs through it, with the guard of guarded_cosign.sh: the mirror takes the entries
# that the log published, the cosigner advances to their root and signs the subtree of all of them once. In FOLDER lie
#   mirror             made by `mtc mirror-init`
#   journal            its cosigner, made by `mtc init-cosigner` or `mtc init-cosigner2`. It gets its steps by this script alone
#   steps              what the log publishes in public/steps: OLD-NEW.entries, the entries from OLD up to NEW. Without that folder
#                      `entries`, all entries. Whoever runs this fetches them
#   checkpoint         what the log says of them: a signed note if FOLDER has a `verifier` (check_note.py), and else the two lines of
#                      `mtc checkpoint`. Fetch it first. Without it whatever list is here is taken and signed
#   request/size       perhaps: the size that the log asks all cosigners for. The subtree up to there is signed, once the mirror has it
#   signature, signed, export   as of cosigner_day.sh; `signed` is a request without a proof
# KEPT is the stored export, on another disk: guarded_cosign.sh says what it is for, and its `begin` makes it, once. Without KEPT the
# mirror takes entries, and nothing is signed.
# It is tested, and not proved; `mtc` is.
# Usage: tools/mirror_day.sh FOLDER [KEPT]
# MTC names the program, and else it is `mtc`. The statuses are those of take_entries.sh and guarded_cosign.sh, and these:
#    7  FOLDER has no entries
#   22  another run has FOLDER
#   64  the arguments are others
# cosigner_parts.sh reads some variables that are set here, and sets others.
# shellcheck disable=SC2034,SC2154
set -euo pipefail
shopt -s inherit_errexit
who=mirror_day mtc=${MTC-mtc}
tools=$(dirname "$(readlink -f "${BASH_SOURCE[0]}")")
# shellcheck source=tools/cosigner_parts.sh
. "$tools/cosigner_parts.sh"
if [ $# -lt 1 ] || [ $# -gt 2 ] || [ ! -f "$1/mirror" ] || { [ $# -eq 2 ] && [ ! -f "$1/journal" ]; }; then
    refuse 64 "FOLDER, with a mirror in it; and KEPT, if it has a journal"
fi
[ "${mtc#*/}" = "$mtc" ] || mtc=$(readlink -f "$mtc")
kept=
[ $# -eq 1 ] || kept=$(readlink -m "$2")
export MTC=$mtc
cd "$1"
begin

# How many entries the mirror has.
size() {
    local why status=0
    why=$("$mtc" mirror-entries mirror 9000000000000000000 2>&1 >/dev/null) || status=$?
    case "$status $why" in
        "4 "*"mtc: mirror-entries: Beyond "*) echo "${why##* }" ;;
        *) refuse $status "$why" ;;
    esac
}

# Takes what is new of the list, in the end up to the checkpoint.
take() {
    local published=() step from last
    if [ -e checkpoint ]; then published=(checkpoint); fi
    if [ -e verifier ]; then published=(checkpoint verifier); fi
    if [ ! -d steps ]; then
        [ -f entries ] || refuse 7 "no entries: neither steps nor entries is there"
        "$tools/take_entries.sh" mirror entries ${published[0]+"${published[@]}"} >/dev/null
        return
    fi
    # The steps that follow each other from what the mirror has, as one list.
    has=$(size)
    from=
    last=$has
    : >new.entries
    while step=$(next_step "$last") && [ -n "$step" ]; do
        from=${from:-${step%-*}}
        cat "steps/$step.entries" >>new.entries
        last=${step#*-}
    done
    [ -n "$from" ] || return 0
    "$tools/take_entries.sh" --from "$from" mirror new.entries ${published[0]+"${published[@]}"} >/dev/null
    rm -f new.entries
}

# The step of which the first index isn't above this size, and the last one is: the next one exactly, but for the first.
next_step() {
    local file name
    for file in steps/*-*.entries; do
        name=${file#steps/}
        name=${name%.entries}
        [[ $name =~ ^([0-9]{1,18})-([0-9]{1,18})$ ]] || continue
        if [ "${BASH_REMATCH[2]}" -le "$1" ] || [ "${BASH_REMATCH[1]}" -gt "$1" ]; then continue; fi
        if [ -z "$from" ] || [ "${BASH_REMATCH[1]}" -eq "$1" ]; then
            echo "$name"
            return
        fi
    done
}

# The request that the signature up to a size is for: the log's id as the export has it, the interval and the hash, and no proof.
request() {
    local at root
    at=$((1 + $(od -An -v -t u1 -N 1 -- "$kept")))
    dd if="$kept" iflag=skip_bytes,count_bytes skip=$at count=$((1 + $(od -An -v -t u1 -j "$at" -N 1 -- "$kept"))) status=none
    root=$("$mtc" mirror-entries mirror "$1" | "$mtc" root /dev/stdin | sed -n 's/^root //p')
    # shellcheck disable=SC2059
    printf "$(printf '%016x%016x%s0000' 0 "$1" "$root" | sed 's/../\\x&/g')"
}

take
[ -n "$kept" ] || exit 0
size=$(size)
[ "$size" -gt 0 ] || exit 0
guard mirror-advance mirror "$size"
case "$status $(why_of)" in
    # That it holds that size already is no fault; every other refusal is for a person to read.
    "0 "* | "4 mtc: mirror-advance: NotNewer "*) ;;
    *) why_of >&2 && exit "$status" ;;
esac
asked=$(head -c 20 request/size 2>/dev/null) || asked=$size
[[ $asked =~ ^[1-9][0-9]{0,17}$ ]] && [ "$asked" -le "$size" ] || exit 0
# An interval isn't signed twice, and none that ends before the last one.
if [ -f signed ] && [ -f signature ] && [ "$(number_at signed $(($(id_of signed) + 8)))" -ge "$asked" ]; then exit 0; fi
into request.new request "$asked"
sign request.new mirror-cosign mirror 0 "$asked"
rm -f request.new
