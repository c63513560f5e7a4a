#!/bin/bash
# What a cosigner does each day, with the guard of guarded_cosign.sh: it advances by the request of a log, signs the subtree of the
# other request once, and writes its export. A key of two levels gets its next lower tree when it needs one. In FOLDER lie
#   journal            made by `mtc init-cosigner` or `mtc init-cosigner2`
#   request            a folder, or a link to one, that is exchanged as a whole: `consist` and `subtree`, the requests of the log for one
#                      size, and perhaps `size`, that number, and `checkpoint`. Without it these files lie in FOLDER itself. Whoever
#                      runs this fetches them
#   verifier           perhaps: the line that `publish.py verifier` prints, from the log itself. Then each request has to be of the
#                      `checkpoint` that the log signed (check_note.py), so that nobody else can send requests
#   landmarks          perhaps: the list of landmarks that the log publishes
#   signature, signed, export   what goes back to the log, and what is published: a signature, its request, and the stored export. Copy
#                      them by `flock FOLDER/lock`. A run that is stopped never leaves a signature beside another request, and the next run
#                      mends the rest. An interval isn't signed twice in a row, since each signature costs a one-time key: only a run
#                      that is stopped between its record and the file `answer` costs one more
# It signs only a subtree that ends at the size that it holds, or at a landmark; with --any-subtree each one.
# KEPT is the stored export, on another disk: guarded_cosign.sh says what it is for, and its `begin` makes it, once.
# It is tested, and not proved; `mtc` is.
# Usage: tools/cosigner_day.sh [--any-subtree] FOLDER KEPT
# MTC names the program, and else it is `mtc`. The statuses are those of guarded_cosign.sh, and these:
#    7  FOLDER has no request
#   22  another run has FOLDER
#   24  the two requests aren't of one size, or the subtree ends neither at the held size nor at a landmark: nothing was signed. The log
#       asks again, from the size that `export` says
#   25  a request isn't of the checkpoint that the log signed, or that isn't there: nothing was recorded
#   64  the arguments are others
# cosigner_parts.sh reads some variables that are set here, and sets others.
# shellcheck disable=SC2034,SC2154
set -euo pipefail
shopt -s inherit_errexit
who=cosigner_day mtc=${MTC-mtc} any=
tools=$(dirname "$(readlink -f "${BASH_SOURCE[0]}")")
# shellcheck source=tools/cosigner_parts.sh
. "$tools/cosigner_parts.sh"
if [ "${1-}" = --any-subtree ]; then
    any=yes
    shift
fi
if [ $# -ne 2 ] || [ ! -f "$1/journal" ]; then
    refuse 64 "FOLDER, with a journal in it, and KEPT"
fi
[ "${mtc#*/}" = "$mtc" ] || mtc=$(readlink -f "$mtc")
kept=$(readlink -m "$2")
export MTC=$mtc
cd "$1"
begin

# Copies the requests, so that they stay as they are in this run. No request has a twentieth of that limit.
copy_requests() {
    local from=. name
    if [ -d request ]; then from=$(readlink -f request); fi
    rm -rf asked
    mkdir asked
    for name in consist subtree; do
        [ -f "$from/$name" ] || refuse 7 "no request: $from/$name isn't there"
    done
    for name in consist subtree size checkpoint; do
        [ ! -f "$from/$name" ] || head -c 65537 -- "$from/$name" >"asked/$name"
    done
    if [ ! -e asked/checkpoint ] && [ -f checkpoint ]; then head -c 65537 checkpoint >asked/checkpoint; fi
}

# Refuses requests that the log didn't sign.
check_requests() {
    local name
    [ -e verifier ] || return 0
    [ -e asked/checkpoint ] || refuse 25 "there is a verifier, and no checkpoint"
    for name in consist subtree; do
        "$tools/check_note.py" asked/checkpoint verifier asked/$name >/dev/null || refuse 25 "$name isn't of the checkpoint that the log signed"
    done
}

# Whether subtrees that end at the size held, or here, are signed.
may_end_at() {
    [ -n "$any" ] || [ "$1" = "$2" ] || { [ -f landmarks ] && tail -n +2 landmarks | grep -qxF -- "$1"; }
}

copy_requests
id=$(id_of asked/consist)
size=$(number_at asked/consist "$id")
last=$(number_at asked/subtree $(($(id_of asked/subtree) + 8)))
asked=$(head -c 20 asked/size 2>/dev/null) || asked=$size
if [ -n "$size" ] && [ -n "$last" ]; then
    [ "$asked" = "$size" ] || refuse 24 "consist is for the size $size, and $asked is asked for"
    may_end_at "$last" "$size" || refuse 24 "consist is for the size $size, and subtree ends at $last, which is no landmark"
fi
check_requests

guard advance asked/consist
case "$status $(why_of)" in
    "0 "*) held=$size ;;
    # That it holds that size already is no fault; every other refusal is for a person to read.
    "4 mtc: advance: NotNewer "*) held=$(why_of | sed 's/.* //') ;;
    *) why_of >&2 && exit "$status" ;;
esac

# The same interval and hash: the proof after them may be another one.
if [ -f signed ] && [ -f signature ] && cmp -s -n $((id + 48)) asked/subtree signed; then exit 0; fi
may_end_at "$last" "$held" || refuse 24 "$held is held, and subtree ends at $last, which is no landmark: the log has to ask again"
sign asked/subtree cosign answer.new/signed
