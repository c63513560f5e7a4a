#!/bin/bash
# Measures again what the first screens of docs/SPEED.md show, and makes the page: on a machine that does nothing else, in some five
# minutes. bench/issuing.sh, bench/commands.sh, bench/audit.sh with bench/verifying.sh, and bench/monitor.sh run side by side, each
# on a processor of its own, so it needs four. Their files are in memory, but those of bench/issuing.sh, whose syncs have the disk to
# themselves. What they say is in bench-page-NAME.log in the folder that TMPDIR names, or in /tmp.
# Instructions are counted apart, since they take an hour of the processor and no quiet machine: bench/commands.sh --instructions
# Usage: bench/page.sh
# The variables are those of these scripts: PROGRAM, LIBRARY, and ROUNDS (3)
set -eu
root=$(cd "$(dirname "$0")/.." && pwd)
logs=${TMPDIR:-/tmp}
export ROUNDS=${ROUNDS:-3}
[ "$(nproc)" -ge 4 ] || { echo "bench/page.sh: it needs four processors" >&2; exit 2; }
[ -n "${PROGRAM-}" ] || "$root/mtc" member "$root/examples/first.member" >/dev/null || exit 70
export PROGRAM=${PROGRAM:-$root/crates/mtc_main/out/mtc_main}

# Runs a script in the background, and says how it ended: begin NAME WORD.. Files in memory have no disk to wait for.
begin() {
    local name=$1
    shift
    "$root/bench/$name.sh" --write "$@" >"$logs/bench-page-$name.log" 2>&1 || { echo "wrong: bench/$name.sh"; return 1; }
    echo "bench/$name.sh: $SECONDS s"
}

begin issuing &
waited=$!
export TMPDIR=/dev/shm
begin commands &
waited+=" $!"
{ begin audit 1048576 && begin verifying; } &
waited+=" $!"
begin monitor 1048576 &
waited+=" $!"
status=0
for one in $waited; do
    wait "$one" || status=1
done
grep -h '^left out' "$logs"/bench-page-*.log || true
"$root/tests/documents.sh" --write || status=1
exit "$status"
