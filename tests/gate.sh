#!/bin/bash
# Tests what `.ci/run` makes of what rt and the checks say: on a folder with stand-ins for all of them. It takes some seconds.
# Usage: tests/gate.sh
set -u
root=$(cd "$(dirname "$0")/.." && pwd)
folder=$(mktemp -d)
trap 'rm -rf "$folder"' EXIT
wrong=0
mkdir -p "$folder/bin" "$folder/.ci" "$folder/bench" "$folder/tests" "$folder/crates/a/must-fail" "$folder/crates/b/must-fail"
cp "$root/.ci/run" "$folder/.ci/"
cp "$root/bench/gate_costs.py" "$folder/bench/"
touch "$folder/crates/a/must-fail/one.edit" "$folder/crates/a/must-fail/two.edit" "$folder/crates/b/must-fail/one.edit"

stand_in() {
    printf '#!/bin/sh\n%s\n' "$2" >"$folder/$1"
    chmod +x "$folder/$1"
}
# So each script of tests/ has to be in a list of .ci/run. One says that it does a part.
for check in "$root"/tests/*.sh "$root"/tests/*.py; do
    stand_in "tests/${check##*/}" "echo ok"
done
# shellcheck disable=SC2016
stand_in tests/hostile_files.py '[ "${MTC_ALL-}" = 1 ] || echo "left out: hostile_files: 240 of 256 values"'
# shellcheck disable=SC2016
stand_in bin/rt '[ "$*" = ci ] || exit 9; printf "%s\n" "$LINES_OF_RT"; exit "$STATUS_OF_RT"'

# A case is the status of rt ci, what it says, what a check says and its status, what is set, and then the gate's status and
# last line.
apart="left out: tests/failed_sync.py: it makes zram disks as root, and takes minutes"
count=0
while IFS='|' read -r rt_status lines says check_status setting status last; do
    stand_in tests/commands.sh "printf '%s\n' '$says'; exit $check_status"
    found=$(cd "$folder" && env -u MTC_ALL ${setting:+"$setting"} PATH="$folder/bin:$PATH" STATUS_OF_RT="$rt_status" \
        LINES_OF_RT="rt: ok; handles allowed: none; $lines; every proof was done in this run" .ci/run)
    found="$?|$(grep -v '^cost: ' <<<"$found" | tail -n 1)"
    count=$((count + 1))
    if [ "$found" != "$status|${last/APART/$apart}" ]; then
        echo "wrong: $lines, $says, $setting: $found in place of $status|$last"
        wrong=1
    fi
done <<'TABLE'
0|must-fail edits: 3 refused|ok|0||0|APART
0|must-fail edits: 3 refused|ok|0|MTC_ALL=1|0|nothing was left out
0|must-fail edits: 2 refused|ok|0|MTC_ALL=1|1|nothing was left out
0|must-fail edits: 2 refused, 1 bad|ok|0||1|APART
0|must-fail edits: 3 refused, 1 of them only by a limit|ok|0||1|APART
0|must-fail edits: 13 refused|ok|0||1|APART
0|no edits|ok|0||1|APART
0|an edit: refused, as it must be (only because a file names it); must-fail edits: 3 refused|ok|0||1|APART
0|must-fail a/one.edit: refused, as it must be; must-fail a/two.edit: refused, as it must be: src/lib.rt; must-fail b/one.edit: refused, as it must be|ok|0||0|APART
0|must-fail a/one.edit: refused, as it must be; must-fail a/two.edit: BAD EDIT: no such text; must-fail b/one.edit: refused, as it must be|ok|0||1|APART
0|must-fail a/one.edit: refused, as it must be; must-fail a/one.edit: refused, as it must be; must-fail b/one.edit: refused, as it must be|ok|0||1|APART
0|must-fail edits: 3 refused|wrong: one|1||1|APART
0|must-fail edits: 3 refused|wrong: one|0||1|APART
0|must-fail edits: 3 refused|ok: what is wrong: nothing|0|MTC_ALL=1|0|nothing was left out
0|must-fail edits: 3 refused|left out: order: there is no strace|0|MTC_ALL=1|1|left out: order: there is no strace
0|must-fail edits: 3 refused|left out: order: there is no strace|0|MTC_ALL=0|0|APART
0|must-fail edits: 3 refused|ok: imports left out|0|MTC_ALL=1|0|nothing was left out
3|must-fail edits: 3 refused|ok|0||3|rt: ok; handles allowed: none; must-fail edits: 3 refused; every proof was done in this run
TABLE

# A sample that says so, the times of a check, a script that no list has, functions, and edits.
ended() {
    local said status
    said=$(cd "$folder" && env -u MTC_ALL PATH="$folder/bin:$PATH" STATUS_OF_RT=0 LINES_OF_RT="x; must-fail edits: 3 refused; y" .ci/run)
    status=$?
    count=$((count + 1))
    if [ "$status" -ne "$1" ] || ! grep -qE "$2" <<<"$said"; then
        echo "wrong: $3"
        wrong=1
    fi
}
ended 0 '^left out: hostile_files: 240 of 256 values$' "a sample isn't told"
ended 0 '^cost: check tests/tour.sh docs/EACH_DAY.md [0-9.]+ [0-9.]+ [0-9.]+$' "what a check takes isn't told"
stand_in tests/unlisted.py "echo ok"
ended 1 '^wrong: tests/unlisted.py is in no list of .ci/run$' "a script that no list has isn't told"
rm "$folder/tests/unlisted.py"
stand_in tests/edits.py "exit 1"
stand_in tests/documents.py "echo ok"
ended 1 '^left out was:$' "an edit that isn't refused passes"
[ "$wrong" -eq 0 ] && echo "ok: .ci/run passes and fails as it should in $count cases"
exit "$wrong"
