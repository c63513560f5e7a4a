#!/bin/bash
# What a monitor does each day: it goes along the steps that an authority publishes, from the size of its state on, also those of days
# that were missed, and reports each name under a watched domain before its state moves. In FOLDER lie
#   state     made by `mtc monitor-init`
#   watch     the domains, a line each
#   steps     what was fetched of the authority's `public/steps`: `list`, OLD-NEW.consist and OLD-NEW.entries
#   hook      a program that reports, if there is one: its argument is a file of reports/, and it answers 0 once they are reported.
#             If there is none, they are printed, and cron mails them
#   reports   OLD-NEW: what was found in a step, a line each as `mtc monitor` prints them
# A stop at any point repeats a report, and loses none: the state is on the disk only after the report of its step was taken.
# It is tested, and not proved; `mtc` is. It needs util-linux's flock.
# Usage: tools/monitor_day.sh FOLDER
# MTC names the program, and else it is `mtc`. The statuses are those of `mtc monitor`, and these:
#   20  the hook failed, or the report can't be printed: the state is as before, and the next run reports once more
#   21  no step leads on from the size of the state, but the list of steps has later ones
#   22  another run has FOLDER
#   64  the argument is no folder with a state and a watch file
#   69  a program that this script needs isn't here
set -euo pipefail
shopt -s inherit_errexit
mtc=${MTC-mtc}

refuse() {
    echo "monitor_day: $2" >&2
    exit "$1"
}

if [ $# -ne 1 ] || [ ! -f "$1/state" ] || [ ! -f "$1/watch" ]; then
    refuse 64 "FOLDER, with a state and a watch file in it"
fi
command -v flock >/dev/null || refuse 69 "flock isn't here"
[ "${mtc#*/}" = "$mtc" ] || mtc=$(readlink -f "$mtc")
cd "$1"
mkdir -p reports
exec 9>lock
flock -n 9 || refuse 22 "another run has $1"

# Puts a file in the place of another one, once its bytes are on the disk.
place() {
    sync -- "$1"
    mv -f -- "$1" "$2"
    sync -- "$(dirname -- "$2")"
}

# The step that leads on from a size, and whether there are later ones. Another party makes the list: no other line of it is read.
next_step() {
    [ -f steps/list ] || return 0
    head -c 16777216 steps/list | awk -v size="$1" '
        !/^[0-9]+-[0-9]+$/ || length($0) > 40 { next }
        { split($0, at, "-") }
        at[1] == size { step = $0 }
        at[2] + 0 > size + 0 { later = 1 }
        END { print step != "" ? step : later ? "missing" : "" }'
}

# Reports what a file has.
report() {
    if [ -x hook ]; then
        ./hook "$1"
    else
        cat -- "$1"
    fi
}

rm -f -- found state.new
while size=$(tail -n 1 state | cut -d ' ' -f 3) && step=$(next_step "$size") && [ -n "$step" ]; do
    [ "$step" != missing ] || refuse 21 "no step leads on from the size $size of the state: fetch all steps"
    if [ ! -f "steps/$step.consist" ] || [ ! -f "steps/$step.entries" ]; then
        refuse 21 "the step $step isn't fetched whole"
    fi
    "$mtc" monitor state watch "steps/$step.consist" "steps/$step.entries" >found
    if grep -v '^state ' found >"reports/$step.new"; then
        place "reports/$step.new" "reports/$step"
        report "reports/$step" || refuse 20 "reports/$step isn't reported: the state stays as it is"
    else
        rm -- "reports/$step.new"
    fi
    tail -n 1 found >state.new
    place state.new state
    rm -- found
done
