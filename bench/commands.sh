#!/bin/bash
# What each command takes over a log of 1,048,576 entries: seconds of the processor, the least of three
# runs, or of as many as the variable ROUNDS says, since work can only be held up, and the most memory that it held. Commands that
# append run over a copy of a log that has room for what they append. The cosigner's key has height 10 and width 8.
# With --instructions it counts in place of that the instructions that each command executes in user mode, which other work on the
# machine doesn't change: by qemu-x86_64 (Debian's qemu-user 7.2) with bench/commands/count.c, where it is here with a C compiler,
# in some eight times the time of the command, and else by valgrind, in three times that. As many run side by side as there are
# processors, or as the variable WORKERS says; each holds some 100 MB more than the command.
# Needs python3, and GNU time or one of these. Not part of the gate.
# Usage: bench/commands.sh [--instructions] [--write] [ENTRIES]   with --write the figures go into bench/commands/figures.txt or
#        instructions.txt
# shellcheck source=bench/program.sh
. "$(dirname "$0")/program.sh"

what='times'
while [[ ${1-} == --* ]]; do
    case $1 in
        --instructions) what=instructions ;;
        --write) write=1 ;;
        *) echo "usage: bench/commands.sh [--instructions] [--write] [ENTRIES]" >&2 && exit 2 ;;
    esac
    shift
done
need_program
python3 -B "$root/bench/commands/time_commands.py" "$what" "$program" "$work" "${1-1048576}" | tee "$work/figures"
if [ "$what" = times ]; then
    keep_figures commands "WORK|OF|SECONDS|MEMORY" <"$work/figures"
else
    keep_figures commands "WORK|OF|INSTRUCTIONS" instructions <"$work/figures"
fi
