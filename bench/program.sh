# shellcheck shell=bash disable=SC2034
# Read by the scripts beside it, before their words: root is the repository, work a new folder that is removed at the end, and write is
# set where the first word is --write, which is dropped. Each of these scripts that runs the program runs that of ./mtc, which is built
# where it has to be, or the one that the variable PROGRAM names.
set -eu
root=$(cd "$(dirname "${BASH_SOURCE[0]}")/.." && pwd)
work=$(mktemp -d)
trap 'rm -rf "$work"' EXIT
write=
if [ "${1-}" = --write ]; then
    write=1
    shift
fi

# Sets program.
need_program() {
    [ -n "${PROGRAM-}" ] || "$root/mtc" member "$root/examples/first.member" >/dev/null || exit 70
    program=${PROGRAM:-$root/crates/mtc_main/out/mtc_main}
}

# Proves, builds and runs bench/NAME/main.rattle as a program over some libraries: build_and_run NAME LIBRARY..
# It stands in a copy of the repository's crates below it. What it printed is in $work/printed.
build_and_run() {
    local name=$1 crate
    shift
    awk -v wanted="$*" '
        function visit(name, parts, count, part) {
            if (name in seen || !(name in below))
                return
            seen[name]
            count = split(below[name], parts, " ")
            for (part = 1; part <= count; part++)
                visit(parts[part])
            print name ":" below[name]
        }
        { sub(/#.*/, "") }
        /:/ { split($0, sides, ":"); split(sides[1], words, " "); below[words[1]] = sides[2] }
        END { count = split(wanted, libraries, " "); for (at = 1; at <= count; at++) visit(libraries[at]) }
    ' "$root/crates.txt" >"$work/crates.txt"
    while IFS=: read -r crate _; do
        mkdir -p "$work/crates/$crate"
        (cd "$root/crates/$crate" && tar -c --exclude=./out .) | tar -x -C "$work/crates/$crate"
    done <"$work/crates.txt"
    echo "bench_$name: $*" >>"$work/crates.txt"
    cp "$root/HANDLES" "$work/"
    mkdir -p "$work/crates/bench_$name/src"
    cp "$root/bench/$name/main.rattle" "$work/crates/bench_$name/src/main.rt"
    : >"$work/crates/bench_$name/stdin"
    if ! (cd "$work/crates/bench_$name" && rt run) >"$work/printed" 2>"$work/said"; then
        cat "$work/said" "$work/printed"
        exit 1
    fi
}

# Runs such a program again, and prints what it prints.
run_again() {
    (cd "$work/crates/bench_$1" && rt run 2>/dev/null)
}

# Runs a command five times, or as often as the variable ROUNDS says, each of which has to end with this status, and prints
# SECONDS|MEMORY: the least seconds of the processor, its own and the system's, or by the clock where BY_CLOCK is set, and the most
# memory that it held. least_of_five STATUS COMMAND.. What the command wrote is in $work/found.
least_of_five() {
    local wanted=$1 status times='%U %S %M'
    [ -z "${BY_CLOCK-}" ] || times='%e 0 %M'
    shift
    : >"$work/runs"
    for _ in $(seq "${ROUNDS:-5}"); do
        status=0
        /usr/bin/time -q -f "$times" -a -o "$work/runs" "$@" >"$work/found" 2>"$work/said" || status=$?
        if [ "$status" -ne "$wanted" ]; then
            echo "wrong: status $status of $*" >&2
            cat "$work/said" >&2
            exit 1
        fi
    done
    awk '{ spent = $1 + $2 } NR == 1 || spent < least { least = spent } $3 > held { held = $3 }
        END { printf least < 0.01 ? "below 0.01" : "%.2f", least; printf "|%d MB\n", held * 1024 / 1000000 }' "$work/runs"
}

# Prints a row of what a command takes, and stores it: row WORK OF STATUS COMMAND.. The command is run as often as least_of_five runs it.
row() {
    local what=$1 of=$2
    shift 2
    least_of_five "$@" >"$work/least"
    printf '%s|%s|%s\n' "$what" "$of" "$(cat "$work/least")" | tee -a "$work/figures"
}

# The same of one run.
once() {
    ROUNDS=1 row "$@"
}

# Runs Go's peer.go of a script beside its package sumdb/tlog, of Debian's golang-golang-x-mod-dev: go_peer NAME WORD.. Its status is 1
# where Go or the package isn't here.
go_peer() {
    local packages=/usr/share/gocode/src/golang.org/x/mod name=$1
    shift
    command -v go >/dev/null && [ -d "$packages/sumdb/tlog" ] || return 1
    mkdir -p "$work/peer/tlog"
    cp "$packages/sumdb/tlog/"{tlog,tile,note}.go "$work/peer/tlog/"
    cp "$root/bench/$name/peer.go" "$work/peer/main.go"
    printf 'module peer\n\ngo 1.19\n' >"$work/peer/go.mod"
    (cd "$work/peer" && GOFLAGS=-mod=mod GO111MODULE=on GOPROXY=off GOCACHE="$work/cache" go run . "$@")
}

# Writes what a run found into bench/NAME/figures.txt, or another FILE.txt there, from lines of fields between bars:
# keep_figures NAME FIELDS [FILE]. The first two fields say what was measured, and the day is put after them all. What this run
# has no line for stays as it was. Nothing is written without --write.
keep_figures() {
    local file=$root/bench/$1/${3-figures}.txt
    [ -n "$write" ] || return 0
    mkdir -p "$root/bench/$1"
    touch "$file"
    awk -F '|' -v fields="$2" -v name="$1" -v day="$(date -u +%F)" '
        BEGIN { print "# " fields "|DAY. Written by bench/" name ".sh --write; docs/SPEED.md is made from it." }
        /^#/ { next }
        FNR == NR { new[$1 "|" $2] = $0; order[++count] = $1 "|" $2; next }
        ($1 "|" $2) in new { print new[$1 "|" $2] "|" day; printed[$1 "|" $2]; next }
        { print }
        END { for (at = 1; at <= count; at++) if (!(order[at] in printed)) print new[order[at]] "|" day }
    ' - "$file" >"$file.new" && mv "$file.new" "$file"
}
