#!/bin/bash
# Tests how `mtc` builds the program: on a copy of the crates' names alone, with a stand-in for rt that proves nothing and
# notes what it is asked. It takes half a minute.
# Usage: tests/first_run.sh
set -u
root=$(cd "$(dirname "$0")/.." && pwd)
folder=$(mktemp -d)
trap 'rm -rf "$folder"' EXIT
wrong=0

complain() {
    echo "wrong: $1"
    wrong=1
}

cp "$root/mtc" "$root/crates.txt" "$folder/"
mkdir "$folder/bin" "$folder/examples"
for crate in $(sed 's/#.*//; s/[ :].*//' "$root/crates.txt"); do
    mkdir -p "$folder/crates/$crate/src" "$folder/crates/$crate/specs"
    touch "$folder/crates/$crate/src/lib.rt"
done

# The program that is built: it prints its words, adds what the files among them hold to the file read, and ends with status 3.
cat >"$folder/program" <<END
#!/bin/bash
echo "\$@"
for word; do [ ! -f "\$word" ] && [ ! -p "\$word" ] || timeout 5 cat "\$word" >>"$folder/read"; done
exit 3
END

# It notes the crate, and each crate of this repository that it names and that isn't proved yet. A crate with a file src/broken
# isn't proved. Of one that is proved it prints the prover's line, but nothing where it was proved before. `rt run` makes the
# program above. `rt try` notes its words. It answers as rt does, of a program that prints two lines, the bytes of the files that
# it is given or that its words name from the root, and a line on standard error; or it fails. A try or a proof may run for ever.
cat >"$folder/bin/rt" <<'END'
#!/bin/bash
name=${PWD##*/} root=${PWD%/crates/*}
if [ "$1" = try ]; then
    echo "$name $*" >>"$root/tried"
    [ ! -e "$root/tries_hang" ] || { echo $$ >>"$root/hanging"; sleep 1000; }
    [ ! -e "$root/tries_fail" ] || { echo "mtc: half" >&2; echo "run=none proved=no" >&2; exit 2; }
    printf 'one\n two\n'
    while [ $# -gt 0 ]; do
        [ "$1" != --data ] || cat "${2#*=}"
        [[ $1 != /* ]] || timeout 5 cat "$1" 2>/dev/null
        shift
    done
    printf 'mtc: aside\nchecked: ended status=3\nrun=ended status=3 runners=1 proved=no\n' >&2
    exit 3
fi
for need in $(sed -n "s/^$name: *//p" "$root/crates.txt"); do
    [ ! -d "$root/crates/$need" ] || [ -e "$root/crates/$need/proved" ] || echo "early $name" >>"$root/asked"
done
echo "asked $name" >>"$root/asked"
sleep 0.0$((RANDOM % 9))
[ ! -e "$root/proofs_hang" ] || { echo $$ >>"$root/hanging"; sleep 1000; }
[ ! -e src/broken ] || { echo "a goal is open"; exit 1; }
[ -e proved ] || echo "crate $name: modules loaded=2 checked=10"
touch proved
[ "$1" != run ] || { mkdir -p out && cp "$root/program" out/mtc_main; }
END
chmod +x "$folder/bin/rt" "$folder/program"

# Runs mtc with these words, or with `a b`, in the folder examples: what it prints, what it says, its status, and which crates rt
# was asked for.
run_mtc() {
    [ $# -gt 0 ] || set -- a b
    : >"$folder/asked"
    (cd "$folder/examples" && PATH="$folder/bin:$PATH" ../mtc "$@" >../printed 2>../said)
    status=$?
    asked=$(grep -c '^asked' "$folder/asked")
}

# Runs mtc with these words where nothing is built: also what rt was asked to try.
run_first() {
    rm -rf "$folder/crates/mtc_main/out"
    : >"$folder/tried"
    run_mtc "$@"
    [ "$status" -eq 3 ] && [ "$(cat "$folder/printed")" = "$*" ] || complain "$*: what is run before the proofs stops them, or prints"
}

is_built() {
    [ "$status" -eq 3 ] && [ "$(cat "$folder/printed")" = "a b" ]
}

run_mtc
is_built || complain "the program isn't built and run with its words"
[ "$asked" -gt 20 ] && [ -z "$(sort "$folder/asked" | uniq -d)" ] || complain "a crate is proved twice, or crates are left out"
grep -q '^early' "$folder/asked" && complain "a crate is proved before one that it names"
grep -q "^asked test_run" "$folder/asked" && complain "a crate is proved that the program doesn't stand on"
[ "$(grep -c "of $asked: .* is proved" "$folder/said")" -eq "$asked" ] || complain "there isn't a line for each crate"
grep -q "proved now: $asked of $asked crates" "$folder/said" || complain "the crates that were proved aren't counted"
grep -q "log is $folder/crates/mtc_main/out/build.log" "$folder/said" || complain "nothing says where the log is"

run_mtc
is_built && [ "$asked" -eq 0 ] && [ ! -s "$folder/said" ] || complain "a program that is new enough is built again"

touch "$folder/crates/test_run/src/lib.rt"
sed -i 's/^test_run: /&landmarks /' "$folder/crates.txt"
run_mtc
is_built && [ "$asked" -eq 0 ] || complain "a crate that the program doesn't stand on makes it stale"

touch "$folder/crates/mtc_words/specs"
rm "$folder/crates/mtc_words/proved"
run_mtc
is_built && [ "$asked" -gt 0 ] || complain "a program isn't built again whose definitions were changed"
grep -q "mtc_words is proved, after" "$folder/said" && [ "$(grep -c "was proved before, and is kept" "$folder/said")" -eq $((asked - 1)) ] ||
    complain "a crate that was proved before is reported as proved now, or the other way round"
grep -q "proved now: 1 of $asked crates" "$folder/said" || complain "a crate that was proved before is counted as proved now"

sed -i 's/^mtc_words: /&mtc_io /' "$folder/crates.txt"
run_mtc
is_built && [ "$asked" -gt 0 ] || complain "a program isn't built again of which a crate names another one"

touch "$folder/crates/der_core/src/broken"
rm -f "$folder"/crates/*/proved
run_mtc
[ "$status" -eq 70 ] && [ ! -s "$folder/printed" ] || complain "a program is run of which a crate is not proved"
grep -q "der_core was not proved" "$folder/said" && grep -q "a goal is open" "$folder/said" || complain "nothing says which crate is not proved, and why"
grep -q "a goal is open" "$folder/crates/mtc_main/out/build.log" || complain "the log lacks what rt said"
grep -qE '^asked (cert_fields|mtc_main)$' "$folder/asked" && complain "a crate is proved though one below it is not"

rm "$folder/crates/der_core/src/broken"
touch "$folder/crates/der_core/src/lib.rt"
run_mtc
is_built || complain "the program isn't built once its crates are mended"

touch "$folder/crates/mtc_words/specs"
: >"$folder/asked"
(cd "$folder" && PATH="$folder/bin:$PATH" ./mtc a b >also_printed 2>also_said; echo $? >also_status) &
(cd "$folder" && PATH="$folder/bin:$PATH" ./mtc a b >printed 2>said)
status=$?
wait
is_built && [ "$(cat "$folder/also_status")" -eq 3 ] && [ -z "$(sort "$folder/asked" | uniq -d)" ] ||
    complain "two first runs at once prove a crate twice, or one of them fails"

if ! PATH=/usr/bin:/bin command -v rt >/dev/null; then
    touch "$folder/crates/mtc_top/specs"
    (cd "$folder" && PATH=/usr/bin:/bin ./mtc a b >printed 2>said)
    [ $? -eq 70 ] && grep -q "rt of the kit is missing" "$folder/said" || complain "nothing says that rt is missing"
fi
reading=$(sed -n 's/^reading="\(.*\)"$/\1/p' "$root/mtc")
[ -n "$reading" ] || complain "mtc names no command that only reads files"
for command in $reading; do
    grep "^| \`${command}[ \`]" "$root/docs/COMMANDS.md" | grep -qvE '\b(journal|secret)\b' || complain "$command isn't reported as one that only reads files"
done

# What is run before the proofs shows with one crate as with all.
echo "mtc_main:" >"$folder/crates.txt"
echo three >"$folder/examples/x"
run_first member x /no_such_place 17
[ "$(cat "$folder/tried")" = "mtc_main try --data x=$folder/examples/x -- member x /no_such_place 17" ] ||
    complain "rt try doesn't get the words, or the file that is named from the caller's folder"
[ "$(grep "not proved yet" "$folder/said")" = "$(printf 'mtc: not proved yet: %s\n' one ' two' three 'mtc: aside')" ] ||
    complain "what the unproved program prints isn't shown, or more is"
grep -q "run=ended" "$folder/said" && complain "what rt says of its try is shown"
grep -q "run=ended" "$folder/crates/mtc_main/out/build.log" || complain "the log lacks what rt says of its try"

run_mtc member x
[ "$status" -eq 3 ] && [ ! -s "$folder/said" ] || complain "a program that is built is run unproved"

# A command that writes, words that are none, and files of which rt try has another view than the program.
mkdir "$folder/examples/sub" "$folder/crates/mtc_main/data"
long=$(printf 'x%.0s' {1..300})
ln -s x "$folder/examples/link"
ln -s loop "$folder/examples/loop"
ln -s . "$folder/examples/here"
for words in "issue x x" "keygen 5 8 x" "landmarks x" "members x" "a b" "member ../examples/x" "member sub" "member data" "member x=y" \
    "member link" "member $folder/examples/link" "member here/x" "member $folder/examples/here/x" "member loop" "member x/y" \
    "member x $long" "member /$long" "member /dev/null" "member /dev/none" "member /proc/uptime" "member //proc/uptime"; do
    # shellcheck disable=SC2086
    run_first $words
    [ ! -s "$folder/tried" ] && ! grep -q unproved "$folder/said" || complain "$words: it is run before it is proved"
done

# Runs mtc with these words, one of which leads to the bytes `four` that may be read once: they are left to the proved program.
run_once() {
    : >"$folder/read"
    run_first "$@"
    [ ! -s "$folder/tried" ] && [ "$(cat "$folder/read")" = four ] || complain "$*: it is read before the program is proved"
}

mkfifo "$folder/examples/pipe"
echo four >"$folder/four"
ln -s /dev/stdin "$folder/examples/in"
for pipe in pipe "$folder/examples/pipe"; do
    timeout 20 cp "$folder/four" /dev/stdout >"$folder/examples/pipe" &
    run_once member "$pipe"
    wait "$!"
done
run_once member <(echo four)
for word in /dev/stdin /dev/fd/0 /proc/self/fd/0 in "$folder/examples/in"; do
    run_once member "$word" < <(echo four)
    run_once member "$word" <"$folder/four"
done

for seconds in 0 00 -1 0.0 x; do
    MTC_TRY_SECONDS=$seconds run_first member x
    [ ! -s "$folder/tried" ] && grep -q "not run unproved first, as MTC_TRY_SECONDS is $seconds$" "$folder/said" ||
        complain "with $seconds seconds a command is tried, or nothing says that it isn't"
done

touch "$folder/tries_fail"
run_first member x
[ -s "$folder/tried" ] && grep -q "gave no answer" "$folder/said" && ! grep -q "not proved yet" "$folder/said" ||
    complain "a try that fails isn't reported, or is shown as an answer"
grep -q "run=none" "$folder/crates/mtc_main/out/build.log" || complain "the log lacks why a try has failed"

touch "$folder/tries_hang"
MTC_TRY_SECONDS=1 run_first member x
grep -q "gave no answer" "$folder/said" && ! grep -q "not proved yet" "$folder/said" || complain "a try that runs for ever isn't reported"
# Whether what was asked of rt still runs; one that ended, and for which no process has waited, doesn't.
is_hanging() {
    local pid
    for pid in $(cat "$folder/hanging"); do grep -qsE '^State:[[:space:]]+[^ZX[:space:]]' "/proc/$pid/status" && return; done
    return 1
}
is_hanging && complain "a try that runs for ever is left running"

# Runs mtc with the words after the signal, and sends it that signal once a try or a proof runs.
run_ended() {
    rm -rf "$folder/crates/mtc_main/out" "$folder/hanging"
    (cd "$folder/examples" && PATH="$folder/bin:$PATH" exec env --default-signal=HUP ../mtc "${@:2}" >../printed 2>../said) &
    until [ -s "$folder/hanging" ]; do sleep 0.1; done
    kill -s "$1" "$!"
    wait "$!"
    [ $? -eq 130 ] && [ ! -s "$folder/printed" ] || complain "$*: mtc that is asked to end still runs"
    for _ in 1 2 3 4 5 6 7 8 9 10; do is_hanging && sleep 0.1; done
    is_hanging && complain "$*: mtc that is asked to end leaves what it has started"
}

cp "$root/crates.txt" "$folder/"
touch "$folder/proofs_hang"
rm -f "$folder"/crates/*/proved
for signal in TERM HUP; do
    run_ended "$signal" member x
    run_ended "$signal" a b
done

ls "$folder"/crates/mtc_main/out/build.log.* >/dev/null 2>&1 && complain "files of a build are left"
exit "$wrong"
