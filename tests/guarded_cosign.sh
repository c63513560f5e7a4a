#!/bin/bash
# Tries tools/guarded_cosign.sh over the built program: it signs as `mtc` does, and refuses a journal that was put back from an
# old copy, one with a changed byte that `mtc` takes for a shorter journal, and whatever it can't keep an export of. It is killed
# at each step, and what a power cut may leave then is tried too.
# Usage: tests/guarded_cosign.sh [PROGRAM]    another build of the program
set -u
root=$(cd "$(dirname "$0")/.." && pwd)
folder=$(mktemp -d)
trap 'rm -rf "$folder"' EXIT
[ $# -gt 0 ] || "$root/mtc" member "$root/examples/first.member" >/dev/null || exit 70
program=$(readlink -f "${1-$root/crates/mtc_main/out/mtc_main}")
cd "$folder" || exit 2
mkdir kept
export MTC=$program
wrong=0
count=0

# What the script did has to be this: its status, how many bytes it printed, and its first line on standard error, less the warning
# that both files are on one disk, as they are here.
guarded() {
    local wanted=$1 found
    shift
    "$root/tools/guarded_cosign.sh" "$@" >out 2>err
    found="$? $(wc -c <out) $(sed '/^guarded_cosign: warning: /d' err | head -1)"
    count=$((count + 1))
    # shellcheck disable=SC2053
    if [[ $found != $wanted ]]; then
        echo "wrong: $*: $found in place of $wanted"
        wrong=1
    fi
}

# Two files have to be the same, or two numbers.
same() {
    count=$((count + 1))
    if ! cmp -s "$1" "$2" && [ "$1" != "$2" ]; then
        echo "wrong: $1 and $2 differ: $3"
        wrong=1
    fi
}

# The program, after these lines.
stand_in() {
    printf '#!/bin/bash\n%s\nexec "%s" "$@"\n' "$1" "$program" >stand_in
    chmod +x stand_in
}

log() {
    "$program" "$@" || echo "wrong: $*: $?"
}

printf 'not_before = "2026-01-01T00:00:00Z"\nnot_after = "2026-01-08T00:00:00Z"\ndns = ["a.example"]\nkey = "%s"\n' \
    MCowBQYDK2VwAyEAAAAAAAAAAAAAAAAAAAAAAAAAAAAAAAAAAAAAAAAAAAA= >r
printf %048d 0 >secret
log init-log j 32473.1 2 64 >/dev/null
for _ in 1 2 3; do log issue j r >/dev/null; done
log consist j 0 4 >advance
log subtree j 0 4 4 >subtree
for s in s twin; do log init-cosigner $s 32473.2 32473.1 5 1 secret >/dev/null; done
log advance twin advance >advanced
log cosign twin subtree >signature0
log cosign twin subtree >signature1
log cosign twin subtree >signature2

# Words, and the first run.
guarded "64 0 *begin, advance, cosign, child, mirror-advance or mirror-cosign"
guarded "64 0 *cosign JOURNAL KEPT REQUEST" cosign s kept/s
guarded "64 0 *none is no file" begin none kept/none
guarded "64 0 *s is a journal" begin s s
cp s k.new
guarded "64 0 *k.new is a journal" begin k.new k
guarded "64 0 *k.new is a journal" begin s k
same k.new s "a journal is never written over"
# A link that leads to another disk would be replaced by a file on this one.
mkdir linked
for name in kept/s kept/s.size kept/s.new kept/s.guard s.guard; do
    : >linked/file
    for target in linked/file linked/none; do
        ln -s "$folder/$target" $name
        for command in "begin s kept/s" "cosign s kept/s subtree"; do
            # shellcheck disable=SC2086
            guarded "64 0 *$name is a symbolic link*" $command
        done
        same "$(readlink $name) $(ls linked) $(wc -c <linked/file)" "$folder/$target file 0" "a link $name"
        rm $name
    done
done
cp s before
guarded "21 0 *kept/s isn't there*" cosign s kept/s subtree
guarded "21 0 *kept/s isn't there*" advance s kept/s advance
: >kept/s
guarded "21 0 *kept/s isn't there*" cosign s kept/s subtree
same s before "without a stored export nothing is done"
rm kept/s
echo 9 >kept/s.size
guarded "21 0 *kept/s.size is there*" begin s kept/s
rm kept/s.size
guarded "0 0 " begin s kept/s
guarded "21 0 *kept/s is there*" begin s kept/s

# It does what the program does, and keeps the export.
guarded "0 $(wc -c <advanced) " advance s kept/s advance
same out advanced "what advance prints"
guarded "0 $(wc -c <signature0) " cosign s kept/s subtree
same out signature0 "the first signature"
log export s >exported
same kept/s exported "the stored export"
same "$(cat kept/s.size)" "$(wc -c <exported)" "its length"
cp s old
guarded "4 0 mtc: advance: NotNewer 4" advance s kept/s advance
guarded "7 0 mtc: cosign: none: Absent" cosign s kept/s none
# What was stored isn't written again, and two exports are read.
stand_in '[ "$1" != export ] || echo >>exports'
file=$(stat -c %i kept/s)
MTC=./stand_in guarded "0 $(wc -c <signature1) " cosign s kept/s subtree
same out signature1 "the second signature"
same "$(stat -c %i kept/s) $(wc -l <exports)" "$file 2" "the file, and how many exports were read"

# An old copy, and a commit byte that is closed again: the program takes both, and would sign with a key that has signed.
cp s new
cp kept/s newest
cp old s
guarded "20 0 *has lost records*" cosign s kept/s subtree
guarded "20 0 *has lost records*" advance s kept/s advance
same s old "a journal that was put back gets no record"
same kept/s newest "the stored export stays"
cp new s
commit_byte=$((16 + 5 + $(od -An -tu4 --endian=big -j17 -N4 s)))
same "$(od -An -tu1 -j$commit_byte -N1 s | tr -d ' ')" 1 "the commit byte of record 1 is open"
printf '\0' | dd of=s bs=1 seek=$commit_byte conv=notrunc status=none
"$program" export s >exported || echo "wrong: export: $?"
same "$(head -c "$(wc -c <exported)" newest | cmp - exported; echo $?)" 0 "a closed commit byte is a shorter journal to the program"
cp s closed
guarded "20 0 *has lost records*" cosign s kept/s subtree
same s closed "a journal with a closed commit byte gets no record"
cp new s
head -c -1 newest >kept/s
printf x >>kept/s
guarded "20 0 *has lost records*" cosign s kept/s subtree
cp newest kept/s
guarded "0 $(wc -c <signature2) " cosign s kept/s subtree
same out signature2 "the third signature, of the journal that was there"

# Bytes of the stored export that are gone, or changed together with its length, make the journal no shorter.
cp kept/s newest
cp s new
truncate -s -1 kept/s
guarded "21 0 *kept/s has * bytes, and not $(wc -c <newest) as kept/s.size says*" cosign s kept/s subtree
rm kept/s.size
: >kept/s
guarded "21 0 *kept/s isn't there*" cosign s kept/s subtree
head -c 99 /dev/zero >kept/s
guarded "21 0 *kept/s has zeros alone*" cosign s kept/s subtree
same s new "a stored export that lacks bytes lets nothing be signed"
cp newest kept/s
# As an earlier version of the script left it.
cp old s
guarded "20 0 *has lost records*" cosign s kept/s subtree
same kept/s newest "the stored export without its length stays"
cp new s
rm -f kept/s.size

# It is put back between the look and the command: nothing is released.
export MTC=./stand_in
cp s new
stand_in '[ "$1" != cosign ] || cat old >s'
guarded "20 0 *has lost records*" cosign s kept/s subtree
cp new s
# It is put back after the command as it was right before: its record is lost, and nothing is released either.
stand_in "[ \"\$1\" != cosign ] || { cp s put_back; \"$program\" \"\$@\"; cp put_back s; exit; }"
guarded "20 0 *has no record of what it did*" cosign s kept/s subtree
same s new "a journal that was put back as it was right before"
# The stored export is taken away or emptied meanwhile: nothing is released either.
cp s new
cp kept/s newest
for line in '[ "$1" != cosign ] || rm kept/s' '[ "$1" != cosign ] || : >kept/s'; do
    stand_in "$line"
    guarded "21 0 *kept/s isn't there*" cosign s kept/s subtree
    cp new s
    cp newest kept/s
done
# The export after the command fails: nothing is released, and the next run continues with the next key.
stand_in 'if [ "$1" = cosign ]; then touch fails; elif [ -e fails ]; then rm fails; exit 5; fi'
guarded "5 0 " cosign s kept/s subtree
export MTC=$program
log cosign twin subtree >signature3
log cosign twin subtree >signature4
guarded "0 $(wc -c <signature4) " cosign s kept/s subtree
same out signature4 "the fifth signature"

# With a key of two levels: `child` is guarded as well.
for s in two twin_of_two; do
    log init-cosigner2 $s 32473.3 32473.1 5 5 1 secret >/dev/null
    log advance $s advance >/dev/null
done
log child twin_of_two >child
log cosign twin_of_two subtree >signature0
guarded "64 0 *child JOURNAL KEPT" child two kept/two subtree
guarded "21 0 *kept/two isn't there*" child two kept/two
guarded "0 0 " begin two kept/two
guarded "4 0 mtc: cosign: NeedsChild" cosign two kept/two subtree
cp two old
guarded "0 $(wc -c <child) " child two kept/two
same out child "what child prints"
guarded "4 0 mtc: child: ChildLeft 32" child two kept/two
guarded "0 $(wc -c <signature0) " cosign two kept/two subtree
same out signature0 "a signature of two levels"
log export two >exported
same kept/two exported "the stored export of two levels"
cp two new
cp old two
guarded "20 0 *has lost records*" child two kept/two
same two old "a journal that was put back gets no lower tree"
cp new two

# Through a mirror: it advances and signs as the program does, and an old copy is refused.
log entries j 4 >entries
log mirror-init m 32473.1 >/dev/null
log mirror-take m entries >/dev/null
for s in mirrored twin_of_mirrored; do log init-cosigner $s 32473.4 32473.1 5 1 secret >/dev/null; done
log mirror-advance twin_of_mirrored m 4 >advanced
log mirror-cosign twin_of_mirrored m 0 4 >signature0
log mirror-cosign twin_of_mirrored m 0 4 >signature1
guarded "64 0 *mirror-advance JOURNAL KEPT MIRROR SIZE" mirror-advance mirrored kept/mirrored 4
guarded "64 0 *mirror-cosign JOURNAL KEPT MIRROR START END" mirror-cosign mirrored kept/mirrored m 0
guarded "0 0 " begin mirrored kept/mirrored
guarded "0 $(wc -c <advanced) " mirror-advance mirrored kept/mirrored m 4
same out advanced "what mirror-advance prints"
guarded "4 0 mtc: mirror-cosign: Beyond 4" mirror-cosign mirrored kept/mirrored m 0 8
guarded "0 $(wc -c <signature0) " mirror-cosign mirrored kept/mirrored m 0 4
same out signature0 "the first signature through a mirror"
cp mirrored old
guarded "0 $(wc -c <signature1) " mirror-cosign mirrored kept/mirrored m 0 4
same out signature1 "the second signature through a mirror"
cp mirrored new
cp old mirrored
guarded "20 0 *has lost records*" mirror-cosign mirrored kept/mirrored m 0 4
guarded "20 0 *has lost records*" mirror-advance mirrored kept/mirrored m 4
same mirrored old "a journal that was put back gets no record"
cp new mirrored

# A run is killed before each step that reads, writes or prints. Where a byte was released, the journal of before that run is refused
# from then on. The right one signs with its next key, whatever a power cut leaves after the bytes that count.
mkdir steps
for name in cat sync mv truncate rm base64 mtc; do
    [ $name = mtc ] && real=$program || real=$(command -v $name)
    printf '#!/bin/bash\nn=1\nuntil mkdir "$TAKEN/$n" 2>/dev/null; do n=$((n + 1)); done\n[ $n -ne "$LAST" ] || kill -9 0\nexec "%s" "$@"\n' \
        "$real" >steps/$name
    chmod +x steps/$name
done

# Gives a command that is killed before a step, and answers whether it comes to that step.
stopped() {
    local last=$1
    shift
    rm -rf taken
    mkdir taken
    {
        PATH=$folder/steps:$PATH MTC=mtc TAKEN=$folder/taken LAST=$last setsid -w "$root/tools/guarded_cosign.sh" "$@" >out
    } 2>/dev/null
    [ -d "taken/$last" ]
}

# Copies a journal and what is stored of it to a place, and back.
save() {
    local name
    rm -rf "$2"
    mkdir "$2"
    cp "$1" "$2/journal"
    for name in '' .size .new; do [ ! -e "kept/$1$name" ] || cp "kept/$1$name" "$2/kept$name"; done
}
load() {
    local name
    cp "$2/journal" "$1"
    for name in '' .size .new; do
        rm -f "kept/$1$name"
        [ ! -e "$2/kept$name" ] || cp "$2/kept$name" "kept/$1$name"
    done
}

# Makes of what a stop left what a power cut may leave.
cut_power() {
    local counted
    counted=$(cat "kept/$1.size" 2>/dev/null || wc -c <"kept/$1")
    case $2 in
        none) return ;;
        zeros | no_length) truncate -s "$counted" "kept/$1" && truncate -s +700 "kept/$1" ;;
        other_bytes) truncate -s "$counted" "kept/$1" && head -c 700 "$program" >>"kept/$1" && printf 7 >"kept/$1.new" ;;
        torn_length) truncate -s "$counted" "kept/$1" && printf '%s' "$counted" | head -c 2 >"kept/$1.size" ;;
        long_length) truncate -s "$counted" "kept/$1" && printf '%s\n\0\0' "$counted" >"kept/$1.size" ;;
    esac
    [ "$2" != no_length ] || rm -f "kept/$1.size"
}

# Kills a command on a journal before each of its steps, of which there are so many at least. Then each of these states is made, and the
# command ends with one of these statuses.
stop_each() {
    local steps=$1 states=$2 ends=$3 command=$4 journal=$5 step=0 signs state what
    shift 5
    save "$journal" base
    while step=$((step + 1)) && load "$journal" base && stopped $step "$command" "$journal" "kept/$journal" "$@"; do
        save "$journal" left
        if [ -s out ]; then
            cp base/journal "$journal"
            guarded "20 0 *has lost records*" cosign "$journal" "kept/$journal" subtree
        fi
        for state in $states; do
            what="after a stop of $command before step $step, $state"
            load "$journal" left
            [ ! -e "kept/$journal" ] || cut_power "$journal" $state
            [ "$command" = cosign ] || guarded "@($ends) *" "$command" "$journal" "kept/$journal" "$@"
            "$program" export "$journal" >exported
            signs=$("$program" held exported | sed -n 's/^signs //p')
            guarded "0 *" cosign "$journal" "kept/$journal" subtree
            same out "$journal.signature$signs" "the signature with key $signs, $what"
            "$program" export "$journal" >exported
            same "kept/$journal" exported "the stored export, $what"
        done
    done
    [ $step -gt "$steps" ] || same "$step" "more than $steps" "the steps of $command"
}

for levels in 1 2; do
    for s in stop$levels twin_of_stop$levels; do
        if [ $levels -eq 1 ]; then
            log init-cosigner $s 32473.5 32473.1 5 1 secret >/dev/null
        else
            log init-cosigner2 $s 32473.5 32473.1 5 5 1 secret >/dev/null
        fi
        log advance $s advance >/dev/null
    done
    [ $levels -eq 1 ] || log child twin_of_stop2 >/dev/null
    for key in 0 1; do log cosign twin_of_stop$levels subtree >stop$levels.signature$key; done
done
stop_each 7 "none no_length torn_length" "0|21" begin stop1
stop_each 13 "none zeros other_bytes no_length torn_length long_length" "" cosign stop1 subtree
guarded "0 0 " begin stop2 kept/stop2
stop_each 13 "none zeros" "0|4" child stop2

# Another run, and a place that takes no export.
cp s new
(flock 9 && exec sleep 60) 9>>s.guard &
holder=$!
until ! flock -n s.guard true; do sleep 0.1; done
guarded "22 0 *another run has s" cosign s kept/s subtree
kill $holder
wait $holder 2>/dev/null
until flock -n s.guard true; do sleep 0.1; done
ln -s s other
(flock 9 && exec sleep 60) 9>>kept/s.guard &
holder=$!
until ! flock -n kept/s.guard true; do sleep 0.1; done
guarded "22 0 *another run has kept/s" cosign other kept/s subtree
kill $holder
wait $holder 2>/dev/null
mkdir kept/s.new
guarded "23 0 *s.new*" cosign s kept/s subtree
rmdir kept/s.new
same s new "nothing is signed where no export can be stored"

[ $wrong -ne 0 ] || echo "ok: tools/guarded_cosign.sh keeps what it promises: $count comparisons"
exit $wrong
