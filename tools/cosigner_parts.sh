# shellcheck shell=bash disable=SC2154
# What cosigner_day.sh and mirror_day.sh share. It is read by them, and not run. They are in FOLDER, and have set who (the name of the
# script), mtc, tools and kept. In FOLDER lie, beside what the head of each says,
#   signature, signed  the newest signature, and the request that it is for. While one of them is exchanged `signed` isn't there
#   export             what others may know of this cosigner: the stored export, as far as it counts
#   answer             a signature with its request, until both are in their places
#   lock               held by each run: `flock FOLDER/lock` copies all three files of one run

refuse() {
    echo "$who: $2" >&2
    exit "$1"
}

# Puts what a command prints into a file, which appears whole or not at all.
into() {
    local file=$1
    shift
    "$@" >"$file.new" && sync -- "$file.new" && mv -fT -- "$file.new" "$file" && sync -- "$(dirname -- "$file")"
}

# The stored export has each signature that was released, also where the journal has lost some.
write_export() {
    local counted
    counted=$(cat -- "$kept.size" 2>/dev/null) || return 0
    # Otherwise the guard refuses it, and what was published stays.
    [[ $counted =~ ^[1-9][0-9]{0,17}$ ]] && [ "$(stat -c %s -- "$kept")" -ge "$counted" ] || return 0
    if [ "$(stat -c %s export 2>/dev/null)" != "$counted" ] || ! cmp -s -n "$counted" -- export "$kept"; then
        into export head -c "$counted" -- "$kept"
    fi
}

# The last thing of a run, however it ends: the log asks from the size that the export says.
end() {
    local status=$?
    if ! write_export; then
        echo "$who: export can't be written" >&2
        [ $status -ne 0 ] || status=5
    fi
    exit $status
}

begin() {
    exec 7>lock
    flock -n 7 || refuse 22 "another run has $PWD"
    trap end EXIT
    rm -rf answer.old answer.new
    [ ! -d answer ] || put_answer
}

# Puts a signature and its request into their places. It is done again from its beginning if a stop comes between, and at no time a
# signature stands beside another request.
put_answer() {
    write_export
    rm -f signed
    sync -- .
    into signature cat answer/signature
    into signed cat answer/signed
    mv -T -- answer answer.old
    sync -- .
    rm -r answer.old
}

# What a command under the guard says on standard error, but for its warnings.
why_of() {
    grep -v '^guarded_cosign: warning: ' why || true
}

# A command under the guard. Sets status and why; what it prints goes on.
guard() {
    local command=$1
    shift
    status=0
    "$tools/guarded_cosign.sh" "$command" journal "$kept" "$@" 2>why || status=$?
    grep '^guarded_cosign: warning: ' why >&2 || true
}

# Signs by a command under the guard, with a new lower tree where one is needed, for a request that stands in a file of its own.
sign() {
    local request=$1
    shift
    rm -rf answer.new
    mkdir answer.new
    cp -- "$request" answer.new/signed
    guard "$@" >answer.new/signature
    if [ $status -ne 0 ] && grep -q ': NeedsChild$' why; then
        guard child >/dev/null
        [ $status -ne 0 ] || guard "$@" >answer.new/signature
    fi
    if [ $status -ne 0 ]; then
        why_of >&2
        exit $status
    fi
    sync -- answer.new/signed answer.new/signature answer.new
    mv -T -- answer.new answer
    sync -- .
    put_answer
}

# A number of eight bytes at a place of a file.
number_at() {
    od -An -v --endian=big -t u8 -j "$2" -N 8 -- "$1" | tr -d ' \n'
}

# How many bytes the log's id takes in a request, with its length.
id_of() {
    local length
    length=$(od -An -v -t u1 -N 1 -- "$1" | tr -d ' \n')
    echo $((1 + ${length:-0}))
}
