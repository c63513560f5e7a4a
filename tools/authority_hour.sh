#!/bin/bash
# What an authority does each hour, by today's commands: it issues the requests that wait, by lists, sets a landmark, writes light
# certificates, publishes, and asks the cosigners for signatures. In FOLDER lie
#   log          the journal, made by `mtc init-log`. MAXACTIVE has to be at least the hours that a certificate lives, where this runs
#                each hour: 168 for seven days. A number of hours in the file `every` stands for another timer
#   requests     NAME.request: what waits. Each has to appear whole, as csr_to_request.py --out writes it
#   issued       INDEX.request: what was issued and has no light certificate yet; certified, uncovered: the same, of those that have
#                one, and of those that can't have one any more, since the log's landmarks left them
#   refused      NAME.request and NAME.why: what isn't issued, and why
#   certs        INDEX.cert: light certificates; signed: the same, with signatures. They may be moved away
#   cosigners    a folder each, NAME, with what comes from it: `export`, `signature`, and `signed`, the request that it is for. The
#                requests to it are in NAME/request: `consist`, `subtree`, the signed `checkpoint`, and `size`, one for all (`asked`). A file
#                `enough` has the number of signatures that a certificate needs, if it isn't that of all cosigners
#   about        what you publish beside the log: `log`, `maxactive`, `cosigners`, `revoked` (docs/OPERATIONS.md)
#   public       `entries`, `landmarks`, `steps`, `about`; and tiles and a checkpoint too, if FOLDER has the file `note.key`
# A request is issued once, over any stop: while it is at work it is in `begun`, and `begun/given` has the size of the log before it was
# given requests, and their names, in their order. A list adds all of its requests or none. No command but this script may issue
# meanwhile. What fails after the issuing fails by itself: it is said, all other steps are done, and the status comes last.
# It is tested, and not proved; `mtc` is. It needs python3 (3.11), util-linux's flock, and openssl (3) for `note.key`.
# Usage: tools/authority_hour.sh FOLDER
# MTC names the program, and else it is `mtc`. After ISSUING seconds, 1500 if it isn't set, no more requests are issued in this run: they
# wait in `begun` for the next one. The statuses are those of the program or of a tool, where it fails, and these:
#    9  the log is full, and requests wait in `requests`: begin the next log. All the rest was done
#   20  entries were issued that this script knows nothing of: look for them by `mtc cert` before `begun/given` is removed
#   21  the log has fewer entries than were published: an old copy was put back. Nothing was issued
#   22  another run has FOLDER
#   64  the argument is no folder with a log
#   69  a program that this script needs isn't here
set -euo pipefail
shopt -s inherit_errexit
mtc=${MTC-mtc}
tools=$(dirname "$(readlink -f "${BASH_SOURCE[0]}")")
issuing=${ISSUING-1500}
# How many seconds a cosigner is waited for.
patience=90000

say() {
    echo "authority_hour: $1" >&2
}

refuse() {
    say "$2"
    exit "$1"
}

if [ $# -ne 1 ] || [ ! -f "$1/log" ]; then
    refuse 64 "FOLDER, with a log in it"
fi
for needed in python3 flock; do
    command -v $needed >/dev/null || refuse 69 "$needed isn't here"
done
[ "${mtc#*/}" = "$mtc" ] || mtc=$(readlink -f "$mtc")
export MTC=$mtc
cd "$1"
mkdir -p requests issued certified uncovered refused certs signed cosigners about public/steps public/about
exec 9>lock
flock -n 9 || refuse 22 "another run has $1"
worst=0

# Does a step, and says if it fails: no other step waits for it. A step of its own process stops at its first failure.
step() {
    local status=0
    "$@" &
    wait $! || status=$?
    [ $status -eq 0 ] || { say "$*: status $status"; [ $worst -ne 0 ] || worst=$status; }
}

size() {
    "$mtc" checkpoint log | sed -n 's/^size //p'
}

# Puts what a command prints into a file, which appears whole or not at all.
into() {
    local file=$1 status=0
    shift
    "$@" >"$file.new" && sync -- "$file.new" && mv -f -- "$file.new" "$file" || status=$?
    if [ $status -ne 0 ]; then
        rm -f -- "$file.new"
        return $status
    fi
    [ "$file" = "${file#*/}" ] && file=./$file
    sync -- "${file%/*}"
}

# Records that the requests that the log was given stand from this index on.
done_from() {
    tail -n +2 begun/given >begun/names
    "$tools/hour_certs.py" number . "$1" <begun/names
    now=$(($1 + $(wc -l <begun/names)))
    rm begun/given begun/names
}

# Takes a request, under a name, out of those that wait or are at work, and says why. One that can't be taken away stays where it is.
send_back() {
    if [ -e "refused/$2" ] || [ -L "refused/$2" ]; then rm -rf -- "refused/$2"; fi
    printf '%s\n' "$3" >"refused/${2%.request}.why" && mv -- "$1" "refused/$2" || say "$1 can't be taken away: $3"
}

# Whether the log has grown by so many entries, which a command that was ended by a signal doesn't tell.
has_grown() {
    local found
    found=$(size) || return 1
    [ "$found" -eq $((now + $1)) ]
}

# Gives the log requests of `begun` by a command over a file. Sets status and why, and records what was issued if that is 0.
give() {
    local command=$1 file=$2 printed first=$now
    shift 2
    into begun/given printf '%s\n' "$now" "$@"
    status=0
    printed=$("$mtc" "$command" log "$file" 2>why) || status=$?
    why=$(<why)
    if [ $status -eq 0 ]; then
        first=${printed%%$'\n'*}
        first=${first#issued }
    elif [ $status -gt 128 ] && has_grown $#; then
        status=0
    fi
    [ $status -ne 0 ] || done_from "$first"
}

# Issues one request of `begun`, or sends it back.
issue_one() {
    if [ -L "begun/$1" ] || [ ! -f "begun/$1" ]; then
        send_back "begun/$1" "$1" "no plain file"
        return
    fi
    give issue "begun/$1" "$1"
    case "$status $why" in
        "0 "*) ;;
        "2 mtc: issue: begun/$1: "* | "9 mtc: issue: TooLarge") send_back "begun/$1" "$1" "$why" ;;
        "9 "*) full=${why##* } ;;
        "8 "* | 1[3-9]?" "* | 2??" "*) send_back "begun/$1" "$1" "issue ended with status $status, and it isn't in the log: $why" ;;
        *) refuse "$status" "$why" ;;
    esac
    rm -f begun/given
}

# Joins requests of `begun` into `begun/list`, and sends back those that are refused. Sets joined to the others.
join_list() {
    local status=0 line name
    joined=()
    "$tools/request_list.py" --skip --out begun/list "${@/#/begun/}" 2>wrong || status=$?
    if [ $status -ne 0 ] && [ $status -ne 2 ]; then
        say "request_list.py: status $status, $(tail -n 1 wrong | head -c 200): the first request is issued alone"
        return
    fi
    while IFS= read -r line; do
        line=${line#request_list: begun/}
        name=${line%%: *}
        send_back "begun/$name" "$name" "request_list: ${line#*: }"
    done <wrong
    for name; do
        [ ! -e "begun/$name" ] || joined+=("$name")
    done
}

# Leaves some of the tables in `begun/list`: those with numbers from the first up to the last one, without that.
cut_list() {
    awk -v first="$1" -v last="$2" '/^\[\[request\]\]$/ { at++ } at <= first || at > last' begun/list >begun/cut
    mv -f begun/cut begun/list
}

# Issues requests that `begun/list` has, by one list: all of them but those that it refuses, which are sent back; or the first ones, if
# it is too long.
issue_list() {
    local count at is_read=''
    while count=$#; [ $count -gt 1 ]; do
        # Of a log that isn't there: so the list is read, and no log is opened, until all of it is in its form.
        status=0
        [ -n "$is_read" ] || why=$("$mtc" issue-list begun/none begun/list 2>&1) || status=$?
        if [ $status -ne 2 ]; then
            is_read=yes
            give issue-list begun/list "$@"
        fi
        case "$status $why" in
            "0 "*) return ;;
            "2 mtc: issue-list: begun/list: "*" "[0-9]*)
                at=${why##* }
                send_back "begun/${*:at+1:1}" "${*:at+1:1}" "${why% *}"
                cut_list "$at" $((at + 1))
                set -- "${@:1:at}" "${@:at+2}"
                continue
                ;;
            "9 mtc: issue-list: TooMany "[1-9]*) at=${why##* } ;;
            "2 mtc: issue-list: begun/list: "*) at=1 ;;
            "8 "* | "9 "* | 1[3-9]?" "* | 2??" "*) at=$((count / 2)) ;;
            *) refuse "$status" "$why" ;;
        esac
        cut_list "$at" "$count"
        set -- "${@:1:at}"
    done
    [ $count -eq 0 ] || issue_one "$1"
}

# Numbers of the log's first record, which never changes: as many bytes at a place as one number.
number_at() {
    od -An -v --endian=big -t "u$2" -j "$1" -N "$2" log | tr -d ' \n'
}

# How many entries the log takes now, by one list. A mebibyte of the journal stays free, for landmarks, tiles and a switch.
room() {
    local most=$((limit - now))
    if [ "$(stat -Lc %s log)" -gt $(((1 << 33) - (1 << 20))) ]; then most=0; fi
    echo $((most < 1000 ? most : 1000))
}

# Issues what is in `begun`, as long as the log has room, and this run time.
issue_begun() {
    local requests most joined
    while requests=(begun/*.request); [ -e "${requests[0]}" ] || [ -L "${requests[0]}" ]; do
        most=$(room)
        [ "$most" -gt 0 ] || full=${full:-Full}
        if [ -n "$full" ] || [ $SECONDS -ge "$issuing" ]; then break; fi
        requests=("${requests[@]#begun/}")
        requests=("${requests[@]:0:most}")
        join_list "${requests[@]}"
        if [ ${#joined[@]} -gt 0 ]; then
            issue_list "${joined[@]}"
        elif [ -e "begun/${requests[0]}" ] || [ -L "begun/${requests[0]}" ]; then
            issue_one "${requests[0]}"
        fi
        sync -- begun refused
    done
}

# Ends what a run began that was stopped: what the log was given is in it exactly if it has grown by as many.
end_given() {
    local old names
    [ -e begun/given ] || return 0
    { read -r old; mapfile -t names; } <begun/given
    if [ "$now" -eq "$old" ]; then
        rm begun/given
    elif [ "$now" -eq $((old + ${#names[@]})) ]; then
        done_from "$old"
    else
        refuse 20 "${names[*]:0:9} were given to the log at $old entries, and there are $now"
    fi
}

# Puts what waits into `begun`. What is no plain file, or can't be read, is sent back, so that it stops no other one.
begin() {
    local request is_good=(-type f -readable -size -65537c) is_named=(-regex 'requests/[A-Za-z0-9_-][A-Za-z0-9._-]*')
    local waits=(find requests -maxdepth 1 -regextype posix-extended -name '*.request')
    "${waits[@]}" "${is_named[@]}" "${is_good[@]}" -exec mv -n -t begun -- {} + || say "some of the requests can't be taken"
    while IFS= read -r -d '' request; do
        send_back "$request" "${request##*/}" "no plain file that can be read, or more than 65536 bytes"
    done < <("${waits[@]}" "${is_named[@]}" ! \( "${is_good[@]}" \) -print0)
    while IFS= read -r -d '' request; do
        say "left where it is, since its name begins with a dot or has other signs: $(printf %q "$request")"
    done < <("${waits[@]}" ! "${is_named[@]}" -print0)
    sync -- requests begun refused
}

# Ends the issuing: what waits stays in `begun`, or, if the log is full, in `requests` once more.
end_issuing() {
    local count
    count=$(find begun -name '*.request' -printf x | wc -c)
    rm -f begun/given begun/given.new begun/names begun/list begun/cut why wrong
    if [ -n "$full" ]; then
        find begun -name '*.request' -exec mv -n -t requests -- {} +
        say "the log takes no more ($full): $count requests wait in requests. Begin the next log, and put them there"
        worst=9
    elif [ "$count" -gt 0 ]; then
        say "$count requests wait for the next run, since the issuing took $issuing seconds"
    fi
    rmdir begun 2>/dev/null || true
}

# ---- What is done with what was issued: steps, each in a process of its own

# Sets a landmark, if there are entries after the last one, and lists them.
mark() {
    local status=0 why
    if [ "$now" -eq 1 ] || [ "$(sed -n 2p landmarks 2>/dev/null)" = "$now" ]; then return; fi
    { why=$("$mtc" landmark log 2>&1 >&3 3>&-) || status=$?; } 3>&1
    if [ "$why" = "mtc: landmark: NothingNew" ]; then status=0; fi
    [ $status -eq 0 ] || echo "$why" >&2
    into landmarks "$mtc" landmarks log
    return $status
}

# Stores the log's tiles, once a tile is full.
tile() {
    local status=0 why
    [ $((now / 256)) -gt $((published / 256)) ] || return 0
    why=$("$mtc" tile log 2>&1 >/dev/null) || status=$?
    [ $status -eq 0 ] || [ "$why" = "mtc: tile: NothingNew" ] || { echo "$why" >&2; return $status; }
}

# Writes the light certificates of what was issued, and warns if they end before their time.
certify() {
    local hours every=1
    hours=$("$tools/hour_certs.py" light .)
    if [ -s every ]; then read -r every <every; fi
    if [ "$hours" -gt $((maxactive * every)) ]; then
        say "MAXACTIVE is $maxactive, and a certificate lives for $hours hours: with a landmark every $every hours its light one ends before"
    fi
}

# Publishes the entries, and the step to them from what was published before, which counts once the list of steps has it.
publish_entries() {
    local step=public/steps/$published-$now
    [ "$now" -gt "$published" ] || return 0
    # Those of a run that was stopped.
    rm -f -- public/steps/"$published"-*
    into "$step.entries" "$mtc" entries-from log "$published" "$now"
    into "$step.consist" "$mtc" consist log "$published" "$now"
    if [ "$bytes" = 0 ]; then
        into public/entries cat "$step.entries"
    elif [ -n "$bytes" ] && [ "$(stat -c %s public/entries 2>/dev/null || echo 0)" -ge "$bytes" ]; then
        cp --reflink=auto -- public/entries public/entries.new
        truncate -s "$bytes" public/entries.new
        cat "$step.entries" >>public/entries.new
        sync -- public/entries.new
        mv -f -- public/entries.new public/entries
        sync -- public
    else
        into public/entries "$mtc" entries log "$now"
    fi
    touch public/steps/list
    into public/steps/list awk -v step="$published-$now" '1; END { print step }' public/steps/list
    into published echo "$now $(stat -c %s public/entries)"
}

# What was published: the number of entries, and their bytes. A run that was stopped may have listed a step, and no more.
read_published() {
    local listed
    published=0 bytes=0
    if [ -s published ]; then read -r published bytes <published; fi
    listed=$(tail -n 1 public/steps/list 2>/dev/null) || listed=''
    listed=${listed#*-}
    if [ "${listed:-0}" -ne "$published" ]; then
        [ -s published ] && bytes=$(stat -c %s public/entries) || bytes=''
        published=${listed:-0}
    fi
    [ "$now" -ge "$published" ] || refuse 21 "the log has $now entries, and $published were published: an old copy of it was put back"
}

# Publishes the list of landmarks: after the entries, which it is about.
publish_landmarks() {
    [ ! -s landmarks ] || cmp -s landmarks public/landmarks || into public/landmarks cat landmarks
}

# Publishes what the operator says of the log.
publish_about() {
    local file
    [ -e about/maxactive ] || into about/maxactive echo "$maxactive"
    for file in about/*; do
        if [ ! -f "$file" ]; then
            say "$file is no plain file, and isn't published"
        elif ! cmp -s "$file" "public/$file"; then
            into "public/$file" cat "$file"
        fi
    done
    for file in public/about/*; do
        [ -e "about/${file##*/}" ] || rm -f -- "$file"
    done
}

# Publishes what is new as tiles, with a signed checkpoint.
publish_tiles() {
    local from entries
    [ -e note.key ] || return 0
    command -v openssl >/dev/null || { say "openssl isn't here"; return 69; }
    from=$(sed -n 2p public/checkpoint 2>/dev/null) || from=''
    [ "$from" != "$now" ] || return 0
    into checkpoint "$mtc" checkpoint log
    if [[ ! $from =~ ^[1-9][0-9]{0,17}$ ]] || [ "$from" -gt "$now" ]; then
        "$tools/publish.py" log public/entries checkpoint note.key public
        return
    fi
    entries=public/steps/$from-$now.entries
    if [ ! -e "$entries" ]; then
        entries=later
        into later "$mtc" entries-from log "$from" "$now"
    fi
    "$tools/publish.py" more "$from" "$entries" checkpoint note.key public
    rm -f later
}

# The size that a cosigner holds, as its export says; nothing if that is no export. Other parties make this file.
held_by() {
    local file=$1/export held status=0
    if [ ! -e "$file" ] && [ ! -L "$file" ]; then echo 0; return; fi
    if [ -L "$file" ] || [ ! -f "$file" ] || [ "$(stat -c %s "$file")" -gt 1073741824 ]; then
        say "$file: no plain file, or more than a gibibyte"
        return
    fi
    [ -s "$file" ] || { echo 0; return; }
    held=$(timeout 300 "$mtc" held "$file" 2>&1) || status=$?
    if [ $status -eq 0 ] && held=$(sed -n 's/^size //p' <<<"$held") && [ -n "$held" ]; then
        echo "$held"
    else
        say "$file: status $status: ${held:0:200}"
    fi
}

# Reads the one size that all cosigners are asked for, and since when. It goes on to the log's once each cosigner's export shows at
# least that size, or after a day and an hour, so that a cosigner that has ended stops nobody. One that was late isn't waited for again
# until it is no longer behind.
choose_asked() {
    local folder since=0 time behind=''
    asked=0
    time=$(date +%s)
    if [ -s asked ]; then read -r asked since <asked; fi
    for folder in "${!held[@]}"; do
        if [ "${held[$folder]:-0}" -ge "$asked" ]; then
            rm -f "$folder/late"
        elif [ ! -e "$folder/late" ]; then
            behind+=" $folder"
        fi
    done
    if [ "$asked" -le "$now" ] && [ -n "$behind" ] && [ $((time - since)) -lt "$patience" ] && [ "$time" -ge "$since" ]; then return; fi
    for folder in $behind; do
        [ "$asked" -eq 0 ] || { say "$folder hasn't come to $asked: no more is it waited for"; into "$folder/late" echo "$asked"; }
    done
    if [ "$asked" -ne "$now" ]; then
        asked=$now
        into asked echo "$asked $time"
    fi
}

# Puts a link in the place of what has its name, at once.
put_link() {
    [ "$(readlink -- "$2")" != "$1" ] || return 0
    ln -sfn -- "$1" "$2.new" && mv -fT -- "$2.new" "$2"
}

# Writes the requests to one cosigner, from the size that it holds to the one that is asked for: both files in a folder, which is on the
# disk before the link `request` names it.
ask() {
    local folder=$1 from=$2 name=$asked place old
    place=$folder/requests/$name
    if [ -e "$place" ] && [ "$(cat "$place/from" 2>/dev/null)" != "$from" ]; then name=$asked-from-$from place=$place-from-$from; fi
    if [ ! -e "$place" ]; then
        rm -rf -- "$folder/requests/new"
        mkdir -p "$folder/requests/new"
        "$mtc" consist log "$from" "$asked" >"$folder/requests/new/consist"
        [ -e "asked.$asked" ] || into "asked.$asked" "$mtc" subtree log 0 "$asked" "$asked"
        cp "asked.$asked" "$folder/requests/new/subtree"
        [ "$(sed -n 2p public/checkpoint 2>/dev/null)" != "$asked" ] || into "asked.$asked.note" cat public/checkpoint
        [ ! -e "asked.$asked.note" ] || cp "asked.$asked.note" "$folder/requests/new/checkpoint"
        echo "$asked" >"$folder/requests/new/size"
        echo "$from" >"$folder/requests/new/from"
        sync -- "$folder"/requests/new/* "$folder/requests/new"
        mv -T -- "$folder/requests/new" "$place"
        sync -- "$folder/requests"
    fi
    old=$(readlink -- "$folder/request") || old=''
    put_link "requests/$name" "$folder/request"
    put_link request/consist "$folder/consist"
    put_link request/subtree "$folder/subtree"
    sync -- "$folder"
    # Whoever fetches by the link's old name meanwhile finds it; those before it go.
    find "$folder/requests" -mindepth 1 -maxdepth 1 ! -name "$name" ! -name "${old##*/}" -exec rm -rf -- {} +
}

# Asks each cosigner that doesn't hold the common size yet.
ask_cosigners() {
    local folder asked worst=0
    local -A held=()
    [ "$now" -gt 1 ] || return 0
    for folder in cosigners/*/; do
        folder=${folder%/}
        [ ! -d "$folder" ] || held[$folder]=$(held_by "$folder")
    done
    choose_asked
    find . -maxdepth 1 -name 'asked.*' ! -name "asked.$asked" -mtime +30 -delete
    for folder in "${!held[@]}"; do
        if [ -n "${held[$folder]}" ] && [ "${held[$folder]}" -lt "$asked" ]; then step ask "$folder" "${held[$folder]}"; fi
    done
    return $worst
}

now=$(size)
[ ! -f begun ] || refuse 20 "begun is a file of an earlier version of this script, which ends what it began"
id_bytes=$(number_at 22 1)
maxactive=$(number_at $((23 + id_bytes)) 4)
limit=$(number_at $((27 + id_bytes)) 4)
read_published
mkdir -p begun
full=''
end_given
issue_begun
begin
issue_begun
end_issuing
step mark
step certify
step tile
step publish_entries
step publish_landmarks
step publish_about
step publish_tiles
step ask_cosigners
step "$tools/hour_certs.py" signed . "$now"
exit $worst
