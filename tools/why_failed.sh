#!/bin/bash
# Says what is behind a line that ends with `Failed` or `Locked`: it tries in turn what a command does that opens the file of
# that line, and says what the system answers, and what to do. Give it the file's name as the line has it, in the same folder,
# as the user whose command failed; for a new journal, the name that it was to have.
# It changes nothing: it opens the file, asks for a shared lock for a moment, so that a command which comes right then may be
# `Locked`, reads the file to its end, and syncs it and its folder. An error of a write that came before may be told by that
# sync, once.
# Prints a line for each step, `ok:` or `wrong:`, and below a wrong one what to do. Wants bash, coreutils and util-linux.
# Usage: tools/why_failed.sh FILE
# Ends with status 0 if nothing is wrong, 1 if something is, 64 if the arguments are none of these.
set -uo pipefail
export LC_ALL=C

if [ $# -ne 1 ] || [ -z "$1" ]; then
    echo "why_failed: give the name of one file" >&2
    exit 64
fi
# A name that begins with a hyphen is no option.
case "$1" in
    -*) name=./$1 ;;
    *) name=$1 ;;
esac
found=0

ok() {
    echo "ok: $1"
}

# Says what is wrong and what to do.
wrong() {
    echo "wrong: $1"
    echo "    do: $2"
    found=1
}

# What the system answers to a command, without the command's own words before it.
answer_of() {
    { "$@" >/dev/null; } 2>&1 | sed -n '$s/^.*: //p'
}

# The folder of a name, as the program finds it.
folder_of() {
    case "$1" in
        */*) printf '%s/' "${1%/*}" ;;
        *) printf '.' ;;
    esac
}

# What a file is by its first bytes: `cosigner`, `journal` of another kind, or `other`.
kind_of() {
    local head
    head=$(head -c 22 -- "$1" 2>/dev/null | od -An -v -tx1 | tr -d ' \n')
    case "$head" in
        6d74632d6a6f75726e616c2f76310a00??????????1[15]*) echo cosigner ;;
        6d74632d6a6f75726e616c2f76310a00*) echo journal ;;
        *) echo other ;;
    esac
}

# ---- the steps

# The name: ENAMETOOLONG, ELOOP, ENOENT and what else the system says of it. Answers whether something of that name is there.
try_name() {
    local said
    if said=$(answer_of stat -L -- "$1") && [ -z "$said" ]; then
        if [ -L "$1" ]; then
            ok "$1 is a link to $(readlink -- "$1")"
        fi
        return 0
    fi
    case "$said" in
        "File name too long") wrong "$1: $said" "choose a shorter name; a journal's leaves six bytes for .tiles" ;;
        "Too many levels of symbolic links") wrong "$1: $said" "make the link lead to the file, or name the file itself" ;;
        "No such file or directory" | "Not a directory") try_new "$1" "$said" ;;
        *) wrong "$1: $said" "give this user the right to search each folder of the path" ;;
    esac
    return 1
}

# A name that has no file: whether one can be made there.
try_new() {
    local folder
    folder=$(folder_of "$1")
    if [ -L "$1" ]; then
        wrong "$1 is a link to $(readlink -- "$1"), which isn't there" "remove the link, or make it lead to the file; no journal is made by a link"
    elif [ ! -d "$folder" ]; then
        wrong "$1: $2, and $folder is no folder" "make the folder first: mkdir -p -- $folder"
        return
    elif [ ! -w "$folder" ] || [ ! -x "$folder" ]; then
        wrong "$1 isn't there, and this user may make no file in $folder" "give the user the right to write in that folder, or choose another"
        try_mount "$folder"
    else
        ok "$1 isn't there, and can be made"
        try_space "$folder"
    fi
    try_sync "$folder" "the folder"
}

# What kind of file it is, and how many names it has.
try_kind() {
    local kind links
    kind=$(stat -L -c %F -- "$1")
    case "$kind" in
        "regular file" | "regular empty file") ok "$1 is a plain file" ;;
        *) wrong "$1 is a $kind" "name a plain file" ;;
    esac
    [ "$2" = tiles ] || return 0
    links=$(stat -L -c %h -- "$1")
    if [ -L "$1" ]; then
        wrong "$1 is a link: no tile is written by a link" "move the link away, and give tile-anew; don't make a tile file a link"
    fi
    if [ "$links" -ne 1 ]; then
        wrong "$1 has $links names (hard links)" "move this name away, and give tile-anew; or make a copy: cp -- FILE COPY && mv -- COPY FILE"
    fi
    if [ "$(kind_of "$1")" != other ]; then
        wrong "$1 is a journal: no tile is written over one" "move it away, and give tile-anew"
    fi
}

# The rights to read and to write, as the system answers them.
try_rights() {
    local said
    said=$(answer_of dd if="$1" of=/dev/null count=0 status=none)
    if [ -n "$said" ]; then
        wrong "$1 can't be opened to be read: $said" "make it readable for this user, $(id -un): its mode is $(stat -L -c '%a of %U:%G' -- "$1")"
    else
        ok "$1 can be opened to be read"
    fi
    [ "$2" != input ] || return 0
    # Nothing is written: no byte is copied, and the file isn't cut.
    said=$(answer_of dd if=/dev/null of="$1" count=0 conv=notrunc,nocreat status=none)
    case "$said" in
        "") ok "$1 can be opened to be written" ;;
        "Read-only file system") try_mount "$1" ;;
        "Operation not permitted") wrong "$1 can't be opened to be written: $said" "look for an attribute of the file (lsattr), as immutable or append-only; until then only commands that ask work" ;;
        *) wrong "$1 can't be opened to be written: $said" "make it writable for this user, $(id -un): its mode is $(stat -L -c '%a of %U:%G' -- "$1"); until then only commands that ask work" ;;
    esac
}

# Whether the file system may only be read.
try_mount() {
    local options
    options=,$(findmnt -n -o OPTIONS -T "$1" 2>/dev/null | tail -n 1),
    case "$options" in
        *,ro,*) wrong "the file system of $1 may only be read" "look into the system's log for an error of the disk; without one mount it to be written (mount -o remount,rw). Until then only commands that ask work" ;;
    esac
}

# The mode of a cosigner's journal, which has a secret in it.
try_mode() {
    local mode
    mode=$(stat -L -c %a -- "$1")
    case "$mode" in
        *00) ok "$1 of a cosigner is its owner's alone, mode $mode" ;;
        *) wrong "$1 of a cosigner is open to others, mode $mode" "chmod go= -- $1; if the mode stays, the file system has no modes: move the journal to one that has, and see that nobody else read it" ;;
    esac
}

# Who holds a lock on the file, and whether the system knows locks at all.
try_lock() {
    local device inode kind how process place words said status holders=""
    device=$(stat -L -c '%Hd:%Ld' -- "$1")
    device=$(printf '%02x:%02x' "${device%:*}" "${device#*:}")
    inode=$(stat -L -c %i -- "$1")
    while read -r _ kind _ how process place _; do
        [ "$kind" = FLOCK ] && [ "$place" = "$device:$inode" ] || continue
        words=$({ tr '\0' ' ' <"/proc/$process/cmdline" | head -c 200; } 2>/dev/null)
        holders="$holders; process $process ($words) $([ "$how" = READ ] && echo reads it || echo has it for itself)"
    done </proc/locks
    said=$(flock -n -s -E 75 -- "$1" true 2>&1 >/dev/null)
    status=$?
    if [ -n "$holders" ] || [ "$status" -eq 75 ]; then
        wrong "$1 is locked${holders:-, by a process that is not seen from here}" "wait until that process ends, and give the command again; let commands wait for each other by a lock of your own"
    elif [ "$status" -ne 0 ]; then
        wrong "$1 can't be locked: ${said##*: }" "move the journal to a file system that knows locks (flock)"
    else
        ok "$1 can be locked, and nobody has it"
    fi
}

# Space, inodes, and the limit of this process for a file's size.
try_space() {
    local blocks inodes all limit length
    read -r blocks inodes all <<<"$(stat -f -c '%a %d %c' -- "$1")"
    if [ "$blocks" -eq 0 ]; then
        wrong "the disk of $1 is full: $(df -P -- "$1" | awk 'NR == 2 { print $3 " of " $2 " blocks are used" }')" "free some space on it"
    elif [ "$all" -gt 0 ] && [ "$inodes" -eq 0 ]; then
        wrong "the disk of $1 has no inode left for a new file" "remove files on it"
    else
        ok "the disk of $1 has space"
    fi
    limit=$(ulimit -f)
    if [ "$limit" != unlimited ]; then
        length=$(stat -L -c %s -- "$1" 2>/dev/null || echo 0)
        if [ "$length" -ge $((limit * 1024)) ]; then
            wrong "a process may write no file of more than $limit KiB here (ulimit -f), and $1 has $length bytes" "raise the limit"
        fi
    fi
}

try_read() {
    local said
    said=$(answer_of dd if="$1" of=/dev/null bs=1M status=none)
    if [ -n "$said" ]; then
        wrong "$1 can't be read to its end: $said" "look into the system's log, and use this disk no further: docs/OPERATIONS.md, \"After a failed sync\""
    else
        ok "$1 can be read to its end"
    fi
}

try_sync() {
    local said
    said=$(answer_of sync -- "$1")
    case "$said" in
        "") ok "$2, $1, can be synced" ;;
        "Permission denied") wrong "$2, $1, can't be opened to be synced: $said" "give this user, $(id -un), the right to read it" ;;
        "Invalid argument" | "Read-only file system") wrong "$2, $1, can't be synced: $said" "move the journal to a file system that knows syncs; until then only commands that ask work" ;;
        *) wrong "$2, $1, can't be synced: $said" "look into the system's log, and use this disk no further: docs/OPERATIONS.md, \"After a failed sync\"" ;;
    esac
}

# All steps for one file: a `journal`, a tile file (`tiles`), or an `input` of a command.
try_file() {
    try_name "$1" || return 0
    try_kind "$1" "$2"
    # Only a plain file is opened: a pipe would wait for its other end.
    [ -f "$1" ] || return 0
    try_rights "$1" "$2"
    [ -r "$1" ] || return 0
    if [ "$2" != input ]; then
        [ "$(kind_of "$1")" != cosigner ] || [ "$2" = tiles ] || try_mode "$1"
        try_lock "$1"
        try_space "$1"
    fi
    try_read "$1"
    [ "$2" != input ] || return 0
    try_sync "$1" "the file"
    try_sync "$(folder_of "$1")" "the folder"
}

# ---- the file, and the tile file beside a journal

case "$name" in
    *.tiles) try_file "$name" tiles ;;
    *)
        kind=$([ -f "$name" ] && kind_of "$name" || echo new)
        if [ "$kind" = other ] && [ -s "$name" ]; then
            ok "$name is no journal, so it is an input: it is only read"
            try_file "$name" input
        else
            try_file "$name" journal
        fi
        # The journal of a log or a mirror has its tile file beside it, and each journal's name has to leave space for it.
        if [ "$kind" = journal ] && { [ -e "$name.tiles" ] || [ -L "$name.tiles" ]; }; then
            try_file "$name.tiles" tiles
        elif [ "$kind" != other ] && [ "$(answer_of stat -- "$name.tiles")" = "File name too long" ]; then
            wrong "$name.tiles: File name too long" "choose a shorter name for the journal: it leaves six bytes for .tiles"
        fi
        ;;
esac
if [ "$found" -eq 0 ]; then
    echo "no cause was found: what failed has passed. Look into the system's log, and at what this user's own limits allow"
fi
exit "$found"
