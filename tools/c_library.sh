#!/bin/bash
# Puts the C library into a folder: libmtc.a; and libmtc.so.1 for programs that load it, with the link libmtc.so by which they are
# linked. The number in the name is MTC_ABI of include/mtc.h. The crate mtc_c is proved and built first, where that hasn't been done
# or a source was changed since. The same archive of that crate and the same tools give the same bytes. It needs ar, ld, objcopy and
# cc. Of the names of the parts only those of mtc.h are seen outside: another library of the kit in the same program has the others
# too.
# Usage: tools/c_library.sh FOLDER
set -eu
root=$(dirname "$(dirname "$(readlink -f "${BASH_SOURCE[0]}")")")
[ $# -eq 1 ] && [ -d "$1" ] || { echo "usage: tools/c_library.sh FOLDER" >&2; exit 2; }
folder=$(readlink -f "$1")
archive=$root/crates/mtc_c/out/libmtc_c.a
if [ ! -f "$archive" ] ||
    [ -n "$(find "$root/crates.txt" "$root"/crates/*/src "$root"/crates/*/specs -newer "$archive" -print -quit)" ]; then
    (cd "$root/crates/mtc_c" && rt lib) >&2
fi
# What calls malloc, realloc and free; it is the kit's.
heap=$(dirname "$(rt doc | head -n 1)")/c/liblibc_c.a
number=$(sed -n 's/^#define MTC_ABI //p' "$root/include/mtc.h")
work=$(mktemp -d)
trap 'rm -rf "$work"' EXIT
cd "$work"
ar x "$archive"
ar x "$heap"
# In one order everywhere, and by names that don't say where it was.
LC_ALL=C
ld -r -o libmtc.o ./*.o
objcopy --wildcard --keep-global-symbol='mtc_*' libmtc.o
rm -f "$folder/libmtc.a"
ar rcsD "$folder/libmtc.a" libmtc.o
cc -shared -o "$folder/libmtc.so.$number" -Wl,-soname,"libmtc.so.$number" -Wl,-z,defs -Wl,-z,now -Wl,--build-id=none libmtc.o
ln -sf "libmtc.so.$number" "$folder/libmtc.so"
