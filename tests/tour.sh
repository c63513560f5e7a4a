#!/bin/bash
# Runs the blocks of docs/TOUR.md in their order, in one shell, and compares each line that is printed with the block that
# shows it. A block that names openssl is left out where there is no OpenSSL 3, and that is said. Then compares the certificate
# that README shows, less what stands after its arrows.
# Usage: tests/tour.sh [PAGE]
set -u
root=$(cd "$(dirname "$0")/.." && pwd)
page=${1:-$root/docs/TOUR.md}
folder=$(mktemp -d)
trap 'rm -rf "$folder"' EXIT
# Else each command of the tour would try to build it again.
"$root/mtc" member "$root/examples/first.member" >/dev/null || exit 70
mkdir "$folder/clone"
for name in mtc examples tools; do
    ln -s "$root/$name" "$folder/clone/$name"
done

has_openssl=0
[[ "$(openssl version 2>/dev/null)" == "OpenSSL 3."* ]] && has_openssl=1

# Makes the files commands, a script, and shown, what it must print. A line of both says where each block begins.
awk -v has_openssl="$has_openssl" -v commands="$folder/commands" -v shown="$folder/shown" '
    function take_block() {
        if (!has_openssl && block ~ /openssl|own\.request/) {
            leaves = 1
            left++
            return
        }
        leaves = 0
        blocks++
        print "echo \"== line " begin "\"\n" block >commands
        print "== line " begin >shown
    }
    /^```sh$/ { kind = "sh"; begin = NR; block = ""; next }
    /^```text$/ { kind = "text"; next }
    /^```/ { if (kind == "sh") take_block(); kind = ""; next }
    kind == "sh" { block = block $0 "\n" }
    kind == "text" && !leaves { print >shown }
    END {
        if (kind != "" || blocks < 1) {
            print "wrong: no whole blocks in the page"
            exit 1
        }
        print blocks + 0 " blocks of the tour are run"
        if (left)
            print "left out: tour: " left " blocks, since there is no OpenSSL 3"
    }' "$page" || exit 1

(cd "$folder/clone" && bash "$folder/commands" >"$folder/printed" 2>&1 </dev/null)
if ! diff -u --label "the tour shows" --label "the program prints" "$folder/shown" "$folder/printed"; then
    echo "wrong: the tour"
    exit 1
fi

awk '/^    \$ \.\/mtc show/ { is_in = 1; next }
    is_in && /^$/ { exit }
    is_in { sub(/^    /, ""); sub(/ *<- .*/, ""); print }' "$root/README.md" >"$folder/shown"
"$root/mtc" show "$root/examples/www.cert" | while IFS= read -r line; do
    IFS= read -r wanted <&3 || wanted="no line"
    # A line that ends with two dots is cut there.
    [[ "$line" == "$wanted" || "$wanted" == *.. && "$line" == "${wanted%..}"* ]] || echo "wrong: README shows: $wanted, in place of: $line"
done 3<"$folder/shown" >"$folder/printed"
if [ -s "$folder/printed" ] || [ "$("$root/mtc" show "$root/examples/www.cert" | wc -l)" != "$(wc -l <"$folder/shown")" ]; then
    cat "$folder/printed"
    echo "wrong: the certificate in README"
    exit 1
fi
