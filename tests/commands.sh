#!/bin/bash
# Runs a list of commands on logs, cosigners and mirrors over real files, and compares the status, standard output (by the first half
# of its SHA-256) and standard error of each, and the journals at the end, with those that another implementation gave once.
# Usage: tests/commands.sh [PROGRAM]    another build of the program, which is left out where it isn't there
set -u
root=$(cd "$(dirname "$0")/.." && pwd)
folder=$(mktemp -d)
trap 'rm -rf "$folder"' EXIT
"$root/mtc" member "$root/examples/first.member" >/dev/null || exit 70
program=$(readlink -f "${1-$root/mtc}")
if [ ! -x "$program" ]; then
    echo "left out: commands of $1: it isn't here"
    exit 0
fi
cd "$folder" || exit 2

key=MCowBQYDK2VwAyEAAAAAAAAAAAAAAAAAAAAAAAAAAAAAAAAAAAAAAAAAAAA=
request() {
    printf 'not_before = "%s"\nnot_after = "%s"\ndns = [%s]\n%skey = "%s"\n' "$1" "$2" "$3" "$4" "$5"
}
request 2026-01-01T00:00:00Z 2026-01-08T00:00:00Z '"a.example"' '' "$key" >r
request 2049-12-31T23:59:59Z 2050-01-01T00:00:00Z '"*.b.example", "c.example"' $'common_name = "b"\n' \
    MCowBQYDK2VwAyEAAQEBAQEBAQEBAQEBAQEBAQEBAQEBAQEBAQEBAQEBAQE= >s
request 2026-01-08T00:00:00Z 2026-01-01T00:00:00Z '"a.example"' '' "$key" >t
request 2026-01-01T00:00:00Z 2026-01-08T00:00:00Z '"-a.example"' '' "$key" >u
printf '[[request]]\n%s\n[[request]]\n%s\n' "$(<r)" "$(<s)" >R
printf '[[request]]\n%s\n[[request]]\n%s\n' "$(<r)" "$(<t)" >T
printf %048d 0 >secret
printf %048d 1 >secret_of_two
printf '[log]\nid = "32473.1"\n' | tee store >other
printf '[[%s]]\n%s\n%s\n' cosigner 'id = "32473.2"' 'key = "AAAAAQAAAAUAAAADMDAwMDAwMDAwMDAwMDAwMIB1NLdgPEPM0E/kvwFyxip3db1CJTKwvsyumrhWwUuV"' \
    rule 'cosigners = ["32473.2"]' 'count = 1' >>other
printf '[log]\nid = "32473.1"\n' >two
printf '[[%s]]\n%s\n%s\n' cosigner 'id = "32473.4"' 'key = "AAAAAgAAAAYAAAADMDAwMDAwMDAwMDAwMDAwMNsU1/jEwolwGbNhwXZ3asRaBKXZXduAss8mu2bbOzUn"' rule 'cosigners = ["32473.4"]' 'count = 1' >>two
printf '[log]\nid = "32473.1"\nalgorithm_from = 2\n' >switched
: >empty
echo a.example >names

# Six entries that are no certificates', two more, and requests to hold six and eight: n0_4 is the node over the first four.
n0_4=d37ee418976dd95753c1c73862b9398fa2a2cf9b4ff0fdfe8b30cd95209614b7
n4_6=0ebc5d3437fbe2db158b9f126a1d118e308181031d0a949f8dededebc558ef6a
bytes() {
    # shellcheck disable=SC2059
    printf "$(printf %s "$@" | sed 's/../\\x&/g')"
}
bytes 00000000000100000000011000000002202100000002303100000004404142430000 >six
bytes 000850515253545556570000 0010606162636465666768696a6b6c6d6e6f0000 >last_two
bytes 0481fd59010000000000000006 76e67dadbcdf1e10e1b74ddc608abd2f98dfb16fbce75277b5232a127f2087ef 0000 >to_6
bytes 0481fd59010000000000000008 5dc9da79a70659a9ad559cb701ded9a2ab9d823aad2f4960cfe370eff4604328 \
    0060 "$n4_6" ca854ea128ed050b41b35ffc1b87b8eb2bde461e9e3b5596ece6b9d5975a0ae0 "$n0_4" >to_8
echo "state 32473.1 6 $n0_4" >one_peak

# The entries of mirrors: all eight, the same with another fourth one, and 65,536 without a byte, which one record doesn't hold.
cat six last_two >eight
bytes 00000000000100000000011000000002202000000002303100000004404142430000 | cat - last_two >differing
head -c 262144 /dev/zero >zeros

wrong=0
count=0
while IFS='|' read -r words status hash line; do
    # Words are separated by blanks alone. A line may say to which file its output goes, or after which.
    # shellcheck disable=SC2086
    "$program" ${words%%>*} >out 2>err </dev/null
    found="$?|$([ -s out ] && sha256sum out | cut -c1-16 || echo -)|$(cat err)"
    count=$((count + 1))
    case "$words" in
        *">>"*) cat out >>"${words#*>>}" ;;
        *">"*) cp out "${words#*>}" ;;
    esac
    if [ "$found" != "$status|$hash|$line" ]; then
        echo "wrong: $words: $found in place of $status|$hash|$line"
        wrong=1
    fi
done <<'TABLE'
init-log j 32473.1 2 5|0|d2ef99de8024e444|
init-log j 32473.1 2 5|7|-|mtc: init-log: j: Exists
checkpoint j|0|c931cd8221615ff2|
issue j r|0|2c79a1c0b381d236|
issue j s|0|176e7dd8d13f83ef|
checkpoint j|0|0eedf9c50912344e|
entries j 3|0|a183d917c04cb5db|
entries j 4|4|-|mtc: entries: Beyond 3
entries-from j 0 3|0|a183d917c04cb5db|
entries-from j 1 3|0|6db8a3b5b8303113|
entries-from j 3 3|4|-|mtc: entries-from: NothingNew
entries-from j 2 4|4|-|mtc: entries-from: Beyond 3
entries-from j 1 03|1|-|mtc: entries-from: BadNumber 3
entries-from j.tiles 1 3|1|-|mtc: entries-from: TilesName 1
entries-from k 1 3|7|-|mtc: entries-from: k: Absent
consist j 0 3|0|5b6191f24cfd86a1|
consist j 1 3|0|e8247e69e1689b61|
consist j 2 3|0|804c5e6b9646da87|
consist j 3 3|4|-|mtc: consist: NothingNew
subtree j 0 2 3|0|e538ee2d2f6dd980|
subtree j 2 3 3|0|bae1a0970bd6bb72|
subtree j 1 3 3|4|-|mtc: subtree: BadSubtree
issue j t|2|-|mtc: issue: t: DatesReversed
issue j u|2|-|mtc: issue: u: BadValue Dns
issue j r|0|499e638bd805b175|
issue j r|0|948cfa154ba5ee8b|
checkpoint j|0|0b252c24fc2e873d|
checkpoint k|7|-|mtc: checkpoint: k: Absent
init-cosigner w 32473.2 32473.1 5 4 secret|0|4c943d8227c5919e|
init-cosigner w 32473.2 32473.1 5 4 secret|7|-|mtc: init-cosigner: w: Exists
keygen 5 4 secret|0|4c943d8227c5919e|
init-cosigner x 32473.2 32473.1 5 4 r|2|-|mtc: init-cosigner: r: Trailing
consist j 0 2 >a|0|01e33cf0379ef37a|
consist j 2 3 >b|0|804c5e6b9646da87|
subtree j 0 2 3 >c|0|e538ee2d2f6dd980|
subtree j 4 5 5 >d|0|74335e3f2e01610b|
advance w b|4|-|mtc: advance: BadProof
advance w a|0|7a59202bce4a144f|
advance w a|4|-|mtc: advance: NotNewer 2
advance w r|2|-|mtc: advance: r: Short 151
cosign w c|4|-|mtc: cosign: BadProof
advance w b|0|a306b2505d61890f|
cosign w c >e|0|27220956792bf043|
cosign w d|4|-|mtc: cosign: Beyond 3
cosign w a|2|-|mtc: cosign: a: Short 21
cosign j c|2|-|mtc: cosign: j: BadRecord 0
export w|0|0e90356f9b484d1f|
export j|2|-|mtc: export: j: BadRecord 0
export k|7|-|mtc: export: k: Absent
export w w|1|-|mtc: export: WrongCount 2 1
checkpoint w|2|-|mtc: checkpoint: w: BadRecord 0
cert j 1 0 2 e >f|0|2716e6bd45de1336|
show f|0|9d9f0b3faa998625|
cert j 0 0 2 e|4|-|mtc: cert: NullEntry
cert j 5 0 2 e|4|-|mtc: cert: NoSuchEntry
cert j 3 0 2 e|4|-|mtc: cert: Outside
cert j 2 1 3 e|4|-|mtc: cert: BadSubtree
cert j 1 0 8 e|4|-|mtc: cert: Beyond 5
cert j 1 0 2 secret|2|-|mtc: cert: secret: Short 0
cert j 1 0 2 k|7|-|mtc: cert: k: Absent
cosign k c|7|-|mtc: cosign: k: Absent
landmarks j|0|5d4c189735a1c562|
landmark j|0|d7d8109e8a3fc293|
landmark j|4|-|mtc: landmark: NothingNew
landmarks j|0|874c949fa03bfbda|
landmark k|7|-|mtc: landmark: k: Absent
landmarks k|7|-|mtc: landmarks: k: Absent
landmark w|2|-|mtc: landmark: w: BadRecord 0
landmarks j 2|1|-|mtc: landmarks: WrongCount 2 1
light-cert j 1 >g|0|5464ded5c00c6d00|
show g|0|57a9cde14a994bee|
light-cert j 4 >g|0|d8318d2326ce28c2|
light-cert j 0|4|-|mtc: light-cert: NullEntry
light-cert j 5|4|-|mtc: light-cert: NoSuchEntry
light-cert j 05|1|-|mtc: light-cert: BadNumber 2
light-cert k 1|7|-|mtc: light-cert: k: Absent
light-cert w 1|2|-|mtc: light-cert: w: BadRecord 0
tile j|4|-|mtc: tile: NothingNew
tile w|2|-|mtc: tile: w: BadRecord 0
tile k|7|-|mtc: tile: k: Absent
tile j r|1|-|mtc: tile: WrongCount 2 1
tile j.tiles|1|-|mtc: tile: TilesName 1
tile-anew j|4|-|mtc: tile-anew: NothingNew
tile-anew w|2|-|mtc: tile-anew: w: BadRecord 0
tile-anew k|7|-|mtc: tile-anew: k: Absent
tile-anew j r|1|-|mtc: tile-anew: WrongCount 2 1
tile-anew j.tiles|1|-|mtc: tile-anew: TilesName 1
init-log j.tiles 32473.1 2 64|1|-|mtc: init-log: TilesName 1
init-log j.tiles 1 4 1|1|-|mtc: init-log: BadNumber 4
init-log j.tiles 01 4 64|1|-|mtc: init-log: BadId 2
init-cosigner w.tiles 32473.2 32473.1 5 4 secret|1|-|mtc: init-cosigner: TilesName 1
init-log m 32473.1 2 64|0|d2ef99de8024e444|
light-cert m 1|4|-|mtc: light-cert: NoSuchEntry
issue m r|0|2c79a1c0b381d236|
issue m s|0|176e7dd8d13f83ef|
issue m r|0|499e638bd805b175|
light-cert m 3|4|-|mtc: light-cert: NotCovered
issue m r|0|948cfa154ba5ee8b|
landmark m|0|d7d8109e8a3fc293|
issue m s|0|01a9420053a4041c|
light-cert m 5|4|-|mtc: light-cert: NotCovered
issue m r|0|59c0119c54e630b8|
issue m r|0|47ec99c7f9ba350e|
issue m s|0|83adddc4a22ae03e|
landmark m|0|bef8121959deb7cd|
landmark m|4|-|mtc: landmark: NothingNew
landmarks m >l|0|8bdd5692ba16685f|
light-cert m 6 >h|0|63f4f0b9b620f30a|
light-cert m 8 >i|0|c9ef335323afe420|
entries m 9 >n|0|ae1cb2a88d7f859e|
issue m r|0|15643f4acfe403fb|
light-cert m 9|4|-|mtc: light-cert: NotCovered
light-cert m 10|4|-|mtc: light-cert: NoSuchEntry
landmark m|0|bf78e7fa7c2590d7|
landmarks m|0|ae1283831c794010|
light-cert m 1|4|-|mtc: light-cert: NotCovered
init-log o 32473.1 1 64|0|d2ef99de8024e444|
issue o r|0|2c79a1c0b381d236|
issue o r|0|176e7dd8d13f83ef|
issue o r|0|499e638bd805b175|
issue o r|0|948cfa154ba5ee8b|
landmark o|0|d7d8109e8a3fc293|
issue o r|0|01a9420053a4041c|
issue o r|0|59c0119c54e630b8|
issue o r|0|47ec99c7f9ba350e|
issue o r|0|83adddc4a22ae03e|
landmark o|0|bef8121959deb7cd|
landmarks o|0|17fd6ec7ca35bcf7|
light-cert o 3|4|-|mtc: light-cert: NotCovered
light-cert o 6|0|5c128867dc86b357|
trust-landmarks l 2 n >>store|0|5604a2a7070a0217|
verify h store 1767225600|0|2e99ef8832618704|
verify i store 2524607999|0|43cba64a1d8af684|
verify g store 1767225600|0|ceb4c9d10ac68f69|
trust-landmarks l 3 n|0|5604a2a7070a0217|
trust-landmarks l 1 n|2|-|mtc: trust-landmarks: l: TooManyActive
trust-landmarks l 0 n|1|-|mtc: trust-landmarks: BadNumber 2
trust-landmarks l 10001 n|1|-|mtc: trust-landmarks: BadNumber 2
trust-landmarks l 2|1|-|mtc: trust-landmarks: WrongCount 2 3
trust-landmarks n 2 n|2|-|mtc: trust-landmarks: n: BadLine 0
trust-landmarks l 2 l|2|-|mtc: trust-landmarks: l: Short 0
trust-landmarks n 2 l|2|-|mtc: trust-landmarks: l: Short 0
trust-landmarks empty 2 n|2|-|mtc: trust-landmarks: empty: BadLine 0
trust-landmarks l 2 empty|2|-|mtc: trust-landmarks: l: BeyondLog
trust-landmarks k 2 n|7|-|mtc: trust-landmarks: k: Absent
trust-landmarks l 2 k|7|-|mtc: trust-landmarks: k: Absent
entries m 8 >p|0|abe387ebd9c42115|
trust-landmarks l 2 p|2|-|mtc: trust-landmarks: l: BeyondLog
audit h store 1767225600 n empty|0|b872ef9159f7401a|
audit h store 1767225600 p empty|0|b872ef9159f7401a|
audit i store 2524607999 p empty|3|521bf736109885c5|
entries o 9 >q|0|5d348117ea63b2b2|
audit h store 1767225600 q empty|3|f6877c3953f4af60|
audit h store 1767225600 empty empty|3|9af4323c498831d8|
verify f other 1767225600|0|1ce12c1c8a98c089|
export w >x|0|0e90356f9b484d1f|
entries j 3 >y|0|a183d917c04cb5db|
entries j 2 >z|0|b7e4cc5fa6329a75|
audit f other 1767225600 y x|0|d5e1ed673f1ca1d7|
audit f other 1767225600 n x|0|d5e1ed673f1ca1d7|
audit f other 1767225600 z x|3|7f0f7d3403e18591|
audit f other 1767225600 q x|3|63e1d9e5388f0703|
audit f other 1767225600 y empty|3|b4994d0e3661d7e0|
audit f other 1767225600 z empty|3|b4994d0e3661d7e0|
audit f store 1767225600 y x|3|0c01d7f4d8ef0652|
audit f other 1800000000 y x|3|705d1d9f5ff4db00|
audit f other 01 y x|1|-|mtc: audit: BadNumber 3
audit f other 1767225600 y|1|-|mtc: audit: WrongCount 4 5
audit f empty 1767225600 y x|2|-|mtc: audit: empty: Missing LogId
audit f other 1767225600 e x|2|-|mtc: audit: e: Short 1155
audit f other 1767225600 y e|2|-|mtc: audit: e: BadKey
audit f other 1767225600 y r|2|-|mtc: audit: r: Short 111
audit e other 1767225600 y x|2|-|mtc: audit: e: WrongTag 0
audit k other 1767225600 y x|7|-|mtc: audit: k: Absent
audit f k 1767225600 y x|7|-|mtc: audit: k: Absent
audit f other 1767225600 k x|7|-|mtc: audit: k: Absent
audit f other 1767225600 y k|7|-|mtc: audit: k: Absent
init-cosigner2 I 32473.4 32473.1 10 5 4 secret_of_two|0|d7c551d909320d2a|
init-cosigner2 I 32473.4 32473.1 10 5 4 secret_of_two|7|-|mtc: init-cosigner2: I: Exists
init-cosigner2 K 32473.4 32473.1 10 6 4 secret_of_two|1|-|mtc: init-cosigner2: BadNumber 5
init-cosigner2 K 32473.4 32473.1 10 5 4 r|2|-|mtc: init-cosigner2: r: Trailing
advance I a|0|7a59202bce4a144f|
advance I b|0|a306b2505d61890f|
cosign I c|4|-|mtc: cosign: NeedsChild
child I|0|cdd66e1dee7a76ff|
child I|4|-|mtc: child: ChildLeft 32
cosign I c >L|0|c13ce3b94ffb03da|
child I|4|-|mtc: child: ChildLeft 31
child w|4|-|mtc: child: OneLevel
child j|2|-|mtc: child: j: BadRecord 0
child k|7|-|mtc: child: k: Absent
child|1|-|mtc: child: WrongCount 0 1
export I >M|0|bbbba462c9974540|
cert j 1 0 2 L >N|0|5c0084a47ef3c588|
verify N two 1767225600|0|1ce12c1c8a98c089|
audit N two 1767225600 y M|0|d5e1ed673f1ca1d7|
quarrel M|0|cb639537d7abfedf|
quarrel x|0|cb639537d7abfedf|
quarrel empty|0|cb639537d7abfedf|
quarrel e|2|-|mtc: quarrel: e: BadKey
quarrel r|2|-|mtc: quarrel: r: Short 111
quarrel k|7|-|mtc: quarrel: k: Absent
quarrel|1|-|mtc: quarrel: WrongCount 0 1
root y|0|0eedf9c50912344e|
root empty|0|720462d30f425884|
root e|2|-|mtc: root: e: Short 1155
root k|7|-|mtc: root: k: Absent
root|1|-|mtc: root: WrongCount 0 1
held x|0|879957f0f963025d|
held empty|0|72bc30bd85d75d05|
held e|2|-|mtc: held: e: BadKey
held r|2|-|mtc: held: r: Short 111
held k|7|-|mtc: held: k: Absent
monitor-init 32473.1 >v|0|51c9cb3f6f35b380|
monitor-init 01|1|-|mtc: monitor-init: BadId 1
monitor v names a z >A|0|dece5e135f727f69|
monitor v empty a z|0|812d01c9af8c3473|
monitor A names b y|4|-|mtc: monitor: ItemCount 3 1
entries-from j 2 3 >B|0|8dd5eb22cf4b3756|
monitor A names b B|0|579d81e3a6df90be|
monitor v names a y|4|-|mtc: monitor: ItemCount 3 2
monitor A names a z|4|-|mtc: monitor: NotNewer 2
monitor v names b y|4|-|mtc: monitor: BadProof
monitor e names a z|2|-|mtc: monitor: e: BadLine 0
monitor v secret a z|2|-|mtc: monitor: secret: BadLine 0
monitor v k a z|7|-|mtc: monitor: k: Absent
monitor v names to_6 six >kept|0|e9231f17aa2f2559|
monitor kept names to_8 last_two|0|25fa5d710ed6cfa0|
monitor one_peak names to_8 last_two|2|-|mtc: monitor: one_peak: BadLine 0
--help|1|-|mtc: UnknownCommand
help x|1|-|mtc: help: WrongCount 1 0
version|0|227bcb5ed9ef0bd3|
version 1|1|-|mtc: version: WrongCount 1 0
init-log C 32473.1 2 64|0|d2ef99de8024e444|
issue C r|0|2c79a1c0b381d236|
switch C|0|a50a28d91fc2a3cb|
switch C|4|-|mtc: switch: AlreadySwitched 2
issue C s|0|176e7dd8d13f83ef|
landmark C|0|168b23993494f42f|
landmarks C >D|0|5027671c0e1e6a3f|
entries C 3 >E|0|6a4395dfdee29299|
trust-landmarks D 2 E >>switched|0|998aa6597fae484d|
light-cert C 1 >F|0|a2c12b09198ad31f|
light-cert C 2 >G|0|a3aa8b8029220c25|
verify F switched 1767225600|0|1ce12c1c8a98c089|
verify G switched 2524607999|0|d9cda81596044fce|
audit G switched 2524607999 E empty|0|41f2c046aef57e42|
checkpoint C|0|67b2ce9d6e094908|
switch k|7|-|mtc: switch: k: Absent
switch w|2|-|mtc: switch: w: BadRecord 0
switch C r|1|-|mtc: switch: WrongCount 2 1
switch C.tiles|1|-|mtc: switch: TilesName 1
init-log H 32473.1 2 64|0|d2ef99de8024e444|
issue-list H r|2|-|mtc: issue-list: r: UnknownKey
issue-list H T|2|-|mtc: issue-list: T: DatesReversed 1
issue-list H empty|2|-|mtc: issue-list: empty: Missing Requests
issue-list H k|7|-|mtc: issue-list: k: Absent
issue-list k R|7|-|mtc: issue-list: k: Absent
issue-list H.tiles R|1|-|mtc: issue-list: TilesName 1
checkpoint H|0|c931cd8221615ff2|
issue-list H R|0|692fb4dd3df54df0|
checkpoint H|0|0eedf9c50912344e|
entries H 3|0|a183d917c04cb5db|
certs H 1 3 0 4 empty|4|-|mtc: certs: Beyond 3 1
certs H 1 3 0 2 empty|4|-|mtc: certs: Outside 2
certs H 0 2 0 2 empty|4|-|mtc: certs: NullEntry 0
certs H 2 2 0 2 empty|4|-|mtc: certs: NothingNew
certs H 1 2 0 2 secret|2|-|mtc: certs: secret: Short 0
certs H 1 2 0 2|1|-|mtc: certs: WrongCount 5 6
certs H 1 2 0 2 empty|0|ffd2c075f03f6603|
light-certs H 1 3|4|-|mtc: light-certs: NotCovered 1
landmark H|0|168b23993494f42f|
light-certs H 1 3|0|bbad0ed1df1ebaad|
light-certs H 1 4|4|-|mtc: light-certs: NoSuchEntry 3
light-certs H 01 2|1|-|mtc: light-certs: BadNumber 2
issue-list w R|2|-|mtc: issue-list: w: BadRecord 0
mirror-init mirror 32473.1|0|d91bbe62cba87844|
mirror-init mirror 32473.1|7|-|mtc: mirror-init: mirror: Exists
mirror-init mirror.tiles 32473.1|1|-|mtc: mirror-init: TilesName 1
mirror-init k 01|1|-|mtc: mirror-init: BadId 2
mirror-init k|1|-|mtc: mirror-init: WrongCount 1 2
mirror-entries mirror 0|0|-|
mirror-entries mirror 1|4|-|mtc: mirror-entries: Beyond 0
mirror-take mirror six|0|77390b9b63235102|
mirror-take mirror eight|0|480c3bf1052c9f88|
mirror-take mirror eight|4|-|mtc: mirror-take: NothingNew
mirror-take mirror six|4|-|mtc: mirror-take: NothingNew
mirror-take mirror empty|4|-|mtc: mirror-take: NothingNew
mirror-take mirror differing|4|-|mtc: mirror-take: Differs 3
mirror-take mirror y|4|-|mtc: mirror-take: Differs 0
mirror-take mirror r|2|-|mtc: mirror-take: r: Short 0
mirror-take mirror k|7|-|mtc: mirror-take: k: Absent
mirror-take k eight|7|-|mtc: mirror-take: k: Absent
mirror-take j eight|2|-|mtc: mirror-take: j: BadRecord 0
mirror-take w eight|2|-|mtc: mirror-take: w: BadRecord 0
mirror-take mirror|1|-|mtc: mirror-take: WrongCount 1 2
mirror-entries mirror 8|0|8372156bc6c06db9|
mirror-entries mirror 3|0|f884e614ff69dd06|
mirror-entries mirror 9|4|-|mtc: mirror-entries: Beyond 8
mirror-entries mirror 08|1|-|mtc: mirror-entries: BadNumber 2
mirror-entries w 1|2|-|mtc: mirror-entries: w: BadRecord 0
mirror-tile mirror|4|-|mtc: mirror-tile: NothingNew
mirror-tile k|7|-|mtc: mirror-tile: k: Absent
mirror-tile j|2|-|mtc: mirror-tile: j: BadRecord 0
mirror-tile mirror six|1|-|mtc: mirror-tile: WrongCount 2 1
init-cosigner signer 32473.2 32473.1 5 4 secret|0|4c943d8227c5919e|
mirror-cosign signer mirror 0 1|4|-|mtc: mirror-cosign: Beyond 0
mirror-advance signer mirror 9|4|-|mtc: mirror-advance: Beyond 8
mirror-advance signer mirror 0|4|-|mtc: mirror-advance: NotNewer 0
mirror-advance signer mirror 5|0|0798e83cf157953d|
mirror-advance signer mirror 5|4|-|mtc: mirror-advance: NotNewer 5
mirror-cosign signer mirror 0 4 >mirrored|0|4480b680ed1313f2|
mirror-cosign signer mirror 4 6|4|-|mtc: mirror-cosign: Beyond 5
mirror-cosign signer mirror 1 3|4|-|mtc: mirror-cosign: BadSubtree
mirror-cosign signer mirror 3 9|4|-|mtc: mirror-cosign: BadSubtree
mirror-cosign mirror mirror 0 4|1|-|mtc: mirror-cosign: BadWord 1
mirror-advance mirror mirror 04|1|-|mtc: mirror-advance: BadNumber 3
mirror-cosign mirror.tiles mirror 0 4|1|-|mtc: mirror-cosign: TilesName 1
mirror-advance signer mirror.tiles 8|1|-|mtc: mirror-advance: TilesName 2
mirror-advance signer mirror|1|-|mtc: mirror-advance: WrongCount 2 3
mirror-cosign signer mirror 0|1|-|mtc: mirror-cosign: WrongCount 3 4
mirror-advance w mirror 8|4|-|mtc: mirror-advance: NotMine 3bdbece5ca68d0025b68df77c829651c499113e8559c50f6c7bdcb91e04664d4 aeb6bcfe274b70a14fb067a5e5578264db0fa9b51af5e0ba159158f329e06e77
mirror-cosign w mirror 0 2|4|-|mtc: mirror-cosign: NotMine 3bdbece5ca68d0025b68df77c829651c499113e8559c50f6c7bdcb91e04664d4 aeb6bcfe274b70a14fb067a5e5578264db0fa9b51af5e0ba159158f329e06e77
mirror-cosign w mirror 1 3|4|-|mtc: mirror-cosign: NotMine 3bdbece5ca68d0025b68df77c829651c499113e8559c50f6c7bdcb91e04664d4 aeb6bcfe274b70a14fb067a5e5578264db0fa9b51af5e0ba159158f329e06e77
mirror-advance k mirror 8|7|-|mtc: mirror-advance: k: Absent
mirror-advance signer k 8|7|-|mtc: mirror-advance: k: Absent
mirror-cosign k k.x 0 4|7|-|mtc: mirror-cosign: k: Absent
mirror-advance mirror signer 8|2|-|mtc: mirror-advance: mirror: BadRecord 0
mirror-cosign signer j 0 4|2|-|mtc: mirror-cosign: j: BadRecord 0
mirror-cosign signer w 0 4|2|-|mtc: mirror-cosign: w: BadRecord 0
mirror-init other_log 32473.9|0|ef0f2b2052a1b2d7|
mirror-take other_log eight|0|480c3bf1052c9f88|
mirror-advance signer other_log 8|4|-|mtc: mirror-advance: WrongLog
mirror-cosign signer other_log 0 4|4|-|mtc: mirror-cosign: WrongLog
mirror-init three 32473.1|0|d91bbe62cba87844|
mirror-take three y|0|21a38796fb19737d|
mirror-advance I three 3|4|-|mtc: mirror-advance: NotNewer 3
mirror-cosign I three 0 2|0|cbd97c2b64038ebe|
mirror-cosign w three 0 2|0|a62d42706511acd8|
mirror-advance signer three 3|4|-|mtc: mirror-advance: NotMine 4e3bbb1f7b478dcfe71fb631631519a3bca12c9aefca1612bfce4c13a86264d4 3bdbece5ca68d0025b68df77c829651c499113e8559c50f6c7bdcb91e04664d4
mirror-init many 32473.1|0|d91bbe62cba87844|
mirror-take many zeros|0|5d9fdb0fa978b5a9|
mirror-take many zeros|0|0ecfd601100357b7|
mirror-tile many|0|259c13c4aad003e3|
mirror-tile many|4|-|mtc: mirror-tile: NothingNew
mirror-take many zeros|0|f73ecc6084aa7a8e|
mirror-take many zeros|4|-|mtc: mirror-take: NothingNew
mirror-entries many 257|0|82823076344d2111|
mirror-tile many|0|957fac4f72d5a429|
init-cosigner later 32473.3 32473.1 5 4 secret_of_two|0|edc69ec3a87a70e1|
mirror-advance later many 300|0|a1157dc971e22b3c|
mirror-advance later many 65536|0|c57877fb7b03c466|
mirror-cosign later many 256 512|0|c0ee723c169ab6b3|
drill 7|0|bdada2c469064269|
drill 7|0|bdada2c469064269|
drill|1|-|mtc: drill: WrongCount 0 1
drill 7 7|1|-|mtc: drill: WrongCount 2 1
drill 07|1|-|mtc: drill: BadNumber 1
drill 9223372036854775808|1|-|mtc: drill: BadNumber 1
drill -7|1|-|mtc: drill: BadWord 1
TABLE
found=$(cat j w m o I mirror signer three many many.tiles later | sha256sum | cut -d' ' -f1)
if [ "$found" != f5fd5a734ae61cf6c55e06ef46df8614c7806e22598becee7ad4b4eeb13c54dc ]; then
    echo "wrong: the journals: $found"
    wrong=1
fi
echo "$count commands of ${1-mtc} compared"
exit "$wrong"
