#!/bin/bash
# Makes the man page docs/mtc.1, the completion for bash docs/mtc.bash and the text of `help`, crates/mtc_help/src/listing.rt,
# again from the tables of docs/COMMANDS.md (files and examples of the man page: docs/OPERATIONS.md, docs/EACH_DAY.md), and
# compares them with those that stand there. Then tests that the program knows each command of the table with that number of
# arguments, and no other command that the sources name.
# Usage: tests/manual.sh [--write]
# shellcheck disable=SC2016,SC2086
set -u
cd "$(dirname "$0")/.." || exit 2
page=docs/COMMANDS.md
folder=$(mktemp -d)
trap 'rm -rf "$folder"' EXIT
wrong=0

complain() {
    echo "wrong: $1"
    wrong=1
}

# The rows of the table with such a head, as lines NAME ARGUMENTS|TEXT|TEXT. It may stand on another page.
table() {
    awk -v head="| $1 | $2 |" '
        index($0, head) == 1 { is_in = 1; next }
        !/^\|/ { is_in = 0 }
        is_in && !/^\|---/ { sub(/^\| /, ""); sub(/ \|$/, ""); gsub(/ \| /, "|"); print }' "${3-$page}"
}

# Marks of Markdown as those of man pages.
as_roff() {
    sed -E 's/\\/\\e/g; s/\[([^]]*)\]\([^)]*\)/\1/g; s/`([^`]*)`/\\fB\1\\fR/g; s/-/\\-/g; s/^([.'"'"'])/\\\&\1/'
}

man_page() {
    printf '.\\" Made by tests/manual.sh from docs/COMMANDS.md.\n'
    printf '.TH MTC 1\n.SH NAME\nmtc \\- authority, cosigners, mirrors, relying parties, auditors and monitors for Merkle Tree Certificates\n'
    printf '.SH SYNOPSIS\n.B mtc\n.I COMMAND ARGUMENT\\fR..\n.SH DESCRIPTION\n'
    awk '/^All arguments are positional/' "$page" | as_roff
    printf '.SH COMMANDS\n'
    table Command 'It does' | tr -d '`' | while IFS='|' read -r words does prints; do
        name=${words%% *}
        printf '.TP\n\\fB%s\\fR' "${name//-/\\-}"
        words=${words#"$name"}
        [ -z "$words" ] || printf ' \\fI%s\\fR' $words
        printf '\n%s.\nPrints %s.\n' "$does" "$prints" | as_roff
    done
    printf '.SH EXIT STATUS\n'
    table Status Comes | while IFS='|' read -r status comes _; do
        printf '.TP\n.B %s\n' "$status"
        printf '%s.\n' "$comes" | as_roff
    done
    printf '.SH REFUSALS\nBy the name in the line on standard error, or after refused: the status, the commands, what it means, and what to do.\n'
    printf 'OPERATIONS is docs/OPERATIONS.md.\n'
    table Name Status | while IFS='|' read -r names status commands means advice; do
        printf '.TP\n'
        printf '%s (%s%s)\n%s\n%s\n' "$names" "$status" "${commands:+; $commands}" "$means" "$advice" | as_roff
    done
    printf '.SH FILES\n'
    table File 'Made by' docs/OPERATIONS.md | sed -E 's/ \(\[[^]]*\]\([^)]*\)\)//g' | while IFS='|' read -r file makers keepers lost; do
        printf '.TP\n'
        printf '%s\nMade by: %s. Kept by: %s. If it is lost: %s.\n' "$file" "$makers" "$keepers" "$lost" | as_roff
    done
    printf '.SH REQUIREMENTS\n'
    sed -n 's/^\*\*What it runs on\.\*\* //p' docs/OPERATIONS.md | as_roff
    printf '.SH EXAMPLES\nA day of each, in a clone with a built program; %s explains the steps.\n' docs/EACH_DAY.md
    examples
    printf '.SH SEE ALSO\nIn the repository and in a release: docs/TOUR.md, docs/COMMANDS.md (each command), docs/FORMATS.md (each file),\n'
    printf 'docs/OPERATIONS.md, docs/PROMISES.md.\n'
}

# The blocks of a page that a test runs, under its headings.
examples() {
    awk '/^## / { heading = ".SS " substr($0, 4) "\n" }
        /^```$/ && is_in { print ".fi"; is_in = 0 }
        is_in { gsub(/\\/, "\\e"); gsub(/-/, "\\-"); gsub(/\.\/mtc/, "mtc"); sub(/^[.'"'"']/, "\\\\\\&&"); print }
        /^```sh$/ { print heading ".PP\n.nf"; heading = ""; is_in = 1 }' docs/EACH_DAY.md
}

completion() {
    local names
    names=$(table Command 'It does' | tr -d '`' | sed 's/[ |].*//' | paste -sd' ')
    echo '# Completes the arguments of mtc in bash: source docs/mtc.bash. Made by tests/manual.sh from docs/COMMANDS.md.'
    echo '# shellcheck shell=bash'
    echo '_mtc() {'
    echo '    local word=${COMP_WORDS[COMP_CWORD]} kinds=()'
    echo '    if [ "$COMP_CWORD" -eq 1 ]; then'
    echo "        mapfile -t COMPREPLY < <(compgen -W '$names' -- \"\$word\")"
    echo '        return'
    echo '    fi'
    echo '    case ${COMP_WORDS[1]} in'
    table Command 'It does' | tr -d '`' | while IFS='|' read -r words _; do
        [[ "$words" != *" "* ]] || echo "        ${words%% *}) kinds=(${words#* }) ;;"
    done
    echo '    esac'
    echo '    case ${kinds[COMP_CWORD - 2]-} in'
    echo '        J | S | M | FILE | CERT | STORE | REQUEST | REQUESTS | SECRET | SIGNATURES | LIST | ENTRIES | EXPORT | STATE | WATCH) mapfile -t COMPREPLY < <(compgen -f -- "$word") ;;'
    echo "        HEIGHT | TOP | LOW) mapfile -t COMPREPLY < <(compgen -W '5 10' -- \"\$word\") ;;"
    echo "        WIDTH) mapfile -t COMPREPLY < <(compgen -W '1 2 4 8' -- \"\$word\") ;;"
    echo '        *) COMPREPLY=() ;;'
    echo '    esac'
    echo '}'
    echo 'complete -o filenames -F _mtc mtc'
}

# The text of `help`: of each command its arguments, and what it prints, without the pages that say more.
help_text() {
    table Command 'It does' | tr -d '`' | sed -E 's/ \(FORMATS\.md, [^)]*\)//g; s/\[([^]]*)\]\([^)]*\)/\1/g' | awk -F '|' '{ print $1 ": " $3 }'
}

# The same as Rattle's source, in lines of 100 columns.
listing() {
    printf '//! The text of `help`. Made by tests/manual.sh from docs/COMMANDS.md.\n\n'
    printf '/// A line for each command: its arguments, and what it prints.\npub(crate) const HELP: &str = "\\\n'
    help_text | sed 's/["\\]/\\&/g' | awk '{
        while (length($0) > 97) {
            for (cut = 99; substr($0, cut, 1) != " "; cut--) { }
            print substr($0, 1, cut) "\\"
            $0 = substr($0, cut + 1)
        }
        print $0 "\\n\\"
    }'
    echo '";'
}

# What the completion offers for some arguments, of which the last one isn't whole: one word a line.
offers() (
    # shellcheck source=/dev/null
    source docs/mtc.bash
    COMP_WORDS=(mtc "$@") COMP_CWORD=$#
    _mtc
    printf '%s\n' "${COMPREPLY[@]}"
)

man_page >"$folder/mtc.1"
completion >"$folder/mtc.bash"
listing >"$folder/listing.rt"
for file in docs/mtc.1 docs/mtc.bash crates/mtc_help/src/listing.rt; do
    if [ "${1-}" = --write ]; then
        cp "$folder/${file##*/}" "$file"
    fi
    diff -u --label "$file" --label "by $page" "$file" "$folder/${file##*/}" || complain "$file; tests/manual.sh --write mends it"
done
if command -v groff >"$folder/void"; then
    said=$(groff -man -ww -z docs/mtc.1 2>&1)
    [ -z "$said" ] || complain "docs/mtc.1: $said"
else
    echo "left out: manual: groff isn't here, so the form of the man page isn't tested"
fi
[ "$(offers ver)" = $'verify\nversion' ] || complain "the completion of ver"
[ "$(offers keygen 5 '')" = $'1\n2\n4\n8' ] || complain "the completion of a width"
[ "$(offers show docs/mtc.b)" = docs/mtc.bash ] || complain "the completion of a file"
touch "$folder/a b.cert" "$folder/a c.cert"
[ "$(offers show "$folder/a " | sort)" = "$folder/a b.cert"$'\n'"$folder/a c.cert" ] || complain "the completion of names with spaces"
[ -z "$(offers show "$folder/none")" ] || complain "the completion of a file that isn't there"
if command -v shellcheck >"$folder/void"; then
    shellcheck -S warning docs/mtc.bash || complain "docs/mtc.bash"
fi
# The list of refusals stands in the man page.
grep -q '^\.SH REFUSALS$' docs/mtc.1 && grep -q 'fBNotCovered' docs/mtc.1 || complain "the refusals in the man page"

# The program and the table. A program that can't be built is not asked again for each command.
./mtc member examples/first.member >/dev/null || exit 70
diff -u --label "by $page" --label 'mtc help' <(help_text) <(./mtc help) || complain "the text of help"
known=" "
count=0
while read -r name words; do
    set -- $words
    given=()
    [ $# -gt 0 ] || given=(x)
    said=$(./mtc "$name" "${given[@]}" 2>&1 </dev/null)
    status=$?
    [ "$status|$said" = "1|mtc: $name: WrongCount ${#given[@]} $#" ] || complain "$name, which $page gives $# words: $said"
    known+="$name "
    count=$((count + 1))
done < <(table Command 'It does' | tr -d '`' | sed 's/|.*//')
[ "$count" -gt 0 ] || complain "$page has no table of commands"

# Each word in quotes of the crate that reads the words, if the program knows it, stands in the table; and each of the table
# stands there.
found=0
while read -r word; do
    said=$(./mtc "$word" 2>&1 </dev/null)
    [ "$said" = "mtc: UnknownCommand" ] && continue
    found=$((found + 1))
    [[ "$known" == *" $word "* ]] || complain "the program knows $word, and $page does not"
done < <(grep -ohE '"[a-z][a-z0-9-]*"' crates/mtc_words/src/*.rt | tr -d '"' | sort -u)
[ "$found" -ge "$count" ] || complain "only $found of the $count commands are named in the sources of mtc_words"

[ "$wrong" -eq 0 ] && echo "$count commands: the man page, the completion and the program agree with $page"
exit "$wrong"
