# Completes the arguments of mtc in bash: source docs/mtc.bash. Made by tests/manual.sh from docs/COMMANDS.md.
# shellcheck shell=bash
_mtc() {
    local word=${COMP_WORDS[COMP_CWORD]} kinds=()
    if [ "$COMP_CWORD" -eq 1 ]; then
        mapfile -t COMPREPLY < <(compgen -W 'member show verify init-log issue issue-list checkpoint entries entries-from consist subtree keygen init-cosigner init-cosigner2 advance child cosign export landmark landmarks light-cert light-certs switch tile tile-anew trust-landmarks cert certs mirror-init mirror-take mirror-tile mirror-entries mirror-advance mirror-cosign audit quarrel drill root held monitor-init monitor help version' -- "$word")
        return
    fi
    case ${COMP_WORDS[1]} in
        member) kinds=(FILE) ;;
        show) kinds=(CERT) ;;
        verify) kinds=(CERT STORE NOW) ;;
        init-log) kinds=(J LOGID MAXACTIVE LIMIT) ;;
        issue) kinds=(J REQUEST) ;;
        issue-list) kinds=(J REQUESTS) ;;
        checkpoint) kinds=(J) ;;
        entries) kinds=(J SIZE) ;;
        entries-from) kinds=(J FIRST SIZE) ;;
        consist) kinds=(J OLD NEW) ;;
        subtree) kinds=(J START END SIZE) ;;
        keygen) kinds=(HEIGHT WIDTH SECRET) ;;
        init-cosigner) kinds=(S ID LOGID HEIGHT WIDTH SECRET) ;;
        init-cosigner2) kinds=(S ID LOGID TOP LOW WIDTH SECRET) ;;
        advance) kinds=(S REQUEST) ;;
        child) kinds=(S) ;;
        cosign) kinds=(S REQUEST) ;;
        export) kinds=(S) ;;
        landmark) kinds=(J) ;;
        landmarks) kinds=(J) ;;
        light-cert) kinds=(J INDEX) ;;
        light-certs) kinds=(J FIRST LAST) ;;
        switch) kinds=(J) ;;
        tile) kinds=(J) ;;
        tile-anew) kinds=(J) ;;
        trust-landmarks) kinds=(LIST MAXACTIVE ENTRIES) ;;
        cert) kinds=(J INDEX START END SIGNATURES) ;;
        certs) kinds=(J FIRST LAST START END SIGNATURES) ;;
        mirror-init) kinds=(M LOGID) ;;
        mirror-take) kinds=(M ENTRIES) ;;
        mirror-tile) kinds=(M) ;;
        mirror-entries) kinds=(M SIZE) ;;
        mirror-advance) kinds=(S M SIZE) ;;
        mirror-cosign) kinds=(S M START END) ;;
        audit) kinds=(CERT STORE NOW ENTRIES EXPORT) ;;
        quarrel) kinds=(EXPORT) ;;
        drill) kinds=(NUMBER) ;;
        root) kinds=(ENTRIES) ;;
        held) kinds=(EXPORT) ;;
        monitor-init) kinds=(LOGID) ;;
        monitor) kinds=(STATE WATCH REQUEST ENTRIES) ;;
    esac
    case ${kinds[COMP_CWORD - 2]-} in
        J | S | M | FILE | CERT | STORE | REQUEST | REQUESTS | SECRET | SIGNATURES | LIST | ENTRIES | EXPORT | STATE | WATCH) mapfile -t COMPREPLY < <(compgen -f -- "$word") ;;
        HEIGHT | TOP | LOW) mapfile -t COMPREPLY < <(compgen -W '5 10' -- "$word") ;;
        WIDTH) mapfile -t COMPREPLY < <(compgen -W '1 2 4 8' -- "$word") ;;
        *) COMPREPLY=() ;;
    esac
}
complete -o filenames -F _mtc mtc
