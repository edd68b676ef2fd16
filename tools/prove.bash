# shellcheck shell=bash
# For scripts that source it: prove FOLDER WORDS.. runs `rt WORDS..` in a crate's folder, on the standard input that it is given, and says on
# standard error how far it is: a line for each crate that rt proves, and all that rt printed of one that is not. To standard output goes what
# the program writes that `rt run` runs, and nothing else; the status is rt's. A script that is stopped meanwhile stops the provers with it.

# What rt prints of a crate ends with its verdict. Behind `rt: running` it is what the program itself writes on standard error.
tell() {
    local line crate='' held='' runs=''
    while IFS= read -r line; do
        case $line in
        "crate "*": modules "*) crate=${line#crate } crate=${crate%%:*} held+=$line$'\n' ;;
        "logic=proved "*) held='' && echo "  $crate proved" ;;
        "rt: running "*) held='' runs=1 ;;
        *) held+=$line$'\n' ;;
        esac
    done
    [[ -n $runs ]] || printf '%s' "$held"
}

# The provers have a process group of their own, since rt starts them where Ctrl-C does not reach them.
prove() { # FOLDER WORDS..
    local provers status=0
    exec 8<&0
    set -m
    (
        set +m -o pipefail
        cd "$1" && shift || exit
        # rt's lines are on standard error where it runs a program, and else on standard output
        case $1 in
        run) { rt "$@" 2>&1 >&7 | tell >&2; } 7>&1 <&8 8<&- ;;
        *) rt "$@" 2>&1 <&8 8<&- | tell >&2 ;;
        esac
    ) &
    provers=$!
    set +m
    exec 8<&-
    # shellcheck disable=SC2064
    trap "stopped $provers 129" HUP
    # shellcheck disable=SC2064
    trap "stopped $provers 130" INT
    # shellcheck disable=SC2064
    trap "stopped $provers 143" TERM
    wait "$provers" || status=$?
    trap - HUP INT TERM
    return "$status"
}

stopped() { # GROUP STATUS
    trap '' HUP INT TERM
    kill -TERM -- "-$1" 2>/dev/null
    wait "$1" 2>/dev/null
    echo "stopped" >&2
    exit "$2"
}
