#!/usr/bin/env bash
# market: runs the installed program with these arguments and this standard input; `market help` lists them. A node of a market
# across machines is run by the program `live` beside it.
#
# Standard output and the status are the program's own. What this command says goes to standard error, except the help and the
# version, which were asked for.
set -u
self="$0"
[ ! -L "$self" ] || self="$(readlink -f -- "$self")" || exit 1
[[ "$self" = /* ]] || self="$PWD/$self"
folder="${self%/*}"
# Below DESTDIR, or in a package that was only unpacked, all places are below another root.
root="${folder%"@bindir@"}"
[ "$root" != "$folder" ] || root=""
program="$root@libexecdir@/market/market"
# What words.sh goes by.
# shellcheck disable=SC2034
called=market pages="man market" example="@docdir@/examples/village.json" installed=yes
# shellcheck source=script/words.sh
. "$root@datadir@/market/words.sh" || exit 1
# shellcheck source=script/run.sh
. "$root@datadir@/market/run.sh" || exit 1

# Prints where, when and with which kit a program was proved, by its stamp.
tell_stamp() {
    local word rest kit="" day="" where=""
    while read -r word rest; do
        case "$word" in
            kit:) kit="${rest%% *}" ;;
            date:) day="$rest" ;;
            proved:) where="$rest" ;;
        esac
    done <"$root@datadir@/market/$1.stamp"
    echo "$1 was proved ${where%%,*} on $day with $kit"
} 2>/dev/null

case "${1-}" in
    "")
        help_text
        exit 2
        ;;
    help | --help | -h) print_help "${@:2}" ;;
    version | --version)
        echo "market @version@ (@commit@)"
        tell_stamp market
        tell_stamp live
        ;;
    *)
        if is_node "$@"; then
            program="${program%/*}/live"
            run_node "$@"
        else
            run_proved "$@"
        fi
        ;;
esac
