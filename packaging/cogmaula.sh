#!/usr/bin/env bash
# cogmaula: runs the command line of the Python package that is installed with market; `cogmaula --help` lists its commands.
#
# It runs the market and the live that are installed with it, unless the environment names others.
set -u
self="$0"
[ ! -L "$self" ] || self="$(readlink -f -- "$self")" || exit 1
[[ "$self" = /* ]] || self="$PWD/$self"
folder="${self%/*}"
# Below DESTDIR, or in a package that was only unpacked, all places are below another root.
root="${folder%"@bindir@"}"
[ "$root" != "$folder" ] || root=""
if ! command -v python3 >/dev/null; then
    echo "cogmaula: there is no python3, which it needs: install Python 3.11" >&2
    exit 1
fi
export PYTHONPATH="$root@datadir@/market/python${PYTHONPATH:+:$PYTHONPATH}" COGMAULA_MARKET="${COGMAULA_MARKET:-$folder/market}"
export COGMAULA_COMMIT="@commit@"
export COGMAULA_LIVE="${COGMAULA_LIVE:-$root@libexecdir@/market/live}"
# Nothing is written beside what is installed.
exec python3 -B -m cogmaula "$@"
