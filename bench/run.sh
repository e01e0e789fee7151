#!/usr/bin/env bash
# Makes cluster files and measures on them the ways to run a cluster (compare.py): `market run`, the ways of `measure`, and the
# plain programs of `bench/plain` and `bench/plain_threads`. It also counts what `market run` does. Further it measures
#
#   - `market ask` on many targets;
#   - `market check` on a trace and on one of 4,000,000 moves (make_trace.py), the latter beside `measure judge`;
#   - messages over one link by `measure link`;
#   - `market serve` on a stream of bids of 407 MB, beside the plain program of `bench/plain_serve`;
#   - `live relay` beside the plain program of `bench/plain_relay` (relay.py): on streams of bids, the time to its own bid, and its
#     memory;
#   - `market run` and `market free` beside ten busy loops for each processor (load.py), five times on each file.
#
# Without `rustc` the plain programs are left out, and without `gcc` the counts.
#
#     bench/run.sh [RUNS]
#
# Each figure is the least of RUNS runs, 7 if no number is given. The status is 1 if a run fails or hangs or a text
# differs, 2 if a goal is missed.
here="$(cd "$(dirname "$0")" && pwd)" || exit 1
cd "$here/.." || exit 1

# Whether a program is built, and no source file is newer.
is_current() {
    [ -x "$1" ] && [ -z "$(find crates.txt crates/*/src crates/*/specs crates/*/proofs bench/measure/src bench/measure/proofs \
        -newer "$1" -print -quit 2> /dev/null)" ]
}

# Proves and builds a program if it is not current.
build() {
    program="crates/$1/out/$1"
    is_current "$program" && return
    rm -f "$program"
    (cd "crates/$1" && rt run < stdin -- $(cat args) > "$folder/log" 2>&1)
    [ -x "$program" ] || { cat "$folder/log" >&2; return 1; }
}

# Builds a file with a compiler, and prints the file's path; if there is no such compiler, `-`.
build_with() {
    compiler="$1" target="$2"
    shift 2
    if ! command -v "$compiler" > /dev/null; then
        echo "there is no $compiler: what it builds is left out; install it to measure that too" >&2
        echo -
    elif "$compiler" "$@" -o "$target" >&2; then
        echo "$target"
    else
        return 1
    fi
}

# Whether a plain program prints the texts that were worked out by hand.
check_plain() {
    for due in checks/cases/run/*.stdout; do
        file="${due%.stdout}.json"
        [ -f "$file" ] || file="$(cat "${due%.stdout}.input")"
        "$1" < "$file" | cmp -s - "$due" || { echo "${1##*/} prints another text of $file" >&2; return 1; }
    done
}

# Whether the plain relay gives the answers of the model of a relay.
check_plain_relay() {
    python3 bench/check_relay.py "$plain_relay" > "$folder/log" || { tail "$folder/log" >&2; return 1; }
}

folder="$(mktemp -d)" || exit 1
trap 'rm -rf "$folder"' EXIT
python3 bench/make_files.py "$folder" || exit 1
python3 bench/make_trace.py "$folder" || exit 1
python3 bench/make_stream.py > "$folder/stream" || exit 1
python3 bench/make_relay_stream.py "$folder" || exit 1
build market && build live || exit 1
measure=bench/measure/out/measure
is_current "$measure" || python3 bench/measure.py "$measure" || exit 1
plain="$(build_with rustc "$folder/plain" -O --edition 2021 bench/plain/plain.rs)" || exit 1
[ "$plain" = - ] || check_plain "$plain" || exit 1
plain_threads="$(build_with rustc "$folder/plain_threads" -O --edition 2021 bench/plain_threads/plain_threads.rs)" || exit 1
[ "$plain_threads" = - ] || check_plain "$plain_threads" || exit 1
plain_serve="$(build_with rustc "$folder/plain_serve" -O --edition 2021 bench/plain_serve/plain_serve.rs)" || exit 1
plain_relay="$(build_with rustc "$folder/plain_relay" -O --edition 2021 bench/plain_relay/plain_relay.rs)" || exit 1
[ "$plain_relay" = - ] || check_plain_relay || exit 1
counter="$(build_with gcc "$folder/count.so" -O2 -shared -fPIC bench/count.c)" || exit 1
python3 bench/compare.py "${1:-7}" crates/market/out/market "$measure" "$plain" "$plain_threads" "$plain_serve" \
    "$counter" "$folder"
compared=$?
python3 bench/relay.py "${1:-7}" crates/live/out/live "$plain_relay" "$folder"
relayed=$?
[ "$plain" = - ] || python3 bench/load.py 5 5 crates/market/out/market "$plain" "$folder"
loaded=$?
case "$compared$relayed$loaded" in
    000) exit 0 ;;
    *[!02]*) exit 1 ;;
    *) exit 2 ;;
esac
