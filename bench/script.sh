#!/usr/bin/env bash
# Measures what the script `market` costs over the program: 20 runs of each in turn, and the medians in milliseconds.
#
#     bench/script.sh [ARGUMENTS]
#
# The arguments are those of the program, `demo 1 1` if there are none. It needs the proved program (./market prove).
cd "$(dirname "$0")/.." || exit 1
top="$PWD"
. script/program.sh
[ $# -gt 0 ] || set -- demo 1 1

# Prints how many microseconds a command takes.
time_of() {
    local begun="${EPOCHREALTIME/[.,]/}"
    "$@" </dev/null >/dev/null 2>&1
    echo $((${EPOCHREALTIME/[.,]/} - begun))
}

# Prints the median of a list of numbers, one a line, in milliseconds.
median() {
    sort -n | awk '{ at[NR] = $1 } END { printf "%.1f\n", (at[int((NR + 1) / 2)] + at[int((NR + 2) / 2)]) / 2000 }'
}

is_current || { echo "no program is proved here: ./market prove makes it" >&2; exit 1; }
scripts=()
programs=()
for _ in {1..20}; do
    scripts+=("$(time_of ./market "$@")")
    programs+=("$(time_of "$program" "$@")")
done
script="$(printf '%s\n' "${scripts[@]}" | median)"
alone="$(printf '%s\n' "${programs[@]}" | median)"
awk -v s="$script" -v p="$alone" 'BEGIN { printf "script %s ms, program %s ms, over it %.1f ms\n", s, p, s - p }'
