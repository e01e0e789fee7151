# Which crates a program stands on, and whether the built program is what was proved from the sources of today.
#
# `market`, `.ci/run` and the checks source this file. They set `top`, the absolute path of the repository, before.
# There are two programs, `market` and `live`. All here is about the one that `choose_program` names, `market` at first.
# The stamp beside the program says from which sources it was proved. `write_stamp` writes it and `is_current` reads it.
# shellcheck shell=bash
: "${top:?}"

# Sets `program_name` to the name of a program, `program` to its path, and `stamp` to that of its stamp. `sources_now` is the sum
# of its sources once it was made.
choose_program() {
    program_name="$1"
    program="$top/crates/$1/out/$1"
    stamp="$top/crates/$1/out/proved"
    sources_now=""
}
choose_program market

# Sets `crates` to the crates that the program stands on, itself first, and `rows` to the line of crates.txt of each.
list_crates() {
    local line name place
    local -a lines
    local -A row=() taken=(["$program_name"]=yes)
    mapfile -t lines <"$top/crates.txt"
    for line in "${lines[@]}"; do
        line="${line%%#*}"
        name="${line%%[: ]*}"
        [ -z "$name" ] || row[$name]="$line"
    done
    crates=("$program_name")
    rows=()
    for ((place = 0; place < ${#crates[@]}; place++)); do
        line="${row[${crates[place]}]-}"
        rows+=("$line")
        line="${line#*:}"
        for name in ${line//,/ }; do
            # What crates.txt does not list is the kit's.
            if [[ -z "${taken[$name]-}" && -n "${row[$name]-}" ]]; then
                taken[$name]=yes
                crates+=("$name")
            fi
        done
    done
}

# Sets `folders` to those with the sources of these crates, below crates/. The sums below are over these.
list_folders() {
    local crate part
    list_crates
    folders=()
    for crate in "${crates[@]}"; do
        for part in src specs proofs; do
            [[ ! -d "$top/crates/$crate/$part" ]] || folders+=("$crate/$part")
        done
    done
}

# Prints a sum of the names and contents of the sources: the files of these folders, and the crates' lines of crates.txt.
# Its status is not 0 if one of them cannot be read.
sources_sum() {
    list_folders
    folders_sum
}

# Prints the same of the folders that were listed last. Four processes read the files; each writes whole lines, which are then sorted.
folders_sum() (
    set -o pipefail
    cd "$top/crates" || exit 1
    {
        printf '%s\n' "${rows[@]}" | LC_ALL=C sort &&
            find -L "${folders[@]}" ! -type d -print0 | xargs -0 -P 4 -n 300 sha256sum -- | LC_ALL=C sort -k 2
    } 2>/dev/null | sha256sum | cut -d ' ' -f 1
)

# Prints a sum of the paths, numbers, sizes and times of change of the sources, and of these further files below crates/.
# Nobody can set the time of change (ctime), so that an edit, a move and a copy all show, whatever date the file has.
sources_state() (
    set -o pipefail
    list_folders && cd "$top/crates" || exit 1
    find -L ../crates.txt "$@" "${folders[@]}" ! -type d -printf '%p %i %s %C@\n' 2>/dev/null | sha256sum
)

# Prints the same of the sources and the program. The stamp keeps it.
whole_state() {
    sources_state "$program_name/out/$program_name"
}

# Prints the sum of the built program.
program_sum() {
    sha256sum <"$program" | cut -d ' ' -f 1
}

# Whether the built program was proved from exactly the sources of today. If nothing has changed since the last look it reads
# no content. Otherwise it compares the sums of the contents, so that a copy with the same contents is current too. If it is
# not, `lacking` says what is: the `program` at all, or the same `sources` or the same `build` as then.
# shellcheck disable=SC2034 # `market` reads `lacking`.
is_current() {
    local word rest sources="" built="" state="" now
    lacking=program
    [ -x "$program" ] && [ -f "$program" ] && [ -f "$stamp" ] || return 1
    while read -r word rest; do
        case "$word" in
            sources:) sources="$rest" ;;
            program:) built="$rest" ;;
            state:) state="$rest" ;;
        esac
    done <"$stamp"
    [ -n "$sources" ] && [ -n "$built" ] || return 1
    now="$(whole_state)" && [ "$now" = "$state" ] && return 0
    now="$(whole_state)"
    wait_a_tick
    lacking=sources
    sources_now="$(sources_sum)"
    [ "$sources_now" = "$sources" ] || return 1
    lacking=build
    [ "$(program_sum)" = "$built" ] || return 1
    # The stamp keeps this state only if nothing changed under way. Otherwise the next look compares the contents again.
    [ "$(whole_state)" != "$now" ] ||
        replace_stamp "$(sed "s/^state:.*/state: $now/" "$stamp")" || :
}

# Waits between a state and a sum until the clock of the file system has moved on. An edit that the sum misses then has
# another time of change than the state tells.
wait_a_tick() {
    sleep 0.02
}

# Sets `state` and `sum` to those of the sources, for `write_stamp` after the proof. Its status is 1 if one cannot be read.
look_at_sources() {
    state="$(sources_state)" && wait_a_tick && sum="$(sources_sum)"
}

# Puts a text into the stamp, whole or not at all.
replace_stamp() {
    { printf '%s\n' "$1" >"$stamp.$$" && mv -f "$stamp.$$" "$stamp"; } 2>/dev/null ||
        { rm -f "$stamp.$$" 2>/dev/null; return 1; }
}

# Writes the stamp: the program was proved from the sources with this sum. STATE, if given, is their state
# before the proof. If the sources have another sum by now, or changed at all since STATE, it writes none, with status 1.
write_stamp() {
    local sum="$1" state="${2-}" now built
    now="$(whole_state)" && wait_a_tick && built="$(program_sum)" && [ "$(sources_sum)" = "$sum" ] || return 1
    [ -x "$program" ] && [ "$(whole_state)" = "$now" ] || return 1
    [ -z "$state" ] || [ "$(sources_state)" = "$state" ] || return 1
    replace_stamp "sources: $sum
program: $built
kit: $(rt version 2>/dev/null)
linker: $(linker_version)
libc: $(libc_needed "$program")
date: $(date +%Y-%m-%d)
state: $now"
}

# Prints the linker of the kit at hand, by its own words.
linker_version() {
    local rt
    rt="$(command -v rt)" && rt="$(readlink -f -- "$rt")" && "${rt%/*}/../toolchain/bin/ld.lld" --version 2>/dev/null || echo unknown
}

# Prints the least version of the C library, glibc, that this program takes. It prints nothing if the program names none.
libc_needed() {
    LC_ALL=C grep -aoE 'GLIBC_[0-9]+[.][0-9]+' "$1" | sed 's/^GLIBC_//' | sort -V | tail -n 1
}

# Prints from how many to how many minutes the proof of all crates of `market` takes, by the number of processors here. It took
# 42 processor minutes on the fastest machine that was measured, and 89 on the slowest (docs/measured/PROVE.md).
minutes_to_prove() {
    local processors
    processors="$(nproc 2>/dev/null)" || processors=1
    case "$processors" in
        1) echo "45 to 90" ;;
        2) echo "24 to 50" ;;
        3) echo "17 to 35" ;;
        *) echo "13 to 25" ;;
    esac
}

# Says so if the kit at hand is another than the one that kit.txt names. `say` is of words.sh.
tell_kit() {
    local word rest named="" here
    [ ! -f "$top/kit.txt" ] || while read -r word rest; do
        [ "$word" != kit: ] || named="$rest"
    done <"$top/kit.txt"
    here="$(rt version 2>/dev/null)" || here="unknown"
    [ -z "$named" ] || [ "${here%% *}" = "$named" ] ||
        say "the kit at hand is ${here%% *}, and kit.txt names $named: what follows holds by the kit at hand"
}
