# Whether the prebuilt program may be run: the repository's gate proved it elsewhere, from exactly the sources of today.
#
# `market`, packaging, the Python package's tests and the checks source this file after script/program.sh. All here is about the
# program that `choose_program` names. Its stamp beside it is that of the proof, so it says of which sources, by which kit, with
# which linker and C library, and when the program was built. `checks/run prebuilt` holds both to what is built from the sources.
# shellcheck shell=bash disable=SC2154 # `folders` and `stamp` are of script/program.sh
: "${top:?}" "${program_name:?}"

# Sets `prebuilt` to the path of the prebuilt program, and `prebuilt_stamp` to that of its stamp.
choose_prebuilt() {
    prebuilt="$top/prebuilt/x86_64-linux/$program_name"
    prebuilt_stamp="$prebuilt.stamp"
}

# Sets `stamped` to what each word of the stamp FILE says. Its status is 1 if the stamp lacks the sum of the sources or of the program.
read_stamp() {
    local word rest
    declare -gA stamped=()
    while read -r word rest; do
        stamped["${word%:}"]="$rest"
    done <"$1"
    [ -n "${stamped[sources]-}" ] && [ -n "${stamped[program]-}" ]
} 2>/dev/null

# Prints the state of the sources, of the prebuilt program and of its stamp, as `sources_state` does. While one of them is so young
# that an edit could leave its time of change as it is, each state is another. The caller has just listed the folders.
prebuilt_state() (
    set -o pipefail
    cd "$top/crates" || exit 1
    local now recent
    now="${EPOCHREALTIME/[.,]/}"
    recent="$((now - 50000))"
    find -L ../crates.txt "$prebuilt" "$prebuilt_stamp" "${folders[@]}" ! -type d -printf '%p %i %s %C@\n' \
        -newerct "@${recent:0:-6}.${recent: -6}" -printf "$now\n" 2>/dev/null | sha256sum
)

# Whether the prebuilt program and the sources are those of its stamp. If not, `misfit` is `sources` or `bytes`. What was found is
# kept beside the crate with the state, so that the next look reads no content.
has_its_sums() {
    local state kept="" seen="$top/crates/$program_name/out/prebuilt"
    list_folders
    state="$(prebuilt_state)" && { read -r kept <"$seen"; } 2>/dev/null
    [ -z "$state" ] || [ "$kept" != "$state" ] || return 0
    misfit=sources
    sources_now="${sources_now:-$(folders_sum)}"
    [ "$sources_now" = "${stamped[sources]}" ] || return 1
    misfit=bytes
    [ "$(sha256sum <"$prebuilt" | cut -d ' ' -f 1)" = "${stamped[program]}" ] || return 1
    { mkdir -p "${seen%/*}" && printf '%s\n' "$state" >"$seen.$$" && mv -f "$seen.$$" "$seen"; } 2>/dev/null ||
        rm -f "$seen.$$" 2>/dev/null || :
}

# Whether this system runs the prebuilt program. If not, `misfit` is `system` or `libc`, and `found` says what is here.
is_of_this_system() {
    local -a least here
    misfit=system
    found="$(uname -sm 2>/dev/null)"
    [ "$found" = "Linux x86_64" ] || return 1
    [ -n "${stamped[libc]-}" ] || return 0
    misfit=libc
    found="$(getconf GNU_LIBC_VERSION 2>/dev/null)" || found=""
    IFS=. read -ra least <<<"${stamped[libc]}"
    IFS=. read -ra here <<<"${found#glibc }"
    [[ "${found#glibc }" =~ ^[0-9]+[.][0-9]+ ]] || return 1
    [ "$((here[0] * 1000 + here[1]))" -ge "$((least[0] * 1000 + least[1]))" ]
}

# Whether the prebuilt program may be run in place of one that was proved here. If not, `misfit` is `program` if there is none, or
# why it may not.
fits_prebuilt() {
    choose_prebuilt
    misfit=program
    [ -f "$prebuilt" ] && [ -x "$prebuilt" ] && read_stamp "$prebuilt_stamp" || return 1
    has_its_sums && is_of_this_system || return 1
    misfit=""
}

# Says why the prebuilt program of today's sources is not run, if there is one. `say` is of words.sh.
tell_misfit() {
    case "$misfit" in
        system) say "the prebuilt program $program_name is for x86-64 Linux, and this is ${found:-another system}" ;;
        libc) say "the prebuilt program $program_name needs glibc ${stamped[libc]} or newer, and here is ${found:-none}" ;;
        bytes) say "the prebuilt program $program_name is not the one of its stamp: git checkout prebuilt brings that back" ;;
    esac
}

# Sets `program` to the prebuilt program if no program was proved here and it fits. Its status is 1 if there is neither. `proved_at`
# is then `here`, `elsewhere` or `nowhere`, and `proof_stamp` is the stamp of what was chosen.
# shellcheck disable=SC2034 # those who source this file read `proof_stamp`
find_proved() {
    proved_at=here
    proof_stamp="$stamp"
    is_current && return
    proved_at=elsewhere
    if fits_prebuilt; then
        program="$prebuilt"
        proof_stamp="$prebuilt_stamp"
        return
    fi
    proved_at=nowhere
    return 1
}

# Prints where, when and with which kit the program that `find_proved` found was proved.
tell_proof() {
    read_stamp "$proof_stamp"
    case "$proved_at" in
        here) echo "proved here on ${stamped[date]-} with ${stamped[kit]%% *}" ;;
        elsewhere) echo "proved by the gate elsewhere on ${stamped[date]-} with ${stamped[kit]%% *}" ;;
    esac
}

# Prints the stamp of the program that `find_proved` found, without its state on this machine, and where it was proved.
stamp_to_hand_on() {
    sed '/^state:/d' "$proof_stamp"
    case "$proved_at" in
        here) echo "proved: where it was installed from" ;;
        elsewhere) echo "proved: by the gate elsewhere, and prebuilt" ;;
    esac
}

# Puts the program that was proved here into prebuilt/, with its stamp. The caller has looked whether it is current.
put_prebuilt() {
    choose_prebuilt
    mkdir -p "${prebuilt%/*}" && cp "$program" "$prebuilt.new" && chmod 755 "$prebuilt.new" && mv -f "$prebuilt.new" "$prebuilt" &&
        sed '/^state:/d' "$stamp" >"$prebuilt_stamp.new" && mv -f "$prebuilt_stamp.new" "$prebuilt_stamp"
}
