#!/usr/bin/env bash
# Installs what packaging/files.txt lists, or removes what an earlier install made. `make` says where to, by the environment.
#   bash packaging/install.sh install|uninstall
# An install writes a list of what it made, and an uninstall goes by that list: so it also removes what another version
# installed. The list has a line for each file, and for each folder that was not there before.
# shellcheck disable=SC2154 # make gives the places
set -euo pipefail
cd "$(dirname "$0")/.."
# What script/program.sh goes by.
top="$PWD"
places=(bindir libexecdir datadir mandir docdir unitdir bashcompletiondir zshcompletiondir fishcompletiondir)

say() {
    echo "make: $*" >&2
}

# Places stand in scripts, units and pages as they are, so they are kept to letters that mean nothing there.
require_places() {
    local place
    for place in "${places[@]}"; do
        if ! [[ "${!place-}" =~ ^/[A-Za-z0-9_./+,~-]*$ ]]; then
            say "$place is '${!place-}': give a whole path of letters, digits and _ . / + , ~ -"
            exit 1
        fi
    done
}

# Only programs that were proved from today's sources are installed: here, or by the gate elsewhere and prebuilt. Their stamps say
# which. Sets `programs` and `stamps` to the files of each.
require_proved() {
    local name
    # shellcheck source=script/program.sh
    . script/program.sh
    # shellcheck source=script/prebuilt.sh
    . script/prebuilt.sh
    declare -gA programs=() stamps=()
    for name in market live; do
        choose_program "$name"
        if ! find_proved; then
            tell_misfit
            say "there is no proved program $name of these sources: run \`make prove\` first"
            exit 1
        fi
        programs[$name]="$program"
        stamps[$name]="$work/$name.stamp"
        stamp_to_hand_on >"${stamps[$name]}"
    done
}

# Writes TEXT with each place @..@ filled in.
filled() {
    local text="$1" name
    for name in "${places[@]}" version commit; do
        text="${text//@"$name"@/"${!name}"}"
    done
    printf '%s\n' "$text"
}

# Makes the folder PATH of the target with those above it, and lists each that was not there.
make_folder() {
    [ -n "$1" ] && ! [ -d "$DESTDIR$1" ] || return 0
    make_folder "${1%/*}"
    mkdir -m 755 "$DESTDIR$1"
    echo "folder $1" >>"$made"
}

# Installs one file: HOW MODE SOURCE PLACE.
install_file() {
    local how="$1" mode="$2" source="$3" place="$4" text
    make_folder "${place%/*}"
    case "$how" in
        copy) text="$source" ;;
        program) text="${programs[$source]}" ;;
        stamp) text="${stamps[$source]}" ;;
        fill)
            text="$work/text"
            filled "$(cat "$source")" >"$text"
            ;;
        page)
            text="$work/text"
            awk -f packaging/page.awk "$source" >"$text"
            ;;
        *)
            say "packaging/files.txt has '$how' as a way to install: write copy, fill, page, program or stamp"
            exit 1
            ;;
    esac
    echo "file $place" >>"$made"
    install -m "$mode" "$text" "$DESTDIR$place"
}

# Installs all lines of the list.
install_files() {
    local how mode source place file
    while read -r how mode source place; do
        case "$how" in '' | '#'*) continue ;; esac
        place="$(filled "$place")"
        for file in $source; do
            case "$place" in
                */) install_file "$how" "$mode" "$file" "$place${file##*/}" ;;
                *) install_file "$how" "$mode" "$file" "$place" ;;
            esac
        done
    done <packaging/files.txt
}

# Removes what the list of an earlier install has, from its end on. A folder that has other files stays.
remove_files() {
    [ -f "$DESTDIR$list" ] || return 0
    local what path
    tac "$DESTDIR$list" >"$work/remove"
    while read -r what path; do
        case "$what" in
            file) rm -f "$DESTDIR$path" ;;
            folder) rmdir "$DESTDIR$path" 2>/dev/null || true ;;
        esac
    done <"$work/remove"
}

# Leaves the list of what was made, also if an install ended half-way.
finish() {
    if [ -s "$made" ] && [ -d "$DESTDIR${list%/*}" ]; then
        install -m 644 "$made" "$DESTDIR$list"
    fi
    rm -rf "$work"
}

require_places
list="$datadir/market/installed"
work="$(mktemp -d)"
made="$work/made"
trap finish EXIT
case "${1-}" in
    install)
        require_proved
        version="$(cat VERSION)"
        commit="$(bash packaging/commit.sh)"
        export version commit
        remove_files
        [ -z "$DESTDIR" ] || mkdir -p "$DESTDIR"
        # The list goes first: its folders and itself are removed last.
        make_folder "${list%/*}"
        echo "file $list" >>"$made"
        install_files
        ;;
    uninstall)
        if ! [ -f "$DESTDIR$list" ]; then
            say "nothing is installed there: $DESTDIR$list is missing; give the PREFIX and the DESTDIR of the install"
            exit 1
        fi
        remove_files
        ;;
    *)
        say "packaging/install.sh takes one argument: install or uninstall"
        exit 2
        ;;
esac
