# How the proved program is run, and how help is given: by the script of the repository, and by the installed command.
#
# Both source script/words.sh and then this file. They set before:
#   program    the path of the proved program that is run: of `market`, or of `live` for a node
#   called     as for words.sh
# shellcheck shell=bash
: "${program:?}" "${called:?}"

# Whether these arguments are a node of a market across machines, which the program `live` serves.
is_node() {
    case "${1-}" in
        relay | auctioneer | device) ;;
        *) return 1 ;;
    esac
}

# Whether these arguments are a command that reads a whole input and then answers.
reads_input() {
    [ $# -eq 1 ] || return 1
    case "$1" in
        run | trace | bill | free | check | ask) ;;
        *) return 1 ;;
    esac
}

# Says that a command reads standard input, if a file was given as its argument.
tell_of_input() {
    local file
    [ $# -ge 2 ] && { reads_input "$1" || [[ "$1" = serve || "$1" = auctioneer ]]; } && [ -f "$2" ] && [ -r "$2" ] || return 1
    printf -v file %q "$2"
    say "$1 reads standard input: $called $1 < $file"
}

# Makes the folder `notes` for this run, which goes with the script. Its status is 1 if there is no room for it.
make_notes() {
    notes="$(mktemp -d 2>/dev/null)" || return 1
    trap 'rm -rf "$notes"' EXIT
}

# Prints the code of a refusal, if this text is the line of one.
code_in() {
    [[ "$1" =~ ^refused\ ([0-9]+)\ [a-z] ]] && printf %s "${BASH_REMATCH[1]}"
}

# Prints the last line that was written to standard output, which is a regular file.
last_written() {
    local key value end=0 start text
    while read -r key value; do
        [ "$key" != pos: ] || end="$value"
    done 2>/dev/null <"/proc/$$/fdinfo/1"
    start=$((end > 200 ? end - 200 : 0))
    { text="$(tail -c "+$((start + 1))" "/proc/$$/fd/1" | head -c $((end - start)))"; } 2>/dev/null
    printf %s "${text##*$'\n'}"
}

# Ends with the program's status. Says before what the status or the refusal means, if the line of the text does not.
# A refusal is explained on a terminal alone. TEXT is the line of it, if it is known.
end() {
    local status="$1" text="${2-}"
    tell_status "$status"
    if [ "$status" = 5 ] && [ -t 2 ]; then
        if [ -z "$text" ] && [ -f /dev/fd/1 ]; then
            text="$(last_written)"
        fi
        tell_refusal "$(code_in "$text")"
    fi
    exit "$status"
}

# Writes the text that the program wrote into the notes, and ends with the program's status.
show_text() {
    local text=""
    cat "$notes/text" 2>/dev/null || end 6
    [ "$1" != 5 ] || IFS= read -r text <"$notes/text" || :
    end "$1" "$text"
}

# Runs a node by the proved program `live`, which writes no line about how it ended.
run_node() {
    local status
    tell_of_input "$@" || :
    "$program" "$@"
    status=$?
    [ "$status" != 4 ] || say "the stream is too long: start the node again with its newest Resume"
    end "$status" "refused 24 frame"
}

# Runs the proved program `market`.
run_proved() {
    local status
    tell_of_input "$@" || :
    if [ "${1-}" = serve ]; then
        "$program" "$@"
        end "$?" "refused 24 frame"
    elif [ -t 1 ] && [ -t 2 ] && make_notes; then
        # A terminal cannot be read back.
        "$program" "$@" >"$notes/text"
        status=$?
        show_text "$status"
    else
        "$program" "$@"
        end "$?"
    fi
}

# Prints the help that was asked for.
print_help() {
    case "${1-}" in
        "" | run | trace | bill | free | check | ask | serve | demo | relay | auctioneer | device | help | version | prove)
            help_text
            ;;
        refusals) help_refusals ;;
        status)
            help_status "${2-}" && return
            say "there is no exit status ${2-}: $called help lists them"
            exit 2
            ;;
        *)
            help_refusal "$1" && return
            say "there is no help on $1: $called help lists the commands, $called help refusals the codes"
            exit 2
            ;;
    esac
}
