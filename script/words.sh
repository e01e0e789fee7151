# What `market` says: its help, the refusals in words, and a line for each status that the program ends with in silence.
#
# The script of the repository and the installed command both source this file. They set before:
#   called     the command's name, as the user writes it: ./market, or market when installed
#   pages      where to read more: docs/CLUSTER_FILE.md, or `man market` when installed
#   example    a cluster file: examples/village.json, or its place when installed
#   installed  `yes` when installed: the lines on proving are then left out. If not, `tell_program` prints where the program is from
# Tables are made of script/refusals.toml and script/statuses.toml by `checks/run places write`.
# shellcheck shell=bash
: "${called:=./market}" "${pages:=docs/CLUSTER_FILE.md}" "${example:=examples/village.json}" "${installed:=}"

# Writes one line for the user on standard error.
say() {
    printf 'market: %s\n' "$*" >&2
}

# Prints a line for each exit status.
# table help
help_statuses() {
    cat <<END_OF_TABLE
  0  the text was written
  1  of check: the trace is wrong$([ "$installed" = yes ] || echo "; else nothing ran, and a line says why")
  2  the arguments are no command
  3  standard input could not be read
  4  the input is too long
  5  the input is refused: help refusals says why
  6  standard output did not take the whole text (full disk, closed pipe)
  7  memory did not suffice
  8  the arguments are not UTF-8
END_OF_TABLE
}
# table end

# Prints the help.
help_text() {
    cat <<END_OF_HELP
market: an exact electronic market that balances a cluster of electric devices

usage: $called COMMAND < INPUT > OUTPUT

  run      reads a cluster file; writes the price of each phase, and the power
           of each device
  trace    reads a cluster file; writes the text of run, and each move
  bill     reads a cluster file; writes what each device pays
  free     reads a cluster file; writes the text of run, by threads without a
           lock
  check    reads a file's length, the file and a trace; writes whether the trace
           is one of this file
  ask      reads a file's length, the file and targets in watts; writes the
           price that answers each target
  serve    is the auctioneer alone: reads frames, writes answers as they come
  demo SIZE NUMBER
           reads nothing; runs a made cluster of SIZE devices, 1 to 200
  relay CHILD FLOOR CEILING [GIVER]
  auctioneer
  device CHILD
           is one node of a market across machines, by the program live: reads
           frames, writes frames

  help     prints this text; help refusals, CODE, status CODE: what each means
  version  prints the version, and where the programs come from
END_OF_HELP
    [ "$installed" = yes ] || cat <<END_OF_HELP
  prove [live] [--jobs N] [--anew]
           proves and builds the program market, or live, on N processors
  --proved COMMAND
           runs the command only if the program was proved on this machine
  --unproved COMMAND
           runs the command without a proof, to try changed sources
END_OF_HELP
    cat <<END_OF_HELP

Exit status:
$(help_statuses)

END_OF_HELP
    if [ "$installed" = yes ]; then
        echo "More: $pages"
    else
        echo "More: README.md, $pages, man packaging/help/market.1"
        tell_program
    fi
}

# Prints a line for each code of a refusal: the code, what it means and what to do, with bars between.
# table refusals
refusals() {
    cat <<'END_OF_TABLE'
1|the input is not UTF-8 or not JSON|fix the JSON, for instance where the file was cut
2|a value has the wrong type|write whole numbers without a point, names in quotes, lists in brackets
3|a member is missing|add it; an empty list will do for nodes, phases and events
4|a member is not known|take it out, or look for a slip in its name
5|the version is neither 1 nor 2|write 1, or 2 if there are limited nodes
6|min, max and steps of the basis do not fit|choose 2 to 1000 steps, min below max, and max - min divisible by steps - 1
7|a name has a wrong form|begin with a letter; use letters, digits, _ and -, at most 32
8|two nodes have the same name|give one of them another name
9|the parent is not known, is no concentrator, or comes later|name auctioneer or an earlier concentrator
10|more than 6 concentrators on a path|make the tree flatter
11|more than 256 nodes|split the cluster
12|the kind is not known|use a kind that the pages list; limited needs version 2
13|a parameter or the minutes of a tick are outside the limits|keep its limits, such as low below high
14|no device has the name|name a device; concentrators take no events
15|the device is joined already|take the second join out
16|the device is not joined|let it join first
17|the demands are too few or too many, rise, or are too large|give one for each step, none above the one before
18|the points are too many, out of order or outside the limits|give 1 to 64, sorted by price, with demands that never rise
19|the state does not fit the kind of device|keep its limits, such as a battery's capacity
20|too many phases, events or changes|split the script: 1,000 phases, 4,096 events in one, 20,000 changes
21|no refusal has this code|nothing
22|a limited node is below a limited one|take one of the two limits out
23|the input of check or ask does not begin with the file's length|write the length in bytes and a line feed before the file
24|a frame is bad; a Fault tells its offset|fix the stream from that byte on
25|ask: a line behind the file is no target|give whole numbers of watts, one a line, at most 100,000
END_OF_TABLE
}
# table end

# Sets `meaning` and `remedy` for the code of a refusal. Its status is 1 if there is no such code.
find_refusal() {
    local code
    while IFS='|' read -r code meaning remedy; do
        [ "$code" != "$1" ] || return 0
    done <<<"$(refusals)"
    return 1
}

# Prints each code of a refusal with what it means.
help_refusals() {
    local code meaning remedy
    printf 'A refused file gives one line: refused CODE PLACE. The codes:\n\n'
    while IFS='|' read -r code meaning remedy; do
        printf '%4s  %s\n' "$code" "$meaning"
    done <<<"$(refusals)"
    printf '\nWhat to do: %s help CODE\nMore: %s\n' "$called" "$pages"
}

# Prints what one code of a refusal means and what to do. Its status is 1 if there is no such code.
help_refusal() {
    local meaning remedy
    find_refusal "$1" || return 1
    printf 'refused %s: %s\nWhat to do: %s\nMore: %s\n' "$1" "$meaning" "$remedy" "$pages"
}

# Says what happened if the program ended with this status, for those with which it writes no line.
# table statuses
tell_status() {
    case "$1" in
        3) say "standard input could not be read: give it a file, as in $called run < $example" ;;
        6) say "standard output did not take the whole text: look whether the disk is full or the reader has gone" ;;
        7) say "memory did not suffice: raise its limit (ulimit -v), end other programs, or split the cluster" ;;
        8) say "the arguments are not text: write them in UTF-8" ;;
    esac
}
# table end

# Prints what to do about an exit status. Its status is 1 if there is no such status.
# table remedies
status_remedy() {
    case "$1" in
        0) echo "nothing; the text is whole" ;;
        1) echo "of check: ask who made the trace for that line; else do what the line on standard error says" ;;
        2) echo "$called help lists the commands and their arguments" ;;
        3) echo "give it a file, as in $called run < $example" ;;
        4) echo "split the cluster, the list of targets or the stream; $pages has the limits" ;;
        5) echo "$called help CODE, with the code that the line of the refusal names" ;;
        6) echo "look whether the disk is full or the reader has gone" ;;
        7) echo "raise its limit (ulimit -v), end other programs, or split the cluster" ;;
        8) echo "write them in UTF-8" ;;
        *) return 1 ;;
    esac
}
# table end

# Prints what an exit status means and what to do. Its status is 1 if there is no such status.
help_status() {
    local remedy
    remedy="$(status_remedy "$1")" || return 1
    printf 'status %s: %s\nWhat to do: %s\nMore: %s\n' "$1" "$(help_statuses | sed -n "s/^  $1  //p")" "$remedy" "$pages"
}

# Says what a refusal means, by its code; if the code is not known here, where to look it up.
tell_refusal() {
    local meaning remedy
    if [ -n "${1-}" ] && find_refusal "$1"; then
        say "refused: $meaning; $called help $1 and $pages say more"
    else
        say "the input is refused: $called help refusals says what the code means"
    fi
}
