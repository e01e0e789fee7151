#!/usr/bin/env bash
# Holds the prebuilt programs to those that were proved and built here: each stamp is of the sources of today, and of its program,
# and each program has the bytes of the built one. By another kit than kit.txt names other bytes are due, so the programs are then
# held to what they should write. The last line is 'N passed, M failed'; the status is 1 if any failed.
cd "$(dirname "$0")/../.." || exit 1
top="$PWD"
# shellcheck source=script/program.sh
. script/program.sh
# shellcheck source=script/prebuilt.sh
. script/prebuilt.sh
passed=0
failed=0
remedy="\`make prebuilt\` puts the program there that was proved here"

# Counts a trial that failed, and says why.
refuse() {
    failed=$((failed + 1))
    echo "$*: $remedy"
}

# Holds the prebuilt program to what it should write, since another kit built the one at hand.
hold_to_texts() {
    local module=cases text
    [ "$program_name" = market ] || module=nodes
    echo "the kit at hand is $built_kit, and built other bytes than $named_kit would: what the prebuilt $program_name writes is compared"
    text="$(python3 -m "checks.drive.$module" "$prebuilt")"
    if [[ "${text##*$'\n'}" =~ ^[0-9]+\ passed,\ 0\ failed$ ]]; then
        passed=$((passed + 1))
    else
        printf '%s\n' "$text"
        refuse "the prebuilt $program_name does not write what it should"
    fi
}

# Compares the prebuilt program with the one that was proved here, which is current.
compare() {
    local sources built_kit built_linker named_kit stamped_kit
    choose_prebuilt
    read_stamp "$stamp"
    sources="${stamped[sources]}"
    built_kit="${stamped[kit]-}"
    built_linker="${stamped[linker]-}"
    named_kit="$(sed -n 's/^kit: //p' kit.txt)"
    if ! [ -f "$prebuilt" ] || ! [ -x "$prebuilt" ] || ! read_stamp "$prebuilt_stamp"; then
        refuse "there is no prebuilt $program_name with a stamp"
        return
    fi
    stamped_kit="${stamped[kit]-}"
    if [ "${stamped[sources]}" != "$sources" ]; then
        refuse "the prebuilt $program_name was proved from other sources, by its stamp"
    elif [ "${stamped[program]}" != "$(sha256sum <"$prebuilt" | cut -d ' ' -f 1)" ]; then
        refuse "the prebuilt $program_name is not the program of its stamp"
    elif [ "${stamped_kit%% *}" != "$named_kit" ]; then
        refuse "the prebuilt $program_name is by ${stamped_kit%% *}, and kit.txt names $named_kit"
    elif [ "${built_kit%% *}" != "$named_kit" ]; then
        hold_to_texts
    elif ! cmp -s "$prebuilt" "$program"; then
        refuse "the prebuilt $program_name has other bytes than the sources give"
    elif [ "$stamped_kit ${stamped[linker]-} ${stamped[libc]-}" != "$built_kit $built_linker $(libc_needed "$program")" ]; then
        refuse "the prebuilt $program_name has a stamp of another kit, linker or C library than built it"
    else
        passed=$((passed + 1))
    fi
}

for name in market live; do
    choose_program "$name"
    if is_current; then
        compare
    else
        failed=$((failed + 1))
        echo "no program $name is proved from the sources of today: \`make prove\` or the gate proves it first"
    fi
done
echo "$passed passed, $failed failed"
[ "$failed" = 0 ]
