# Installs the Debian packages that the checks of the gate take, if the gate runs as root on a Debian with a network.
#
# `.ci/run` sources this file after script/words.sh. It never fails the gate: a check whose package is missing is skipped or tries
# less, and says so. MARKET_PACKAGES=no leaves the system as it is.
# shellcheck shell=bash
: "${top:?}"

# Prints the packages that kit.txt names for the checks and this system lacks, a line each.
packages_lacking() {
    local word rest
    local -a named=()
    while read -r word rest; do
        [ "$word" != debian-checks: ] || read -ra named <<<"$rest"
    done <"$top/kit.txt"
    [ "${#named[@]}" = 0 ] ||
        comm -13 <(dpkg-query -W -f '${Package} ${db:Status-Status}\n' 2>/dev/null | sed -n 's/ installed$//p' | LC_ALL=C sort -u) \
            <(printf '%s\n' "${named[@]}" | LC_ALL=C sort -u)
}

# Installs what is lacking. What it says is one line, and only if it tried something.
install_packages() {
    local -a lacking
    [ "$EUID" = 0 ] && [ "${MARKET_PACKAGES-}" != no ] && [ -f "$top/kit.txt" ] || return 0
    command -v apt-get >/dev/null && command -v dpkg-query >/dev/null || return 0
    mapfile -t lacking < <(packages_lacking)
    [ "${#lacking[@]}" != 0 ] || return 0
    if {
        timeout 120 apt-get -qq -o Acquire::Retries=1 update &&
            timeout 300 env DEBIAN_FRONTEND=noninteractive apt-get -qq -y --no-install-recommends install "${lacking[@]}"
    } >/dev/null 2>&1 </dev/null; then
        say "installed for the checks: ${lacking[*]}"
    else
        say "not installed, so that checks skip some trials: ${lacking[*]}"
    fi
}
