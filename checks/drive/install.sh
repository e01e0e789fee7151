#!/usr/bin/env bash
# Installs the proved programs into folders of its own, and looks whether what is there works without the sources, names nothing of
# them, and is wholly removed; then the same of a release and of the Debian package. A trial whose tool is missing is skipped, and
# the check says so. The last line is 'N passed, M failed'; the status is 1 if any failed.
# shellcheck disable=SC2317 # `passes` calls the functions
cd "$(dirname "$0")/../.." || exit 1
top="$PWD"
passed=0
failed=0
version="$(cat VERSION)"

# passes NAME COMMAND..: whether the command ends with status 0. What it says is shown if it does not.
passes() {
    local name="$1"
    shift
    if "$@" >"$work/said" 2>&1; then
        passed=$((passed + 1))
    else
        failed=$((failed + 1))
        printf '%s: %s\n' "$name" "$(head -n 8 "$work/said")"
    fi
}

# fails NAME TEXT COMMAND..: whether the command ends with another status than 0 and says the text.
fails() {
    local name="$1" text="$2"
    shift 2
    passes "$name" says_and_fails "$text" "$@"
}

says_and_fails() {
    local text="$1" told
    shift
    if told="$("$@" 2>&1)"; then
        echo "status 0, said: $told"
        return 1
    fi
    case "$told" in *"$text"*) ;; *) echo "said: $told"; return 1 ;; esac
}

# is NAME STATUS TEXT TOLD ARGUMENTS..: whether the installed market ends with the status, writes the text to standard output and
# tells the rest on standard error. Text and what is told are patterns.
is() {
    local name="$1" status="$2" text="$3" told="$4" ended wrote said
    shift 4
    wrote="$("$market" "$@" 2>"$work/told")"
    ended=$?
    said="$(cat "$work/told")"
    # shellcheck disable=SC2053 # the right sides are patterns
    if [ "$ended" = "$status" ] && [[ "$wrote" == $text ]] && [[ "$said" == $told ]]; then
        passed=$((passed + 1))
    else
        failed=$((failed + 1))
        printf '%s: status %s, wrote: %s, told: %s\n' "$name" "$ended" "$(head -n 4 <<<"$wrote")" "$said"
    fi
}

skipped() {
    echo "skipped: $*"
}

has() {
    command -v "$1" >/dev/null
}

end() {
    echo "$passed passed, $failed failed"
    [ "$failed" = 0 ]
    exit
}

# Runs a target of the Makefile with nothing of a make around this check.
make_it() {
    env -u MAKEFLAGS -u MAKELEVEL -u DESTDIR -u PREFIX make --no-print-directory "$@"
}

# The files that an install has to make below its PREFIX.
files_due() {
    local file
    cat <<'FILES'
bin/cogmaula
bin/market
libexec/market/bridge.py
libexec/market/client.py
libexec/market/live
libexec/market/market
share/bash-completion/completions/market
share/doc/market/CHANGELOG.md
share/doc/market/CLUSTER_FILE.md
share/doc/market/COMMANDS.md
share/doc/market/COOKBOOK.md
share/doc/market/DEVICES.md
share/doc/market/GLOSSARY.md
share/doc/market/HUB.md
share/doc/market/LICENSE
share/doc/market/JUDGE.md
share/doc/market/LIVE.md
share/doc/market/NOTICE
share/doc/market/OPERATE.md
share/doc/market/PROTOCOL.md
share/doc/market/PYTHON.md
share/doc/market/RELAY.md
share/doc/market/REPORTS.md
share/doc/market/SERVE.md
share/doc/market/TUTORIAL.md
share/doc/market/examples/README.md
share/doc/market/sbom.cdx.json
share/fish/vendor_completions.d/market.fish
share/man/man1/cogmaula.1
share/man/man1/market.1
share/market/installed
share/market/live.stamp
share/market/market.stamp
share/market/prometheus/market.dashboard.json
share/market/prometheus/market.rules.yml
share/market/run.sh
share/market/units/market-agent.service
share/market/units/market-bridge.service
share/market/units/market-hub.service
share/market/units/market-serve.socket
share/market/units/market-serve@.service
share/market/words.sh
share/zsh/site-functions/_market
FILES
    for file in examples/*.json examples/*.txt examples/serve/*.py examples/live/* examples/hub/[!m]* examples/cookbook/* examples/devices/*.py examples/devices/*.toml examples/neighbourhood/* pictures/*.svg pictures/*.png; do
        echo "share/doc/market/$file"
    done
    for file in python/cogmaula/*.py python/cogmaula/*/*.py python/cogmaula/live/*/*.py python/cogmaula/py.typed python/cogmaula/*.json python/cogmaula/live/page/page.[chj]* python/cogmaula/deploy/unit.service python/cogmaula/deploy/Dockerfile python/cogmaula/deploy/check_database.sh python/cogmaula/history/schema.sql; do
        echo "share/market/$file"
    done
}

# same_files FOLDER: whether it has these files and no other.
same_files() {
    diff <(files_due | LC_ALL=C sort) <(cd "$1" && find . -type f -o -type l | cut -c 3- | LC_ALL=C sort)
}

# Everybody may read what is installed, and only its owner may write it.
rights_are_due() {
    local wrong
    wrong="$(find "$1" '(' -perm /022 -o ! -perm -444 ')' -print -o -type d ! -perm -555 -print -o \
        '(' -path '*/bin/*' -o -path '*/libexec/*' ')' ! -perm -555 -print)"
    [ -z "$wrong" ] || { echo "$wrong"; return 1; }
}

# Where the program of an installed stamp was proved, by where it is found.
declare -A where=([here]="where it was installed from" [elsewhere]="by the gate elsewhere")

# Whether the stamps installed below a PREFIX are of the programs and the sources, and say where these were proved.
stamps_are_due() {
    local name file
    for name in market live; do
        file="$1/share/market/$name.stamp"
        choose_program "$name"
        cat "$file"
        grep -qx "program: $(sha256sum <"${programs[$name]}" | cut -d ' ' -f 1)" "$file" || return 1
        grep -qx "sources: $(sources_sum)" "$file" || return 1
        grep -qE "^proved: ${where[${proofs[$name]}]}" "$file" || return 1
        ! grep -q '^state:' "$file" || return 1
    done
}

# Whether the stamp of a program that was stripped has its sum.
stripped_is_stamped() {
    grep -qx "stripped: $(sha256sum <"$1/libexec/market/$2" | cut -d ' ' -f 1)" "$1/share/market/$2.stamp"
}

# The village by the command that FILE is, as it was installed.
runs_village() {
    "$1" run <examples/village.json | cmp - examples/village.txt
}

# Whether the command that FILE is runs a device that makes an offer of 500 W at the lower and -300 W at the higher of two prices,
# takes a price and leaves. It is told a clearing 7 at the higher price.
runs_device() {
    local basis='\0\0\0\0\0\0\0\x9\0\2' offer='\0\0\x1\xF4\xFF\xFF\xFE\xD4'
    "$1" device 2 < <(printf '%b' "\1$basis" "\xD$offer" "\x17\0\2\0\0\0\2\0\0\0\7\0\1$basis" '\xE') | cmp - <(printf '%b' \
        "\x19\0\0\0\2\0\0\0\0$basis$offer" "\2\0\2\0\0\0\2$offer" '\xF\0\0\0\2\0\0\0\7\0\1\xFF\xFF\xFE\xD4' \
        "\x19\0\0\0\2\0\0\0\7$basis$offer" "\x1A\0\0\0\4\0\0\0\7$basis" '\3\0\2\0\0\0\4')
}

# Whether the installed command of the Python package runs the village by the market that is installed with it, and leaves nothing.
cogmaula_runs_village() {
    local before after
    before="$(find "$1" | LC_ALL=C sort)"
    (cd / && env -u COGMAULA_MARKET -u PYTHONPATH "$1/bin/cogmaula" run "$top/examples/village.json") | cmp - examples/village.txt || return 1
    after="$(find "$1" | LC_ALL=C sort)"
    [ "$before" = "$after" ] || { echo "it left files beside what is installed"; return 1; }
}

# Whether this python3 can run the package.
has_python() {
    python3 -c 'import sys; sys.exit(sys.version_info < (3, 11))' 2>/dev/null
}

# No installed file names the folder of the sources, the script, or a place that was not filled in. The words of the script are
# also those of the command, and what they say is looked at below.
names_no_sources() {
    local found
    found="$(grep -rnIE --exclude=words.sh --exclude='*.py' '(^|[^.])\./market|crates/|@[a-z]+@' "$1")"
    found="$found$(grep -rlF -e "$top/" "$1")"
    [ -z "$found" ] || { echo "$found"; return 1; }
}

# Each whole path that an installed page, unit or script names is installed.
names_only_installed() {
    local path missing=""
    while read -r path; do
        path="${path%[.,]}"
        case "$path" in *NAME*) continue ;; esac
        # A pattern of files is due as a file that fits it.
        compgen -G "$path" >/dev/null || missing="$missing $path"
    done < <(grep -rhoIE "$1/[A-Za-z0-9_./@*-]+" "$1" | sort -u)
    [ -z "$missing" ] || { echo "missing:$missing"; return 1; }
}

# Each link of an installed page leads to a file or a folder that is installed.
links_are_installed() {
    local page link missing=""
    while read -r page; do
        while read -r link; do
            link="${link#*](}"
            [ -e "$(cd "${page%/*}" && realpath -m "${link%%[)#]*}")" ] || missing="$missing ${page##*/}:$link"
        done < <(grep -oE '\]\([^#)][^)]*\)' "$page" | grep -v '(https\{0,1\}:')
    done < <(find "$1/share/doc/market" -name '*.md')
    [ -z "$missing" ] || { echo "missing:$missing"; return 1; }
}

# The manual's words are those of an installed command.
manual_is_installed() {
    local page="$1/share/man/man1/market.1" told
    ! grep -nE '\brt\b|script|README|repository|unproved|docs/|PROTOCOL' "$page" || return 1
    told="$(man -E UTF-8 --warnings -l "$page" 2>&1 >/dev/null)"
    [ -z "$told" ] || { echo "$told"; return 1; }
    man -E UTF-8 -l "$page" | grep -qF "market run < /usr/share/doc/market/examples/village.json"
}

commands="ask auctioneer bill check demo device free help relay run serve trace version"

# The words that begin with no - among standard input's are the commands.
are_commands() {
    diff <(tr ' ' '\n' <<<"$commands") <(tr -s ' \t' '\n' | grep -v '^-' | LC_ALL=C sort)
}

bash_completes() {
    # shellcheck disable=SC2016 # the inner bash fills them in
    bash --norc -c '. "$1"; complete -p market >/dev/null || exit 1
        COMP_CWORD=1 COMP_WORDS=(market ""); _market; echo "${COMPREPLY[*]}"' - "$1" | are_commands || return 1
    # shellcheck disable=SC2016
    [ "$(bash --norc -c '. "$1"; COMP_CWORD=2 COMP_WORDS=(market help r); _market; echo "${COMPREPLY[*]}"' - "$1")" = refusals ] &&
        [ -z "$(bash --norc -c '. "$1"; COMP_CWORD=2 COMP_WORDS=(market run ""); _market; echo "${COMPREPLY[*]}"' - "$1")" ]
}

zsh_completes() {
    # shellcheck disable=SC2016 # zsh fills them in
    zsh -f -c 'fpath=("$1"); autoload +X _market || exit 1
        _describe() { local it; for it in "${(P@)2}"; do echo "${it%%:*}"; done }
        CURRENT=2 words=(market ""); _market' - "$1" | are_commands
}

fish_completes() {
    # shellcheck disable=SC2016 # fish fills them in
    HOME="$work" fish --no-config -c 'source $argv[1]; complete -C "market "' "$1" | cut -f 1 | are_commands || return 1
    # shellcheck disable=SC2016
    HOME="$work" fish --no-config -c 'source $argv[1]; complete -C "market help r"' "$1" | grep -q '^refusals'
}

# The least of ten times in microseconds that a command takes.
least_time() {
    local least=999999999 begin took
    for _ in 1 2 3 4 5 6 7 8 9 10; do
        begin="${EPOCHREALTIME/./}"
        "$@" <examples/two_bids.json >/dev/null 2>&1
        took=$((${EPOCHREALTIME/./} - begin))
        [ "$took" -ge "$least" ] || least="$took"
    done
    echo "$least"
}

takes_30_ms_more_at_most() {
    local program command
    program="$(least_time "$1" run)"
    command="$(least_time "$2" run)"
    echo "$program us, and $command us by the installed command"
    [ $((command - program)) -le 30000 ]
}

# A refusal on a terminal is explained, and elsewhere it is not.
explains_on_terminal() {
    local told
    told="$(script -qec "'$1' run <checks/cases/refusals/$2" /dev/null)"
    case "$told" in *"refused $3"*"market: refused"*) ;; *) echo "on a terminal: $told"; return 1 ;; esac
}

# The units name programs that are installed, as the program and not as a script around it.
units_are_installed() {
    [ "$(grep -h '^ExecStart=' "$1"/share/market/units/*)" = "ExecStart=$1/bin/cogmaula agent /etc/market/agent.toml
ExecStart=/usr/bin/python3 $1/libexec/market/bridge.py 127.0.0.1:1883 0 99 100 1 /run/market.socket
ExecStart=$1/bin/cogmaula hub --config /etc/market/hub.toml --key %d/key
ExecStart=$1/libexec/market/market serve" ]
}

papers_agree() {
    grep -qx "version: $version" CITATION.cff || { echo "CITATION.cff has another version"; return 1; }
    grep -qx "__version__ = \"$version\"" python/cogmaula/version.py || { echo "python/cogmaula/version.py has another version"; return 1; }
    local day
    day="$(awk '/^date-released: / { gsub("\"", ""); print $2 }' CITATION.cff)"
    grep -qxF "## [$version] - $day" CHANGELOG.md || { echo "CHANGELOG.md has no release $version of $day"; return 1; }
    [ "$(grep -c '^kit: ' kit.txt)" = 1 ] || { echo "kit.txt has not one kit"; return 1; }
    grep -q 'Version 2.0, January 2004' LICENSE || { echo "LICENSE is another"; return 1; }
}

work="$(mktemp -d)" || exit 1
trap 'rm -rf "$work"' EXIT

passes "papers" papers_agree
if ! has make; then
    skipped "all that is installed: there is no make"
    end
fi
# shellcheck source=script/program.sh
. script/program.sh
# shellcheck source=script/prebuilt.sh
. script/prebuilt.sh
declare -A programs proofs
for name in live market; do
    choose_program "$name"
    if ! find_proved; then
        echo "there is no proved program $name of these sources: run \`make prove\` first"
        failed=$((failed + 1))
        end
    fi
    programs[$name]="$program"
    proofs[$name]="$proved_at"
done

# What is installed, where and with which rights, whatever rights a new file has by itself.
at="$work/usr"
market="$at/bin/market"
passes "install" make_it -s install PREFIX="$at"
passes "installed files" same_files "$at"
passes "the program is the proved one" cmp "${programs[market]}" "$at/libexec/market/market"
passes "that of the nodes is the proved one" cmp "${programs[live]}" "$at/libexec/market/live"
passes "the stamps are theirs" stamps_are_due "$at"
passes "installcheck" make_it -s installcheck PREFIX="$at"
passes "nothing of the sources" names_no_sources "$at"
passes "nothing that is not installed" names_only_installed "$at"
passes "links" links_are_installed "$at"
passes "units" units_are_installed "$at"

# The installed commands.
if has_python; then
    passes "cogmaula" cogmaula_runs_village "$at"
else
    skipped "cogmaula: there is no python3 from 3.11 on"
fi
passes "run" runs_village "$market"
is "run, all that is told" 0 "phase 1 *" "" run <examples/village.json
passes "device" runs_device "$market"
is "a device of no number" 2 "usage: live *" "" device
is "a node's fault of reading" 3 "" "market: standard input could not be read*" auctioneer </
is "demo" 0 "$("${programs[market]}" demo 7 1)" "" demo 7 1
is "help" 0 "*market*run*help refusals*" "" help
# It is a pattern, and a bracket in it means itself.
help="$("$market" help)"
help="${help//\[/\\[}"
is "--help" 0 "$help" "" --help
is "-h" 0 "$help" "" -h
is "alone" 2 "$help" ""
is "help of a code" 0 "*17*demand*" "" help 17
fails "help names nothing of the sources" "" grep -nE '\./market|README|docs/|prove' <("$market" help; "$market" help refusals; "$market" help 17)
is "help of all refusals" 0 "*1 *25 *" "" help refusals
is "version" 0 "market $version ($(bash packaging/commit.sh))
market was proved ${where[${proofs[market]}]} on 20??-??-?? with *
live was proved ${where[${proofs[live]}]} on 20??-??-?? with *" "" version
is "--version" 0 "market $version (*" "" --version
is "a refused file" 5 "refused 5 document" "" run <checks/cases/refusals/05_version.json
is "help of no code" 2 "" "market: there is no help on 99*" help 99
is "run FILE" 2 "usage: *" "market: run reads standard input: market run < examples/village.json" run examples/village.json
is "an unknown command" 2 "usage: market *" "" frobnicate
is "--proved is no command" 2 "usage: *" "" --proved run
is "--unproved is no command" 2 "usage: *" "" --unproved run
is "prove is no command" 2 "usage: *" "" prove
is "a fault of reading" 3 "" "market: standard input could not be read*market run < $at/share/doc/market/examples/village.json" run </
passes "time" takes_30_ms_more_at_most "$at/libexec/market/market" "$market"
if has script; then
    passes "a refusal on a terminal" explains_on_terminal "$market" 05_version.json "5 document"
else
    skipped "a refusal on a terminal: there is no script (Debian: bsdutils)"
fi

# The command around a program that tells how it is called. It also shows that a copy of what is installed works elsewhere.
mkdir -p "$work/copy$at"
cp -a "$at/." "$work/copy$at"
cat >"$work/copy$at/libexec/market/market" <<'PROGRAM'
#!/usr/bin/env bash
printf '<%s>' "$@"
cat
case "$1" in [0-9]) exit "$1" ;; esac
PROGRAM
market="$work/copy$at/bin/market"
for status in 0 1 2 4 5; do
    is "status $status" "$status" "<$status><a  b><\*><>input" "" "$status" "a  b" "*" "" <<<input
done
is "status 3" 3 "<3>input" "market: standard input could not be read*" 3 <<<input
is "status 6" 6 "<6>input" "market: standard output did not take the whole text*" 6 <<<input
is "status 7" 7 "<7>input" "market: memory did not suffice*" 7 <<<input
is "status 8" 8 "<8>input" "market: the arguments are not text*" 8 <<<input
fails "installcheck of another program" "does not give the text" make_it -s installcheck DESTDIR="$work/copy" PREFIX="$at"

# The same of the program of the nodes.
cp "$at/libexec/market/market" "$work/copy$at/libexec/market/market"
cat >"$work/copy$at/libexec/market/live" <<'PROGRAM'
#!/usr/bin/env bash
printf '<%s>' "$@"
cat
exit "${2-0}"
PROGRAM
for status in 0 2 5; do
    is "a device, status $status" "$status" "<device><$status>input" "" device "$status" <<<input
done
is "a relay" 0 "<relay><0><a  b><\*>input" "" relay 0 "a  b" "*" <<<input
is "a device, status 3" 3 "<device><3>input" "market: standard input could not be read*" device 3 <<<input
is "a device, status 4" 4 "<device><4>input" "market: the stream is too long: start the node again with its newest Resume" device 4 <<<input
is "a device, status 6" 6 "<device><6>input" "market: standard output did not take the whole text*" device 6 <<<input
is "a device, status 7" 7 "<device><7>input" "market: memory did not suffice*" device 7 <<<input
fails "installcheck of another program of the nodes" "is no auctioneer" make_it -s installcheck DESTDIR="$work/copy" PREFIX="$at"

# The same sources with programs of which nothing says that they were proved, and then with one for which a stamp vouches.
mkdir -p "$work/unproved"/crates/{market,live}/{out,src}
touch "$work/unproved"/crates/{market,live}/src/main.rt
cp -R Makefile VERSION CHANGELOG.md crates.txt packaging script "$work/unproved"
cp "${programs[market]}" "$work/unproved/crates/market/out/market"
cp "${programs[live]}" "$work/unproved/crates/live/out/live"
fails "install without a proved program" "no proved program market" make_it -s -C "$work/unproved" install PREFIX="$work/none"
fails "deb without a proved program" "no proved program market" make_it -s -C "$work/unproved" deb
(top="$work/unproved" && . script/program.sh && look_at_sources && write_stamp "$sum")
fails "install without a proved program of the nodes" "no proved program live" make_it -s -C "$work/unproved" install PREFIX="$work/none"
passes "nothing was installed" [ ! -e "$work/none" ]

# The same with prebuilt programs: of these sources, and then of others.
elsewhere="$work/unproved/prebuilt/x86_64-linux"
mkdir -p "$elsewhere"
for it in market live; do
    mv "$work/unproved/crates/$it/out/$it" "$elsewhere/$it"
    (top="$work/unproved" && . script/program.sh && choose_program "$it" && printf 'sources: %s\nprogram: %s\n' "$(sources_sum)" \
        "$(sha256sum <"$elsewhere/$it" | cut -d ' ' -f 1)") >"$elsewhere/$it.stamp"
done
hands_on() {
    (top="$work/unproved" && . script/program.sh && . script/prebuilt.sh && choose_program "$1" && find_proved && stamp_to_hand_on)
}
passes "a prebuilt program is taken" diff <(hands_on market) <(cat "$elsewhere/market.stamp"; echo "proved: by the gate elsewhere, and prebuilt")
passes "and that of the nodes" diff <(hands_on live) <(cat "$elsewhere/live.stamp"; echo "proved: by the gate elsewhere, and prebuilt")
sed -i 's/^market: /&pm_gen /' "$work/unproved/crates.txt"
fails "install with prebuilt programs of other sources" "no proved program market" make_it -s -C "$work/unproved" install PREFIX="$work/none"
passes "nothing of those was installed" [ ! -e "$work/none" ]

# Completions and the manual page.
passes "completion by bash" bash_completes "$at/share/bash-completion/completions/market"
if has zsh; then passes "completion by zsh" zsh_completes "$at/share/zsh/site-functions"; else skipped "completion by zsh: there is no zsh"; fi
if has fish; then
    passes "completion by fish" fish_completes "$at/share/fish/vendor_completions.d/market.fish"
else
    skipped "completion by fish: there is no fish"
fi

# Removal: again over an older install, beside files of others, and below a DESTDIR.
echo old >"$at/share/market/old"
echo "file $at/share/market/old" >>"$at/share/market/installed"
passes "install again" make_it -s install PREFIX="$at"
passes "nothing of the older install" same_files "$at"
touch "$at/share/man/man1/other.1"
passes "uninstall" make_it -s uninstall PREFIX="$at"
passes "others' files are left, and nothing else" diff <(echo "$at/share/man/man1/other.1") <(find "$at" ! -type d)
rm -rf "$at"
# shellcheck disable=SC2016 # the inner bash fills them in
passes "install with secret new files" bash -c 'umask 077 && exec make -s install DESTDIR="$1" PREFIX=/usr' - "$work/stage of it"
passes "installed files below DESTDIR" same_files "$work/stage of it/usr"
passes "rights" rights_are_due "$work/stage of it/usr"
if has man; then
    passes "manual page" manual_is_installed "$work/stage of it/usr"
else
    skipped "the manual page: there is no man"
fi
passes "run below DESTDIR" runs_village "$work/stage of it/usr/bin/market"
! has_python || passes "cogmaula below DESTDIR" cogmaula_runs_village "$work/stage of it/usr"
fails "DESTDIR is named nowhere" "" grep -rF "$work" "$work/stage of it"
passes "uninstall below DESTDIR" make_it -s uninstall DESTDIR="$work/stage of it" PREFIX=/usr
passes "nothing is left" diff /dev/null <(find "$work/stage of it" -mindepth 1)
fails "nothing to uninstall" "nothing is installed there" make_it -s uninstall PREFIX="$at"
fails "a place that is no whole path" "give a whole path" make_it -s install PREFIX="relative/prefix"

# A release: the committed sources, and their commit.
if [ -e .git ] && has git; then
    release="$work/market-$version"
    passes "dist" bash packaging/dist.sh "$release.tar.gz"
    cp "$release.tar.gz" "$work/first.tar.gz"
    bash packaging/dist.sh "$release.tar.gz" >/dev/null 2>&1
    passes "dist gives the same bytes again" cmp "$work/first.tar.gz" "$release.tar.gz"
    tar -xzf "$release.tar.gz" -C "$work"
    passes "all committed files" diff <(git ls-tree -r --name-only HEAD | LC_ALL=C sort) \
        <(cd "$release" && find . '(' -type f -o -type l ')' | cut -c 3- | LC_ALL=C sort)
    passes "the release's commit" diff <(git rev-parse HEAD | cut -c 1-7) <(bash "$release/packaging/commit.sh")
else
    skipped "the release: these sources are no clone of git"
fi

# The Debian package.
if has dpkg-deb && has dpkg-shlibdeps; then
    package="$work/market_${version}_amd64.deb"
    passes "deb" bash packaging/deb.sh "$package"
    cp "$package" "$work/first.deb"
    bash packaging/deb.sh "$package" >/dev/null 2>&1
    passes "deb gives the same bytes again" cmp "$work/first.deb" "$package"
    dpkg-deb -x "$package" "$work/unpacked"
    passes "run from the unpacked package" runs_village "$work/unpacked/usr/bin/market"
    ! has_python || passes "cogmaula from the unpacked package" cogmaula_runs_village "$work/unpacked/usr"
    passes "the stamp of a stripped program" stripped_is_stamped "$work/unpacked/usr" market
    passes "and that of the nodes" stripped_is_stamped "$work/unpacked/usr" live
    passes "help from the unpacked package" "$work/unpacked/usr/bin/market" help
    passes "the package names nothing of the sources" names_no_sources "$work/unpacked"
    if has lintian; then
        passes "lintian" lintian --allow-root --fail-on error,warning "$package"
    else
        skipped "lintian is not there"
    fi
else
    skipped "the Debian package: there is no dpkg-deb with dpkg-dev"
fi
end
