#!/usr/bin/env bash
# Runs the script `market`, the gate and checks/run in a folder of five crates with an rt, a script/prove.py and checks of its
# own, which prove and try nothing, and compares what each writes, what it says and its status. The last line is 'N passed, M
# failed'; the status is 1 if any failed.
# shellcheck disable=SC2016,SC2034 # The commands of the cases are evaluated one by one.
cd "$(dirname "$0")/../.." || exit 1
repository="$PWD"
folder="$(mktemp -d)" || exit 1
trap 'rm -rf "$folder"' EXIT
# The folder has a blank in its name.
top="$folder/a clone"
mkdir -p "$top"/crates/{low,high,other,market,live,over_links}/src "$top"/{script,.ci,checks/{drive,lint},docs} "$folder"/{bin,tools,git}
cp market "$top/market"
cp script/{words,program,prebuilt,packages,run}.sh "$top/script"
mkdir -p "$top/packaging"
cp packaging/prebuilt.sh "$top/packaging"
cp .ci/run "$top/.ci"
cp checks/run "$top/checks/run.kept"
for crate in low high other market live over_links; do
    echo "a source" >"$top/crates/$crate/src/lib.rt"
done
printf '%s\n' '# A comment.' 'low: kit # another' 'high: low' 'other:' 'market: high, low' 'live: other, low' 'over_links: low' \
    >"$top/crates.txt"
printf '%s\n' '# The kit.' 'kit: kit-1' 'debian: bash' >"$top/kit.txt"
echo 1.2.3 >"$top/VERSION"
echo input >"$folder/input"

# The program. Its input names what it does; it writes `proved` before its text, or `tried` if rt tries it.
cat >"$top/program" <<'END_OF_PROGRAM'
#!/usr/bin/env bash
case "$*" in
    run | trace | bill | free | check | ask | serve) given="$(cat)" ;;
    "demo "*) given="no input" ;;
    *) echo "usage: ..."; exit 2 ;;
esac
case "$given" in
    "status "*) exit "${given#status }" ;;
    refused*) echo "$given"; exit 5 ;;
    *) echo "${tried:-proved} $*: $given" ;;
esac
END_OF_PROGRAM
cp "$top/program" "$top/sources"

# The program of the nodes, which writes `live` before its text.
cat >"$top/nodes" <<'END_OF_NODES'
#!/usr/bin/env bash
case "$#$*" in
    "4relay "* | 1auctioneer | "2device "*) given="$(cat)" ;;
    *) echo "usage: live ..."; exit 2 ;;
esac
case "$given" in
    "status "*) exit "${given#status }" ;;
    *) echo "live $*: $given" ;;
esac
END_OF_NODES

# rt tries the program as it would: it waits for standard input only for a while.
cat >"$folder/bin/rt" <<'END_OF_RT'
#!/usr/bin/env bash
case "$*" in
    version) echo "kit-1 of today" ;;
    ci)
        mkdir -p crates/{market,live,over_links}/out
        [ -f no-build ] || cp program crates/market/out/market
        [ -f no-build ] || cp nodes crates/live/out/live
        [ -f no-build ] || cp program crates/over_links/out/over_links
        [ ! -f meanwhile ] || echo "an edit" >>"$(cat meanwhile)"
        exit "$(cat ci-status 2>/dev/null || echo 0)"
        ;;
    "try --seconds 60 --"*)
        IFS= read -r -d "" -t 0.3 given
        case "$given" in
            long*) echo "checked: no-answer: the program wrote more than 1048576 bytes to standard output" >&2; exit 6 ;;
            endless*) echo "checked: no-answer: the program did not end within the time limit" >&2; exit 6 ;;
            broken*) echo "error: src/lib.rt" >&2; exit 1 ;;
        esac
        printf %s "$given" | tried=tried bash ../../sources "${@:5}"
        status=$?
        printf '%s\n' "checked: ended" "run=ended status=$status runners=1 races=unchecked proved=no" >&2
        exit "$status"
        ;;
esac
END_OF_RT

# The scheduler of proofs: the file `meanwhile` names what is done to a source while it proves.
cat >"$top/script/prove.py" <<'END_OF_PROVE'
import os, shutil, sys
source = "crates/low/src/lib.rt"
kept = open(source).read()
name = sys.argv[1]
print("proves", *sys.argv[1:], file=sys.stderr)
if "bad" in kept:
    sys.exit("low is not proved")
if not os.path.exists("no-build"):
    os.makedirs(f"crates/{name}/out", exist_ok=True)
    shutil.copy({"live": "nodes"}.get(name, "program"), f"crates/{name}/out/{name}")
if os.path.exists("meanwhile"):
    open(source, "a").write("an edit\n")
    if "restore" in open("meanwhile").read():
        open(source, "w").write(kept)
END_OF_PROVE
# The checks tell their arguments and a last line; that of the program tells its arguments alone.
all="program prebuilt links traces serve live network memory hostile script install python pages site schema pictures names places definitions edits"
folder_of() {
    case "$1" in
        cases | links | traces | serve | nodes | network | memory | hostile | python) echo "$top/checks/drive" ;;
        *) echo "$top/checks/lint" ;;
    esac
}
stub() {
    local name
    for name in "$@"; do
        echo 'import sys; print(*sys.argv[1:]); print("1 passed, 0 failed")' >"$(folder_of "$name")/$name.py"
    done
}
stub links traces serve nodes network memory hostile python pages site schema pictures names places definitions edits
for name in script install prebuilt; do
    echo 'echo "1 passed, 0 failed"' >"$top/checks/drive/$name.sh"
done
echo 'import sys; print(*sys.argv[1:])' >"$top/checks/drive/cases.py"

# All that the script needs beside rt. git lies elsewhere.
for tool in bash env cat chmod cmp cp cut date dirname find getconf grep head mkdir mktemp mv nproc readlink rm sed sha256sum sleep \
    sort tail tee uname wc xargs; do
    ln -s "$(command -v "$tool")" "$folder/tools/$tool" || exit 1
done
ln -s "$(python3 -c 'import sys; print(sys.executable)')" "$folder/tools/python3"
ln -s "$(command -v git)" "$folder/git/git"
chmod +x "$top/program" "$top/nodes" "$folder/bin/rt"
ln -s "$top/market" "$folder/link"
for tool in awk ln mkfifo script touch tr; do
    eval "$tool() { $(command -v "$tool") \"\$@\"; }"
done
mkfifo "$folder/keys"
exec 9<>"$folder/keys"
export TMPDIR="$folder"
kept="$PATH"
PATH="$folder/bin:$folder/tools"
cd "$top" || exit 1
passed=0
failed=0

# is NAME STATUS TEXT TOLD COMMAND: whether the command ends with the status, writes the text and says the rest.
is() {
    local wrote ended told
    wrote="$(eval "$5" 2>"$folder/told" <"$folder/input")"
    ended=$?
    told="$(<"$folder/told")"
    if [ "$ended" = "$2" ] && [ "$wrote" = "$3" ] && [ "$told" = "$4" ]; then
        passed=$((passed + 1))
    else
        failed=$((failed + 1))
        printf 'FAILED %s: %s\nstatus %s, due %s\nwrote, and due:\n%s\n%s\ntold, and due:\n%s\n%s\n\n' \
            "$1" "$5" "$ended" "$2" "$wrote" "$3" "$told" "$4"
    fi
}

# Runs a command on a terminal, on which nobody types but who writes to 9, and writes what is seen there.
screen() {
    local ended
    script -qec "$1" /dev/null >"$folder/screen" <&9
    ended=$?
    tr -d '\r' <"$folder/screen"
    return "$ended"
}

# Takes the proof away, or makes one.
forget() { rm -rf crates/{market,live,over_links}/out; }
prove() { ./market prove 2>/dev/null; }
prove_live() { ./market prove live 2>/dev/null; }
prove_links() { ./market prove over_links 2>/dev/null; }

nproc() { echo 4; }
export -f nproc
none="no program is proved here; ./market prove makes one in 13 to 25 minutes"
stale="the sources changed since they were proved; ./market prove takes 13 to 25 minutes or less"
other="the program is not the one that was proved; ./market prove takes 13 to 25 minutes or less"
none_live="live is not proved here; ./market prove live makes it"
stale_live="the sources of live changed since they were proved; ./market prove live proves them"
other_live="live is not the program that was proved; ./market prove live makes it again"
first="market: this run is unproved and takes half a minute to a minute:"
asked="market: nothing is proved of this run; it takes half a minute to a minute"
made="proves market
market: proved: ./market now runs the proved program"
made_live="proves live
market: proved: ./market relay, auctioneer and device now run the proved program"
read_fault="market: standard input could not be read: give it a file, as in ./market run < examples/village.json"
write_fault="market: standard output did not take the whole text: look whether the disk is full or the reader has gone"
memory="market: memory did not suffice: raise its limit (ulimit -v), end other programs, or split the cluster"
text="market: the arguments are not text: write them in UTF-8"
parent="the parent is not known, is no concentrator, or comes later"
bad_frame="market: refused: a frame is bad; a Fault tells its offset; ./market help 24 and docs/CLUSTER_FILE.md say more"
meaning="market: refused: $parent; ./market help 9 and docs/CLUSTER_FILE.md say more"
unknown="market: the input is refused: ./market help refusals says what the code means"
absolute="$(printf %q "$top")"
in_status() { echo "$2" | ./market "${@:3}" "$1"; }
# Without a proof.
is "a relay" 1 "" "market: relay needs the proved program live, since it reads a stream: $none_live" './market relay 3 -1000 1000'
is "an auctioneer of a file, --unproved" 1 "" \
    "market: auctioneer without a proof reads no stream: run ./market prove live first, and leave --unproved out" \
    './market --unproved auctioneer <../input'
is "a fresh folder" 0 "tried run: input" "$first $none" './market run'
is "slow input" 0 "tried run: input" "$first $none" '(sleep 1; cat) <"$folder/input" | ./market run'
is "an empty input" 0 "tried run: " "$first $none" './market run </dev/null'
is "from another folder" 0 "tried run: input" "$first ${none/.\//$absolute/}" '(cd / && "$top/market" run)'
is "by a link" 0 "tried run: input" "$first ${none/.\/market/$folder\/link}" '"$folder/link" run'
is "by a relative path" 0 "tried run: input" "$first ${none/.\//../}" '(cd checks && ../market run)'
is "by bash" 0 "tried run: input" "$first $none" 'bash market run'
is "on two processors" 0 "tried run: input" "$first ${none/13 to 25/24 to 50}" '(nproc() { echo 2; }; ./market run)'
is "on one processor" 0 "tried run: input" "$first ${none/13 to 25/45 to 90}" '(nproc() { echo 1; }; ./market run)'
is "a demo" 0 "tried demo 1 2: no input" "$first $none" './market demo 1 2'
is "a demo on a terminal" 0 "$first $none
tried demo 1 2: no input" "" 'screen "./market demo 1 2"'
is "an input from a terminal" 0 "tried run: typed" "" 'printf "typed\n\004" >&9; screen "./market run" | tail -n 1'
is "serve" 1 "" "market: serve needs the proved program, since it reads a stream: $none" './market serve'
is "a file as argument" 2 "" "market: run reads standard input: ./market run < ../input" './market run ../input'
is "a file with a blank" 2 "" "market: run reads standard input: ./market run < $absolute/VERSION" \
    './market run "$top/VERSION"'
is "a file for serve" 2 "" "market: serve reads standard input: ./market serve < ../input" './market serve ../input'
is "no command" 2 "" "market: these arguments are no command: ./market help lists the commands" './market rum'
is "a demo of one number" 2 "" "market: these arguments are no command: ./market help lists the commands" './market demo 1'
is "an input that cannot be read" 3 "" "$first $none
$read_fault" './market run </'
is "a closed input" 3 "" "$first $none
$read_fault" './market run <&-'
is "a full output" 6 "" "$first $none
$write_fault" './market run >/dev/full'
is "a closed output" 6 "" "$first $none
$write_fault" './market run >&-'
is "no memory" 7 "" "$first $none
$memory" 'echo status 7 | ./market run'
is "refused" 5 "refused 9 node 1" "$first $none" 'echo refused 9 node 1 | ./market run'
is "refused on a terminal" 5 "$first $none
refused 9 node 1
$meaning" "" 'echo refused 9 node 1 >bad; screen "./market run <bad"'
is "a long text" 1 "" "$first $none
market: a text of more than 1048576 bytes needs the proved program: ./market prove makes it" 'echo long | ./market run'
is "a long run" 1 "" "$first $none
market: the unproved run did not end within 60 seconds, so it needs the proved program: ./market prove makes it" \
    'echo endless | ./market run'
is "a long input" 1 "" "$first $none
market: an input of more than 67108864 bytes needs the proved program: ./market prove makes it" \
    'head -c 67108865 /dev/zero | ./market run'
is "sources that do not compile" 1 "" "$first $none
error: src/lib.rt
market: the sources gave no answer: mend what rt names above, and try again" 'echo broken | ./market run'
is "another kit" 0 "tried run: input" "$first $none
market: the kit at hand is kit-1, and kit.txt names kit-2: what follows holds by the kit at hand" \
    'sed -i s/kit-1/kit-2/ kit.txt; ./market run; sed -i s/kit-2/kit-1/ kit.txt'
is "no rt" 1 "" "market: there is no proved program to run, and no rt to try the sources: install the kit that kit.txt names" \
    'PATH="$folder/tools" ./market run'
is "no folder for notes" 1 "" "market: no folder can be made in /none: look whether it is there and has room" \
    'TMPDIR=/none ./market run'
is "--unproved" 0 "tried run: input" "$asked" './market --unproved run'
is "--unproved with no arguments" 2 "usage: ..." "$asked" './market --unproved'
is "--unproved with a file as argument" 2 "" "market: run reads standard input: ./market run < ../input" \
    './market --unproved run ../input'
is "--unproved serve of a file" 0 "tried serve: input" "$asked" './market --unproved serve'
is "--unproved serve of a stream" 1 "" \
    "market: serve without a proof reads no stream: give it a file, or run ./market prove first" \
    'cat | ./market --unproved serve'
is "--proved" 1 "" "market: $none" './market --proved run'
is "the notes are gone" 0 "" "" 'find "$folder" -mindepth 1 -maxdepth 1 -name "tmp.*"'

# The proof.
is "no rt to prove" 1 "" "market: there is no rt to prove the program: install the kit that kit.txt names" \
    'PATH="$folder/tools" ./market prove'
is "a proof that fails" 1 "" "proves market
low is not proved
market: the program is not proved: mend what is named above, and run ./market prove again; it keeps what still holds" \
    'echo bad >crates/low/src/lib.rt; ./market prove; s=$?; echo "a source" >crates/low/src/lib.rt; (exit $s)'
is "nothing is built" 1 "" "proves market
market: the program is not built: script/prove.py left no $top/crates/market/out/market; rt run in crates/market says more" \
    'touch no-build; ./market prove; s=$?; rm no-build; (exit $s)'
is "sources edited meanwhile" 1 "" "proves market
market: the sources changed while they were proved: run ./market prove again; it keeps what still holds" \
    'touch meanwhile; ./market prove'
is "and not proved then" 0 "tried run: input" "$first $none" './market run'
is "sources edited and put back meanwhile" 1 "" "proves market
market: the sources changed while they were proved: run ./market prove again; it keeps what still holds" \
    'echo restore >meanwhile; ./market prove; s=$?; rm meanwhile; (exit $s)'
echo "a source" >crates/low/src/lib.rt
is "a proof by another kit" 0 "" "market: the kit at hand is kit-1, and kit.txt names kit-2: what follows holds by the kit at hand
$made" 'sed -i s/kit-1/kit-2/ kit.txt; ./market prove; sed -i s/kit-2/kit-1/ kit.txt'
is "arguments of no proof" 0 "2 2 2 2" "" 'echo $(for words in all --help "live market" "live --jobs 0"; do
    python3 "$repository/script/prove.py" $words >/dev/null 2>&1; echo $?; done)'
is "a proof" 0 "" "${made/market/market --jobs 3}" './market prove --jobs 3'
is "a proof by the program's name" 0 "" "${made/market/market --jobs 3}" './market prove market --jobs 3'
is "a relay without its program" 1 "" \
    "market: relay needs the proved program live, since it reads a stream: ${none_live//.\/market/$folder\/link}" \
    '"$folder/link" relay 3 -1000 1000'
is "the stamp" 0 "program: $(sha256sum <crates/market/out/market | cut -d " " -f 1)
kit: kit-1 of today
date: $(date +%Y-%m-%d)" "" 'grep -E "^(program|kit|date)" crates/market/out/proved'

# With the proof.
is "a proved run" 0 "proved run: input" "" './market run'
is "without rt" 0 "proved run: input" "" 'PATH="$folder/tools" ./market run'
is "from another folder, proved" 0 "proved run: input" "" '(cd / && "$folder/link" run)'
is "a stream" 0 "proved serve: input" "" 'cat | ./market serve'
is "--proved, proved" 0 "proved run: input" "" './market --proved run'
is "--unproved, proved" 0 "tried run: input" "$asked" './market --unproved run'
is "a file as argument, proved" 2 "usage: ..." "market: run reads standard input: ./market run < ../input" \
    './market run ../input'
is "no command, proved" 2 "usage: ..." "" './market rum'
is "a fault of reading" 3 "" "$read_fault" 'echo status 3 | ./market run'
is "a fault of writing" 6 "" "$write_fault" 'echo status 6 | ./market run'
is "no memory, proved" 7 "" "$memory" 'echo status 7 | ./market run'
is "arguments that are no text" 8 "" "$text" 'echo status 8 | ./market run'
is "by its name" 6 "" "$write_fault" 'echo status 6 | "$folder/link" run'
is "too long" 4 "" "" 'echo status 4 | ./market run'
is "refused, and no terminal" 5 "refused 9 node 1" "" './market run <bad'
is "refused on a terminal, proved" 5 "refused 9 node 1
$meaning" "" 'screen "./market run <bad"'
is "a text on a terminal" 0 "proved run: input" "" 'screen "./market run <../input"'
is "no room for notes on a terminal" 5 "refused 9 node 1
$unknown" "" 'screen "TMPDIR=/none ./market run <bad"'
is "refused into a file" 5 "$meaning
refused 9 node 1" "" 'screen "./market run <bad >wrote"; s=$?; cat wrote; (exit $s)'
is "refused behind other lines" 5 "$meaning
refused 1 document
refused 9 node 1" "" 'echo refused 1 document >wrote; screen "./market run <bad >>wrote"; s=$?; cat wrote; (exit $s)'
is "refused before other lines" 5 "$meaning" "" \
    'printf "%40s\n" x "refused 1 document" >wrote; screen "./market run <bad 1<>wrote"'
is "refused into a pipe" 0 "$unknown
refused 9 node 1" "" 'screen "./market run <bad | cat >wrote"; cat wrote'
is "a refused stream" 5 "refused 9 node 1
$bad_frame" "" 'screen "./market serve <bad"'
is "a code that is not known" 5 "refused 77 document
$unknown" "" 'echo refused 77 document >worse; screen "./market run <worse"'

# The nodes, by the program live.
is "live is not built" 1 "" "proves live
market: the program is not built: script/prove.py left no $top/crates/live/out/live; rt run in crates/live says more" \
    'touch no-build; ./market prove live; s=$?; rm no-build; (exit $s)'
is "a proof of live that fails" 1 "" "proves live
low is not proved
market: the program is not proved: mend what is named above, and run ./market prove live again; it keeps what still holds" \
    'echo bad >crates/low/src/lib.rt; ./market prove live; s=$?; echo "a source" >crates/low/src/lib.rt; (exit $s)'
is "sources of live edited meanwhile" 1 "" "proves live
market: the sources changed while they were proved: run ./market prove live again; it keeps what still holds" \
    'echo restore >meanwhile; ./market prove live; s=$?; rm meanwhile; (exit $s)'
is "and live not proved then" 1 "" "market: device needs the proved program live, since it reads a stream: $none_live" \
    './market device 2'
is "a proof of live" 0 "" "${made_live/live/live --jobs 3}" './market prove live --jobs 3'
is "the stamp of live" 0 "program: $(sha256sum <nodes | cut -d " " -f 1)
kit: kit-1 of today
date: $(date +%Y-%m-%d)" "" 'grep -E "^(program|kit|date)" crates/live/out/proved'
is "a relay, proved" 0 "live relay 3 -1000 1000: input" "" 'cat | ./market relay 3 -1000 1000'
is "an auctioneer, proved" 0 "live auctioneer: input" "" './market auctioneer'
is "a device, --proved" 0 "live device 2: input" "" './market --proved device 2'
is "a device from elsewhere, without rt" 0 "live device 2: input" "" '(cd / && PATH="$folder/tools" "$folder/link" device 2)'
is "an auctioneer, --unproved" 1 "" \
    "market: auctioneer without a proof reads no stream: run ./market prove live first, and leave --unproved out" \
    './market --unproved auctioneer'
is "a relay of too few numbers" 2 "usage: live ..." "" './market relay 3'
is "a file for an auctioneer" 2 "usage: live ..." "market: auctioneer reads standard input: ./market auctioneer < ../input" \
    './market auctioneer ../input'
is "a node's fault of reading" 3 "" "$read_fault" 'echo status 3 | ./market device 2'
is "a node's long stream" 4 "" "market: the stream is too long: start the node again with its newest Resume" \
    'echo status 4 | ./market device 2'
is "a node's bad frame" 5 "" "" 'echo status 5 | ./market auctioneer'
echo status 5 >fault
is "a node's bad frame on a terminal" 5 "$bad_frame" "" 'screen "./market auctioneer <fault"'
is "a node's fault of writing" 6 "" "$write_fault" 'echo status 6 | ./market relay 3 0 0'
is "a node without memory" 7 "" "$memory" 'echo status 7 | ./market relay 3 0 0'
is "a node's arguments that are no text" 8 "" "$text" 'echo status 8 | ./market relay 3 0 0'
is "an edit of what market alone stands on" 0 "live auctioneer: input" "" 'echo more >>crates/high/src/lib.rt; ./market auctioneer'
is "and market is not current" 1 "" "market: $stale" './market --proved run; s=$?; echo "a source" >crates/high/src/lib.rt; (exit $s)'
is "an edit of what live alone stands on" 0 "proved run: input" "" 'echo more >>crates/other/src/lib.rt; ./market run'
is "and live is not current" 1 "" "market: auctioneer needs the proved program live, since it reads a stream: $stale_live" \
    './market auctioneer; s=$?; echo "a source" >crates/other/src/lib.rt; (exit $s)'
is "live put back" 0 "live auctioneer: input" "" './market auctioneer'
is "another program of the nodes" 1 "" \
    "market: auctioneer needs the proved program live, since it reads a stream: $other_live" \
    'echo "# more" >>crates/live/out/live; ./market auctioneer; s=$?; cp nodes crates/live/out/live; (exit $s)'
is "no program of the nodes" 1 "" "market: device needs the proved program live, since it reads a stream: $none_live" \
    'rm crates/live/out/live; ./market --proved device 2'

# What is current, and what is not.
is "an edit of another crate" 0 "proved run: input" "" 'echo more >>crates/other/src/lib.rt; ./market run'
is "an edit" 0 "tried run: input" "$first $stale" 'echo more >>crates/low/src/lib.rt; ./market run'
is "an edit, --proved" 1 "" "market: $stale" './market --proved run'
is "an edit, serve" 1 "" "market: serve needs the proved program, since it reads a stream: $stale" './market serve'
is "an edit, no rt" 1 "" "market: there is no proved program to run, and no rt to try the sources: install the kit that kit.txt names" \
    'PATH="$folder/tools" ./market run'
is "put back" 0 "proved run: input" "" 'echo "a source" >crates/low/src/lib.rt; ./market run'
is "an older file in its place" 0 "tried run: input" "$first $stale" \
    'echo older >old; touch -d "1 year ago" old; cp -p old crates/high/src/lib.rt; ./market run'
is "put back again" 0 "proved run: input" "" 'cp crates/low/src/lib.rt crates/high/src/lib.rt; ./market run'
is "of the same size and date" 0 "tried run: input" "$first ${stale/.\//../../../}" \
    'cd crates/high/src; touch -r lib.rt ../date; echo "A source" >lib.rt; touch -r ../date lib.rt; ../../../market run'
echo "a source" >crates/high/src/lib.rt
is "a file gone" 0 "tried run: input" "$first $stale" 'mv crates/high/src/lib.rt old; ./market run'
is "a file back" 0 "proved run: input" "" 'mv old crates/high/src/lib.rt; ./market run'
is "a file more" 0 "tried run: input" "$first $stale" \
    'mkdir crates/high/specs; touch crates/high/specs/S.antt; ./market run'
is "a file less" 0 "proved run: input" "" 'rm -r crates/high/specs; ./market run'
is "a line of crates.txt for the kit" 0 "tried run: input" "$first $stale" \
    'sed -i "s/^low: kit/&s/" crates.txt; ./market run'
is "that line put back" 0 "proved run: input" "" 'sed -i "s/^low: kits/low: kit/" crates.txt; ./market run'
is "a line of crates.txt" 0 "tried run: input" "$first $stale" 'sed -i "s/^high: low/& other/" crates.txt; ./market run'
is "the line put back" 0 "proved run: input" "" 'sed -i "s/^high: low other/high: low/" crates.txt; ./market run'
is "a later date" 0 "proved run: input" "" 'touch crates/low/src/lib.rt crates/market/out/market; ./market run'
is "another program" 0 "tried run: input" "$first $other" \
    'cp crates/market/out/market old; cp -p program crates/market/out/market; echo "# more" >>crates/market/out/market; ./market run'
is "the program put back" 0 "proved run: input" "" 'cp old crates/market/out/market; ./market run'
is "a copy" 0 "proved run: input" "" 'cp -r . "$folder/copy"; cd "$folder/copy" && ./market --proved run'
is "a copy of what changed" 1 "" "market: $stale" \
    'echo more >>crates/high/src/lib.rt; cp -r . "$folder/other"; cd "$folder/other" && ./market --proved run'
echo "a source" >crates/high/src/lib.rt
cat >"$folder/git/sha256sum" <<'END_OF_SUM'
#!/usr/bin/env bash
"$TMPDIR/tools/sha256sum" "$@"
[ $# = 0 ] || echo "an edit" >>low/src/lib.rt
END_OF_SUM
chmod +x "$folder/git/sha256sum"
touch crates/low/src/lib.rt
is "an edit while it is summed" 1 "" "market: $stale" \
    'PATH="$folder/git:$PATH" ./market --proved run >/dev/null; ./market --proved run </dev/null'
rm "$folder/git/sha256sum"
echo "a source" >crates/low/src/lib.rt
is "nothing read if nothing changed" 0 "proved run: input" "" \
    './market demo 1 2 >/dev/null; rm "$folder/tools/cut"; cd checks && "$folder/link" demo 1 2 >/dev/null && ../market run'
ln -s "$(PATH="$kept" command -v cut)" "$folder/tools/cut"
is "a stamp that cannot be kept" 0 "proved demo 1 2: no input
proved run: input" "" 'touch crates/low/src/lib.rt; mv() { false; }; export -f mv; ./market demo 1 2; ./market run; unset -f mv'
is "a stamp for another sum" 1 "" "" '(. script/program.sh; write_stamp "$(sha256sum <old)")'
is "a stamp for no sum" 1 "" "" '(. script/program.sh; write_stamp "")'
is "a program without a stamp" 1 "" "market: $none" 'rm crates/market/out/proved; ./market --proved run'

# The gate, with a stand-in for checks/run.
printf '%s\n' '#!/usr/bin/env bash' '[ "$*" = all ] && ./market run <../input' >checks/run
chmod +x checks/run
is "the gate" 0 "proved run: input" "" 'forget; .ci/run'
is "the nodes behind the gate" 0 "live auctioneer: input" "" './market auctioneer'
is "the gate from elsewhere" 0 "proved run: input" "" 'forget; (cd / && "$top/.ci/run")'
is "a gate that fails" 3 "tried run: input" "$first $none" \
    'forget; echo 3 >ci-status; .ci/run; s=$?; rm ci-status; (exit $s)'
is "a gate that builds nothing" 0 "tried run: input" "$first $none" \
    'rm -f crates/market/out/proved; touch no-build; .ci/run; rm no-build'
is "an edit during the gate" 0 "tried run: input" \
    "market: the sources of market changed during the proof, so it does not count as proved
market: the sources of live changed during the proof, so it does not count as proved
market: the sources of over_links changed during the proof, so it does not count as proved
$first $none" 'forget; echo crates/low/src/lib.rt >meanwhile; .ci/run; rm meanwhile; echo "a source" >crates/low/src/lib.rt'
is "an edit of live during the gate" 0 "proved run: input" \
    "market: the sources of live changed during the proof, so it does not count as proved" \
    'forget; echo crates/live/src/lib.rt >meanwhile; .ci/run; rm meanwhile; echo "a source" >crates/live/src/lib.rt'
is "the gate by another kit" 0 "proved run: input" \
    "market: the kit at hand is kit-1, and kit.txt names kit-2: what follows holds by the kit at hand" \
    'sed -i s/kit-1/kit-2/ kit.txt; .ci/run; sed -i s/kit-2/kit-1/ kit.txt'
is "a check that fails" 4 "" "" 'echo exit 4 >checks/run; .ci/run'
mv checks/run.kept checks/run

# The runner of the checks.
is "the program's checks" 0 "crates/market/out/market" "" 'checks/run program | sed "s|$top/||g"'
is "of both builds" 0 "crates/market/out/market crates/market/out/market.by-rattle" "" \
    'touch crates/market/out/market.by-rattle; checks/run program | sed "s|$top/||g"'
is "of an older build" 0 "crates/market/out/market" "" \
    'touch -d "1 day ago" crates/market/out/market.by-rattle; checks/run program | sed "s|$top/||g"'
is "the program's checks prove first" 0 "no program is proved from the sources of today: ./market prove makes it first
crates/market/out/market" "$made" 'forget; checks/run program | sed "s|$top/||g"'
is "the program's checks without a proof" 1 "no program is proved from the sources of today: ./market prove makes it first
0 passed, 1 failed" "proves market
low is not proved
market: the program is not proved: mend what is named above, and run ./market prove again; it keeps what still holds" \
    'echo bad >crates/low/src/lib.rt; checks/run program; s=$?; echo "a source" >crates/low/src/lib.rt; (exit $s)'

is "another check without a proof" 1 "no program is proved from the sources of today: checks/run program proves it first
0 passed, 1 failed" "" 'forget; checks/run traces'
prove
is "the nodes' checks without a proof" 1 "live is not proved from the sources of today: ./market prove live proves it first
0 passed, 1 failed" "" 'checks/run live'
prove_live
is "the nodes' checks" 0 "crates/live/out/live crates/market/out/market all
1 passed, 0 failed
crates/live/out/live 1000
1 passed, 0 failed" "" '{ checks/run live all; checks/run network 1000; } | sed "s|$top/||g"'
is "the check of links without a proof" 1 "over_links is not proved from the sources of today: ./market prove over_links proves it first
0 passed, 1 failed" "" 'checks/run links'
prove_links
is "the check of links" 0 "crates/over_links/out/over_links
1 passed, 0 failed" "" 'checks/run links | sed "s|$top/||g"'
is "the list" 0 "$all" "" 'echo $(checks/run | cut -d " " -f 1)'
is "the list says how long and why" 0 "$(set -- $all; echo $#)" "" 'checks/run | grep -cE "^[a-z]+ +([0-9]+|some) s +(quick|program|proof) +[A-Z].*[?]$"'
is "no such check" 2 "" "no check has the name rum: checks/run lists them" 'checks/run rum'
is "all of something" 2 "" "checks/run all takes no arguments; checks/run NAME may" 'checks/run all traces'
is "a check with arguments" 0 "crates/market/out/market all 10
1 passed, 0 failed" "" 'checks/run hostile all 10 | sed "s|$top/||g"'
is "a check from elsewhere" 0 "check
1 passed, 0 failed" "" '(cd / && "$top/checks/run" definitions)'
is "an argument in place of its own" 0 "--log file
1 passed, 0 failed" "" 'checks/run edits --log file'
is "no python3" 1 "there is no python3, which every check needs: kit.txt names the packages
0 passed, 1 failed" "" 'mv "$folder/tools/python3" "$folder"; checks/run names; s=$?; mv "$folder/python3" "$folder/tools"; (exit $s)'
stub cases
# Prints what a check writes.
due_of() {
    case "$1" in
        program | traces | serve | hostile) echo crates/market/out/market ;;
        links) echo crates/over_links/out/over_links ;;
        memory) echo crates/market/out/market crates/live/out/live ;;
        live) echo crates/live/out/live crates/market/out/market ;;
        network) echo crates/live/out/live ;;
        python | pages | site | schema | pictures | names | places) echo ;;
        definitions) echo check ;;
        edits) echo --self-test ;;
        script | install | prebuilt) ;;
    esac
    echo "1 passed, 0 failed"
}
is "all checks" 0 "$(for name in $all; do echo "checks/run $name"; due_of "$name"; done)" "" \
    'checks/run all >wrote; s=$?; sed "s|$top/||g" wrote; (exit $s)'
is "all checks, one fails" 3 "these checks failed: serve (status 3)" "" \
    'echo "print(\"0 passed, 1 failed\"); raise SystemExit(3)" >checks/drive/serve.py; checks/run all >wrote; s=$?; tail -n 1 wrote; (exit $s)'
is "and the others are run" 0 "$(for name in $all; do echo "checks/run $name"; done)" "" 'grep "^checks/run" wrote'
is "all checks, one is killed" 137 "these checks failed: serve (status 3) memory (status 137)" "" \
    'echo "import os; os.kill(os.getpid(), 9)" >checks/drive/memory.py; checks/run all >wrote 2>/dev/null; s=$?; tail -n 1 wrote; (exit $s)'
stub serve memory
is "all checks, one stops without its last line" 1 "these checks failed: names (status 1)" "" \
    'echo "print(\"5 passed\")" >checks/lint/names.py; checks/run all >wrote; s=$?; tail -n 1 wrote; (exit $s)'
is "all checks, one counts a failure and hides it" 1 "these checks failed: names (status 1)" "" \
    'echo "print(\"5 passed, 1 failed\")" >checks/lint/names.py; checks/run all >wrote; s=$?; tail -n 1 wrote; (exit $s)'
is "all checks, one is gone" 1 "these checks failed: names (status 1) edits (status 1)" "" \
    'rm checks/lint/edits.py; checks/run all >wrote 2>/dev/null; s=$?; tail -n 1 wrote; (exit $s)'
stub names edits

# Prebuilt programs, which a gate elsewhere proved from these sources.
echo "a source" >crates/other/src/lib.rt
prove
prove_live
is "make prebuilt" 0 "prebuilt/x86_64-linux/market is the proved program: commit it with its stamp
prebuilt/x86_64-linux/live is the proved program: commit it with its stamp" "" 'bash packaging/prebuilt.sh'
place=prebuilt/x86_64-linux
today="$(date +%Y-%m-%d)"
is "the stamps say how they were built" 0 "sources program kit linker libc date
sources program kit linker libc date" "" 'for name in market live; do echo $(cut -d : -f 1 $place/$name.stamp); done'
forget
is "make prebuilt without a proof" 1 "" "make: no program market was proved here from these sources: run \`make prove\` or the gate first" \
    'bash packaging/prebuilt.sh'
cp -r prebuilt "$folder/prebuilt"
put_back() { rm -r prebuilt; cp -r "$folder/prebuilt" prebuilt; }
alone='PATH="$folder/tools";'
is "a fresh clone without rt, all commands" 0 "$(for name in run trace bill free check ask serve; do echo "proved $name: input"; done)
proved demo 1 2: no input
live relay 3 -1000 1000: input
live auctioneer: input
live device 2: input" "" "$alone"' for words in run trace bill free check ask serve "demo 1 2" "relay 3 -1000 1000" auctioneer "device 2"; do
    ./market $words <../input || exit 1; done'
is "the version, prebuilt" 0 "market 1.2.3
a prebuilt program is at hand, proved by the gate elsewhere on $today with kit-1
a prebuilt program live is at hand, proved by the gate elsewhere on $today with kit-1" "" "$alone"' ./market version'
is "the version, prebuilt, for programs" 0 "market	elsewhere	$place/market	a prebuilt program is at hand, proved by the gate elsewhere on $today with kit-1
live	elsewhere	$place/live	a prebuilt program live is at hand, proved by the gate elsewhere on $today with kit-1" "" \
    "$alone"' ./market version --porcelain | sed "s|$top/||g"'
is "the help, prebuilt" 0 "Program: proved by the gate elsewhere on $today with kit-1" "" './market help | tail -n 1'
is "nothing is read again" 0 "proved run: input" "" 'sleep 0.06; ./market demo 1 2 >/dev/null; rm "$folder/tools/cut"; ./market run'
ln -s "$(PATH="$kept" command -v cut)" "$folder/tools/cut"
is "what was found cannot be kept" 0 "proved run: input" "" 'rm -r crates/market/out; mv() { false; }; export -f mv; ./market run'
is "prebuilt is not proved here" 1 "" "market: $none" './market --proved run'
is "nor is the program of the nodes" 1 "" "market: device needs the proved program live, since it reads a stream: $none_live" \
    './market --proved device 2'
is "another source" 0 "tried run: input" "$first $none" 'echo more >>crates/low/src/lib.rt; ./market run'
is "another source, serve" 1 "" "market: serve needs the proved program, since it reads a stream: $none" './market serve'
is "another source, for programs" 0 "market	nowhere		${none/market: /}
live	nowhere		$none_live" "" './market version --porcelain'
is "another source, without rt" 1 "" \
    "market: there is no proved program to run, and no rt to try the sources: install the kit that kit.txt names" "$alone"' ./market run'
is "the source put back" 0 "proved run: input" "" 'echo "a source" >crates/low/src/lib.rt; ./market run'
is "another source of the nodes" 1 "" "market: auctioneer needs the proved program live, since it reads a stream: $none_live" \
    'echo more >>crates/other/src/lib.rt; ./market auctioneer; s=$?; echo "a source" >crates/other/src/lib.rt; (exit $s)'
others="market: the prebuilt program market is not the one of its stamp: git checkout prebuilt brings that back"
is "another byte" 0 "tried run: input" "$others
$first $none" 'sed -i "s/input/Input/" $place/market; ./market run; put_back'
is "a stamp with another sum" 0 "tried run: input" "$others
$first $none" 'sed -i "s/^program: ./program: x/" $place/market.stamp; ./market run; put_back'
is "a stamp of other sources" 0 "tried run: input" "$first $none" 'sed -i "s/^sources: ./sources: x/" $place/market.stamp; ./market run; put_back'
is "another system" 0 "tried run: input" "market: the prebuilt program market is for x86-64 Linux, and this is Linux aarch64
$first $none" 'uname() { echo Linux aarch64; }; export -f uname; ./market run'
is "an older C library" 1 "" "market: the prebuilt program live needs glibc 2.34 or newer, and here is glibc 2.31
market: device needs the proved program live, since it reads a stream: $none_live" \
    'sed -i "s/^libc:.*/libc: 2.34/" $place/live.stamp; getconf() { echo glibc 2.31; }; export -f getconf; ./market device 2'
is "another C library" 0 "no proved program live is at hand: $none_live" \
    "market: the prebuilt program live needs glibc 2.34 or newer, and here is none" 'getconf() { false; }; export -f getconf; ./market version | tail -n 1'
is "a newer C library" 0 "live device 2: input" "" 'getconf() { echo glibc 3.1; }; export -f getconf; ./market device 2; put_back'
is "by the prebuilt program" 0 "by the prebuilt program market, proved by the gate elsewhere on $today with kit-1
$place/market
1 passed, 0 failed" "" "$alone"' checks/run traces | sed "s|$top/||g"'
is "but not in the gate" 1 "no program is proved from the sources of today: checks/run program proves it first" "" \
    "$alone"' checks/run all >wrote 2>/dev/null; s=$?; sed -n "/^checks.run traces/{n;p}" wrote; (exit $s)'
quick="program script install python pages site schema pictures names places definitions edits"
forget
is "the quick checks without rt" 0 "$(for name in $quick; do echo "checks/run $name"; done)" "" "$alone"' checks/run quick >wrote; s=$?; grep "^checks/run" wrote; (exit $s)'
is "quick of something" 2 "" "checks/run quick takes no arguments; checks/run NAME may" 'checks/run quick traces'

# The gate's check of them.
cp "$repository/checks/drive/prebuilt.sh" checks/drive/prebuilt.sh
remedy="\`make prebuilt\` puts the program there that was proved here"
is "no proof to compare with" 1 "no program market is proved from the sources of today: \`make prove\` or the gate proves it first
no program live is proved from the sources of today: \`make prove\` or the gate proves it first
0 passed, 2 failed" "" 'checks/run prebuilt'
prove
prove_live
is "proved here goes first" 0 "a proved program is at hand, proved here on $today with kit-1" "" './market version | grep "a .* program is"'
is "the prebuilt are the built" 0 "2 passed, 0 failed" "" 'checks/run prebuilt'
# refused NAME WHY COMMAND: whether the check refuses what the command does to the prebuilt programs.
refused() {
    is "$1" 1 "the prebuilt $2: $remedy
1 passed, 1 failed" "" "$3; checks/run prebuilt; s=\$?; put_back; (exit \$s)"
}
refused "one byte" "market is not the program of its stamp" 'sed -i "s/input/Input/" $place/market'
refused "another sum" "live is not the program of its stamp" 'sed -i "s/^program: ./program: x/" $place/live.stamp'
refused "other sources" "market was proved from other sources, by its stamp" 'sed -i "s/^sources: ./sources: x/" $place/market.stamp'
refused "another program with its sum" "live has other bytes than the sources give" \
    'echo "# more" >>$place/live; sed -i "s/^program:.*/program: $(sha256sum <$place/live | cut -d " " -f 1)/" $place/live.stamp'
refused "another kit" "market is by kit-2, and kit.txt names kit-1" 'sed -i "s/^kit: kit-1/kit: kit-2/" $place/market.stamp'
refused "another build of the kit" "live has a stamp of another kit, linker or C library than built it" 'sed -i "s/ of today/ of old/" $place/live.stamp'
is "none" 1 "there is no prebuilt market with a stamp: $remedy
there is no prebuilt live with a stamp: $remedy
0 passed, 2 failed" "" 'rm -r prebuilt; checks/run prebuilt; s=$?; cp -r "$folder/prebuilt" prebuilt; (exit $s)'
otherwise="the kit at hand is kit-1 of today, and built other bytes than kit-2 would: what the prebuilt"
sed -i s/kit-1/kit-2/ kit.txt $place/*.stamp
is "what they write, by another kit" 0 "$otherwise market writes is compared
$otherwise live writes is compared
2 passed, 0 failed" "" 'echo "# other bytes" >>crates/market/out/market; sed -i "s/^program:.*/program: $(sha256sum <crates/market/out/market | cut -d " " -f 1)/" crates/market/out/proved
    checks/run prebuilt'
is "what one writes is wrong" 1 "$otherwise market writes is compared
0 passed, 1 failed
the prebuilt market does not write what it should: $remedy
$otherwise live writes is compared
1 passed, 1 failed" "" 'echo "print(\"0 passed, 1 failed\")" >checks/drive/cases.py; checks/run prebuilt'
sed -i s/kit-2/kit-1/ kit.txt
rm -r prebuilt "$folder/prebuilt"

# The order of proofs, and the range of minutes that pages name.
is "the order of the proofs" 0 "13 passed, 0 failed" "" 'cd "$repository"; PYTHONDONTWRITEBYTECODE=1 python3 -m checks.drive.proving | tail -n 1'
is "the minutes of a proof on each page" 0 "" "" 'range="$(. script/program.sh; minutes_to_prove)"; cd "$repository"
    grep -L "$range" README.md docs/COMMANDS.md packaging/help/market.1 Makefile'

# Help and versions, with nothing but the script.
forget
bare='PATH="$folder/tools"; cd /;'
help="$(./market help)"
is "the help" 0 "$help" "" "$bare"' "$top/market" help | sed "s|$absolute|.|g; s|${absolute//\\/\\\\}|.|g"'
is "--help" 0 "$help" "" './market --help'
is "-h" 0 "$help" "" './market -h'
is "by a link, the help" 0 "${help//.\/market C/$folder\/link C}" "" "$bare"' "$folder/link" help'
is "nothing" 2 "$help" "" './market'
is "the help's size" 0 "" "" 'awk "length > 80 || NR > 45" <<<"$help"'
is "the help names all" 0 "run trace bill free check ask serve demo relay auctioneer device help version prove --proved --unproved 0 1 2 3 4 5 6 7 8 " "" \
    'awk "/^  [-a-z0-9]/ { printf \"%s \", \$1 }" <<<"$help"'
is "the help when installed" 0 "run trace bill free check ask serve demo relay auctioneer device help version 0 1 2 3 4 5 6 7 8 More: man market " "" \
    '(called=market pages="man market" installed=yes; . script/words.sh; help_text) |
        awk "/^  [-a-z0-9]/ { printf \"%s \", \$1 } /^More/ { printf \"%s \", \$0 } /prove/ { print }"'
is "the codes" 0 "$(echo {1..25})" "" 'echo $(./market help refusals | awk "\$1 ~ /^[0-9]+\$/ { print \$1 }")'
is "the codes of the page" 0 "$(echo {1..20} 22 23 25)" "" \
    'echo $(sed -n "s/^| .refused \([0-9]*\) .*/\1/p" "$repository/docs/CLUSTER_FILE.md")'
is "one code" 0 "refused 9: $parent
What to do: name auctioneer or an earlier concentrator
More: docs/CLUSTER_FILE.md" "" "$bare"' "$top/market" help 9'
is "each code whole" 0 75 "" '(. script/words.sh; for code in {1..25}; do help_refusal "$code"; done) |
    grep -cE "^(refused [0-9]+|What to do|More): .+"'
is "no such code" 2 "" "market: there is no help on 26: ./market help lists the commands, ./market help refusals the codes" \
    './market help 26'
is "one status" 0 "status 6: standard output did not take the whole text (full disk, closed pipe)
What to do: look whether the disk is full or the reader has gone
More: docs/CLUSTER_FILE.md" "" "$bare"' "$top/market" help status 6'
is "each status whole" 0 27 "" '(. script/words.sh; for code in {0..8}; do help_status "$code"; done) |
    grep -cE "^(status [0-9]|What to do|More): .+"'
is "no such status" 2 "" "market: there is no exit status 9: ./market help lists them" './market help status 9'
is "the help of a node" 0 "$help" "" './market help relay'
is "the help of the other nodes" 0 "$help
$help" "" './market help auctioneer; ./market help device'
is "the version" 0 "market 1.2.3
no proved program is at hand: $none
no proved program live is at hand: $none_live" "" './market version'
is "the version, bare" 0 "market 1.2.3" "" "$bare"' "$top/market" --version | head -n 1'
rm -rf "$folder/copy" "$folder/other"
{
    git() { "$folder/git/git" -c user.name=a -c user.email=b "$@"; }
    git init -q . && git add market VERSION crates && git commit -qm "A commit"
    commit="$(git rev-parse --short HEAD)"
    unset -f git
} >/dev/null 2>&1
with_git='PATH="$folder/git:$PATH";'
is "a commit" 0 "market 1.2.3 ($commit)" "" "$with_git"' touch VERSION; ./market version | head -n 1'
is "an edit of a commit" 0 "market 1.2.3 ($commit-modified)" "" "$with_git"' echo 1.2.3 >old; echo >>old; cp old VERSION; ./market version | head -n 1'
is "without git" 0 "market 1.2.3" "" './market version | head -n 1'
prove
is "the version, proved" 0 "a proved program is at hand, proved here on $(date +%Y-%m-%d) with kit-1
no proved program live is at hand: $none_live" "" './market version | tail -n 2'
prove_live
is "the version, both proved" 0 "a proved program is at hand, proved here on $(date +%Y-%m-%d) with kit-1
a proved program live is at hand, proved here on $(date +%Y-%m-%d) with kit-1" "" './market version | tail -n 2'
echo more >>crates/low/src/lib.rt
is "the version, changed" 0 "no proved program is at hand: $stale
no proved program live is at hand: $stale_live" "" './market version | tail -n 2'
echo "$passed passed, $failed failed"
[ "$failed" = 0 ]
