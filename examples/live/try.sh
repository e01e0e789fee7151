#!/usr/bin/env bash
# Runs the market of TREE.toml on this machine: a broker with TLS, logins and rights, an auctioneer, a relay and two devices. Prints
# the setpoints, and what the nodes say.
#
#     bash try.sh COGMAULA ..
#
# The words are the command line of the package, such as `cogmaula`, or `python3 -m cogmaula` beside a checkout. COGMAULA_LIVE names
# the program live, unless the installed command does. It needs Debian's mosquitto, mosquitto-clients, openssl and python3-paho-mqtt.
set -euo pipefail
here="$(cd "$(dirname "$0")" && pwd)"
PATH="$PATH:/usr/sbin"
[ $# != 0 ] || set -- cogmaula
work="$(mktemp -d)"
started=()

finish() {
    for one in "${started[@]}"; do kill "$one" 2>/dev/null || true; done
    for one in "${started[@]}"; do wait "$one" || true; done
    rm -rf "$work"
}
trap finish EXIT

# Waits until a file has so many lines.
wait_for_lines() {
    local one
    for _ in $(seq 600); do
        [ "$(wc -l <"$1")" -lt "$2" ] || return 0
        for one in "${started[@]}"; do
            kill -0 "$one" 2>/dev/null || break 2
        done
        sleep 0.1
    done
    echo "$1 has no $2 lines: a minute is over, or the broker or a node has ended" >&2
    cat "$work"/*.said >&2
    exit 1
}

port="$(python3 -c 'import socket; one = socket.socket(); one.bind(("127.0.0.1", 0)); print(one.getsockname()[1])')"
market="$work/market"
"$@" market init "$here/TREE.toml" --out "$market" --here "$port" >/dev/null
mosquitto -c "$market/broker/mosquitto.conf" >"$work/broker.said" 2>&1 &
started+=($!)

# The house's input comes from a pipe that stays open.
mkfifo "$work/house.offers"
exec 3<>"$work/house.offers"
"$@" node auctioneer --config "$market/auctioneer/auctioneer.toml" 2>"$work/auctioneer.said" &
started+=($!)
"$@" node relay --config "$market/street/street.toml" 2>"$work/street.said" &
started+=($!)
"$@" node device --config "$market/house/house.toml" <&3 >"$work/house.out" 2>"$work/house.said" &
started+=($!)
"$@" node device --config "$market/store/store.toml" </dev/null >"$work/store.out" 2>"$work/store.said" &
started+=($!)

# The house offers at its standard input. The control of the store offers by a topic.
echo '{"power": [100, 100, 100, 100, 100, 100, 100, 100, 100, 100]}' >&3
for _ in $(seq 100); do
    XDG_CONFIG_HOME="$market/store.control" mosquitto_pub -r -t market/store/offer -m '{"power": [0, 0, 0, 0, -150, -150, -150, -150, -150, -150]}' && break
    sleep 0.2
done
wait_for_lines "$work/house.out" 1
wait_for_lines "$work/store.out" 1
before="$(wc -l <"$work/store.out")"
echo '{"power": [200, 200, 200, 200, 200, 200, 200, 200, 100, 100]}' >&3
wait_for_lines "$work/store.out" $((before + 1))
sleep 1
for name in house store; do sed "s/^/$name /" "$work/$name.out"; done
cat "$work"/*.said | grep '^cogmaula' || true
