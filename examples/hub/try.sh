#!/usr/bin/env bash
# Runs the example on this machine: a hub with TLS, an agent in Python by WebSocket and one by socat over TCP. Prints what they are
# told, and what the hub says.
#
#     bash try.sh COGMAULA ..
#
# The words are the command line of the package, such as `cogmaula`, or `/usr/bin/python3 -m cogmaula` beside a checkout. COGMAULA_LIVE
# names the program live, unless the installed command does. It needs Debian's openssl, socat and python3-websockets.
set -euo pipefail
here="$(cd "$(dirname "$0")" && pwd)"
[ $# != 0 ] || set -- cogmaula
work="$(mktemp -d)"
started=()

finish() {
    for one in "${started[@]}"; do kill "$one" 2>/dev/null || true; done
    for one in "${started[@]}"; do wait "$one" 2>/dev/null || true; done
    rm -rf "$work"
}
trap finish EXIT

# Whether all that was started still runs.
all_run() {
    for one in "${started[@]}"; do kill -0 "$one" 2>/dev/null || return 1; done
}

# Waits until a file has a word, and not once a part has ended.
wait_for() {
    for _ in $(seq 600); do
        ! grep -q "$2" "$1" 2>/dev/null || return 0
        all_run || break
        sleep 0.1
    done
    echo "$1 has no $2, after a minute or since a part has ended" >&2
    cat "$work"/*.said >&2
    exit 1
}

port() { python3 -c 'import socket; one = socket.socket(); one.bind(("127.0.0.1", 0)); print(one.getsockname()[1])'; }
websocket="$(port)" tcp="$(port)"
sed "s#/etc/market#$work#; s#/var/lib/market-hub#$work/state#; s#0\.0\.0\.0:8443#127.0.0.1:$websocket#; s#127\.0\.0\.1:8444#127.0.0.1:$tcp#" \
    "$here/hub.toml" >"$work/hub.toml"
openssl req -x509 -newkey ec -pkeyopt ec_paramgen_curve:P-256 -nodes -days 30 -subj /CN=127.0.0.1 -addext subjectAltName=IP:127.0.0.1 \
    -keyout "$work/hub.key" -out "$work/hub.crt" 2>/dev/null
"$@" hub --config "$work/hub.toml" --new-tokens - --into "$work" <<<$'house 1\nstore 2' >/dev/null

"$@" hub --config "$work/hub.toml" 2>"$work/hub.said" &
started+=($!)
wait_for "$work/hub.said" "for TCP"

/usr/bin/python3 "$here/agent.py" "wss://127.0.0.1:$websocket" house "$work/house.token" "$work/hub.crt" \
    200 200 200 200 200 200 200 200 100 100 >"$work/house.out" 2>"$work/house.said" &
started+=($!)
wait_for "$work/house.out" "price 9"
# The agent of the store reads its bids from a pipe that stays open.
mkfifo "$work/store.bids"
bash "$here/agent.sh" "127.0.0.1:$tcp" store "$work/store.token" "$work/hub.crt" <"$work/store.bids" >"$work/store.out" 2>"$work/store.said" &
started+=($!)
exec 3>"$work/store.bids"
echo '{"bidUpdate": {"bidNumber": 1, "pricePoints": [{"price": 3, "demand": 0}, {"price": 4, "demand": -250}]}}' >&3
wait_for "$work/house.out" "price 4"
wait_for "$work/store.out" '"price": 4'
echo '{"bidUpdate": {"bidNumber": 2, "pricePoints": [{"price": 3, "demand": 0}, {"price": 4, "demand": -150}]}}' >&3
wait_for "$work/house.out" "price 8"
wait_for "$work/store.out" '"price": 8'
exec 3>&-
for name in house store; do sed "s/^/$name /" "$work/$name.out"; done
sed 's/^/said: /' "$work/hub.said"
