#!/usr/bin/env bash
# An agent of one device over TCP, by socat: prints all that the hub tells, and bids what is typed.
#
#     bash agent.sh 127.0.0.1:8444 store TOKEN-FILE [CA]
#
# With the file of a CA it connects by TLS. A line that you type is a bid, such as
#     {"bidUpdate": {"bidNumber": 1, "pricePoints": [{"price": 3, "demand": 0}, {"price": 4, "demand": -150}]}}
# The hub lets an agent go that bids nothing for five minutes: type the bid again.
set -euo pipefail
address="TCP:$1"
[ $# -lt 4 ] || address="OPENSSL:$1,cafile=$4,openssl-min-proto-version=TLS1.2"
{
    printf '{"agentId": "%s", "token": "%s"}\n' "$2" "$(cat "$3")"
    cat
} | socat -t 1 - "$address"
