#!/bin/sh
# Made by `cogmaula market`. Moves the database of mosquitto aside if mosquitto cannot read it: with a bad one
# the broker does not start. Without one it starts empty, and the nodes publish anew what they have.
#
#     sh check_database.sh [DATABASE]
#
# mosquitto itself is asked, by a copy, in a folder of its own, without a port.
database="${1:-/var/lib/mosquitto/mosquitto.db}"
[ -e "$database" ] || exit 0
PATH="$PATH:/usr/sbin"
work="$(mktemp -d)" || exit 0
trap 'rm -rf "$work"' EXIT
cp "$database" "$work/mosquitto.db" || exit 0
{
    echo "listener 0 $work/socket"
    echo "allow_anonymous false"
    echo "persistence true"
    echo "persistence_location $work/"
    # mosquitto gives up root, and this folder is its own alone.
    [ "$(id -u)" != 0 ] || echo "user root"
} >"$work/configuration"
# There before mosquitto is.
: >"$work/said"
mosquitto -v -c "$work/configuration" >"$work/said" 2>&1 &
broker=$!
turns=0
while kill -0 "$broker" 2>/dev/null && ! grep -q ' running$' "$work/said" && [ "$turns" -lt 300 ]; do
    sleep 0.1
    turns=$((turns + 1))
done
if kill -9 "$broker" 2>/dev/null; then
    exit 0
fi
# It may have ended for another reason, which its own start will say.
grep -q "Couldn't open database" "$work/said" || exit 0
aside="$database.bad.$(date +%s)"
mv "$database" "$aside" && echo "mosquitto cannot read $database: it is now $aside, and the broker starts empty" >&2
