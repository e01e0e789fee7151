#!/usr/bin/env bash
# Runs the installed program on the village and as a node, and compares what it writes byte for byte; `make` says where it is
# installed.
# shellcheck disable=SC2154 # make gives the places
cd "$(dirname "$0")/.." || exit 1
program="$DESTDIR$bindir/market"
if ! [ -x "$program" ]; then
    echo "make: nothing is installed there: $program is missing; give the PREFIX and the DESTDIR of the install" >&2
    exit 1
fi
if ! "$program" run <examples/village.json | cmp - examples/village.txt; then
    echo "make: $program does not give the text of examples/village.txt: install it again" >&2
    exit 1
fi
# A Hello and a Clear. Nothing is there to clear, which the frame 6 says.
if ! printf '\1\0\0\0\0\0\0\0\11\0\2\4' | "$program" auctioneer | cmp - <(printf '\6'); then
    echo "make: $program is no auctioneer: install it again" >&2
    exit 1
fi
echo "$program gives the text of the village, and is an auctioneer"
