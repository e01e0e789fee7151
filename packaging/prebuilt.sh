#!/usr/bin/env bash
# Puts the programs that were proved here into prebuilt/, each with its stamp, for whoever has no kit. `make prebuilt` runs it.
set -euo pipefail
cd "$(dirname "$0")/.."
# What script/program.sh goes by.
top="$PWD"
# shellcheck source=script/program.sh
. script/program.sh
# shellcheck source=script/prebuilt.sh
. script/prebuilt.sh

if [ "$(uname -sm)" != "Linux x86_64" ]; then
    echo "make: the prebuilt programs are for x86-64 Linux, and this is $(uname -sm)" >&2
    exit 1
fi
for name in market live; do
    choose_program "$name"
    if ! is_current; then
        echo "make: no program $name was proved here from these sources: run \`make prove\` or the gate first" >&2
        exit 1
    fi
done
for name in market live; do
    choose_program "$name"
    put_prebuilt
    echo "prebuilt/x86_64-linux/$name is the proved program: commit it with its stamp"
done
# The bill of materials has their hashes.
[ ! -e packaging/sbom.py ] || python3 packaging/sbom.py
