#!/usr/bin/env bash
# Packs the committed sources into the archive that is named, below a folder of the same name. git archive writes the commit into
# the file COMMIT, and the same commit gives the same bytes.
#   bash packaging/dist.sh build/market-VERSION.tar.gz
set -euo pipefail
cd "$(dirname "$0")/.."
if ! git rev-parse --verify --quiet HEAD >/dev/null 2>&1 || ! [ -e .git ]; then
    echo "make: a release is packed from a clone by git, and there is no commit here: clone the repository first" >&2
    exit 1
fi
if [ -n "$(git status --porcelain)" ]; then
    echo "make: what is not committed is left out: git status lists it" >&2
fi
if [ "$(git show HEAD:VERSION)" != "$(cat VERSION)" ]; then
    echo "make: VERSION was changed and not committed: commit it first" >&2
    exit 1
fi
mkdir -p "$(dirname "$1")"
name="$(basename "$1" .tar.gz)"
git archive --format=tar --prefix="$name/" HEAD | gzip -9n >"$1"
echo "$1 holds commit $(git rev-parse HEAD)"
