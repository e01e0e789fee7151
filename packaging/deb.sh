#!/usr/bin/env bash
# Builds a Debian package of the proved programs, from what `make install` puts into a folder. The same sources and the same programs
# give the same bytes: all times are that of the release.
#   bash packaging/deb.sh build/market_VERSION_amd64.deb
set -euo pipefail
cd "$(dirname "$0")/.."
umask 022
for tool in dpkg-deb dpkg-shlibdeps strip; do
    if ! command -v "$tool" >/dev/null; then
        echo "make: there is no $tool: install the packages that kit.txt names" >&2
        exit 1
    fi
done
version="$(cat VERSION)"
work="$(mktemp -d)"
trap 'rm -rf "$work"' EXIT
root="$work/root"
docs="$root/usr/share/doc/market"

# The day of the release stands in the changelog's heading.
day="$(awk -v head="## [$version] - " 'index($0, head) == 1 { print substr($0, length(head) + 1) }' CHANGELOG.md)"
if [ -z "$day" ]; then
    echo "make: CHANGELOG.md has no heading '## [$version] - YEAR-MONTH-DAY': add it, as CITATION.cff has the day" >&2
    exit 1
fi
SOURCE_DATE_EPOCH="$(date -u -d "$day" +%s)"
export SOURCE_DATE_EPOCH

# Installs as everybody does, and then does what only a package does.
stage() {
    mkdir "$root"
    env -u MAKEFLAGS -u MAKELEVEL make --no-print-directory install DESTDIR="$root" PREFIX=/usr \
        zshcompletiondir=/usr/share/zsh/vendor-completions
    # The package manager keeps a list of its own.
    rm "$root/usr/share/market/installed"
    # The licence is on each Debian system.
    rm "$docs/LICENSE"
    strip_program market
    strip_program live
    cp packaging/copyright "$docs/copyright"
    chmod 644 "$docs/copyright"
    write_changelog | gzip -9n >"$docs/changelog.gz"
    gzip -9n "$root"/usr/share/man/man1/*.1
}

# Takes the names out of a program, and says so in its stamp.
strip_program() {
    local program="$root/usr/libexec/market/$1"
    strip --strip-unneeded "$program"
    echo "stripped: $(sha256sum <"$program" | cut -d ' ' -f 1)" >>"$root/usr/share/market/$1.stamp"
}

write_changelog() {
    printf 'market (%s) unstable; urgency=medium\n\n  * Release %s: see CHANGELOG.md.\n\n' "$version" "$version"
    printf ' -- %s  %s\n' "$(awk -F ': ' '/^Maintainer: / { print $2 }' packaging/control)" "$(LC_ALL=C date -u -d "$day" -R)"
}

# Which packages hold the libraries that the programs load.
list_depends() {
    mkdir -p "$work/source/debian"
    printf 'Source: market\n\nPackage: market\nArchitecture: any\n' >"$work/source/debian/control"
    (cd "$work/source" && dpkg-shlibdeps -O "$root/usr/libexec/market/market" "$root/usr/libexec/market/live" 2>"$work/told") >"$work/depends" || {
        cat "$work/told" >&2
        return 1
    }
    awk -F '=' '/^shlibs:Depends=/ { print substr($0, index($0, "=") + 1) }' "$work/depends"
}

write_control() {
    mkdir "$root/DEBIAN"
    local text size depends
    size="$(du -k --apparent-size -s "$root/usr" | cut -f 1)"
    depends="$(list_depends)"
    text="$(cat packaging/control)"
    text="${text//@version@/"$version"}"
    text="${text//@size@/"$size"}"
    printf '%s\n' "${text//@depends@/"$depends"}" >"$root/DEBIAN/control"
    (cd "$root" && find usr -type f -print0 | LC_ALL=C sort -z | xargs -0 md5sum) >"$root/DEBIAN/md5sums"
}

stage
write_control
mkdir -p "$(dirname "$1")"
dpkg-deb --root-owner-group --build "$root" "$1" >/dev/null
echo "$1 is built"
