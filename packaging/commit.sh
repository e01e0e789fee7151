#!/usr/bin/env bash
# Prints the commit of these sources: of a clone by git, with `-modified` behind it if files were changed; of a release by the
# file COMMIT, which git archive filled in.
cd "$(dirname "$0")/.." || exit 1

# Also if another user than the owner of the clone installs, as root does.
ask_git() {
    git -c safe.directory="$PWD" "$@" 2>/dev/null
}

if [ -e .git ] && commit="$(ask_git rev-parse --short HEAD)"; then
    [ -z "$(GIT_OPTIONAL_LOCKS=0 ask_git status --porcelain --untracked-files=no)" ] || commit="$commit-modified"
else
    commit="$(head -c 7 COMMIT)"
    case "$commit" in *[!0-9a-f]* | '') commit=unknown ;; esac
fi
echo "$commit"
