#!/usr/bin/env bash
# Compares what names the version and the toolchain: the first heading of CHANGELOG.md with VERSION, README.md and the
# toolchain that runs with KIT, and the tags with VERSION, which none may have yet. It prints each difference, and ends
# with status 1 where there is one.
#
#     release/version.sh
set -u
. "$(dirname "$0")/../tools/usage.sh"
cd "$(dirname "$0")/.."
version=$(cat VERSION)
kit=$(cat KIT)
differ=0

# Tells of a difference.
tell() {
    differ=$((differ + 1))
    echo "$1"
}

newest=$(sed -n 's/^## //p' CHANGELOG.md | head -1)
[ "$newest" = "$version" ] || tell "CHANGELOG.md begins with '$newest', and VERSION is '$version'"
[ "$(rt version)" = "$kit" ] || tell "rt version is '$(rt version)', and KIT is '$kit'"
grep -qF "$kit" README.md || tell "README.md doesn't name '$kit'"
[ -z "$(git tag -l "v$version")" ] || tell "there is a tag v$version already"
[ -z "$(git status --porcelain)" ] || tell "something is uncommitted"
echo "version $version, $kit: $differ differences"
[ "$differ" = 0 ]
