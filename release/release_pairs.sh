#!/usr/bin/env bash
# Drives each adapter over every other: release/pairs is laid over the program release/scripts, which is built, without a
# proof, and run, in three parts, since one build of all would take more memory than a machine has:
#
#     release/release_pairs.sh [PART..]
#
#     library   the adapters of fallible_iterator over those of fallible_iterator
#     above     those of fallible_itertools over those of fallible_iterator
#     below     all over those of fallible_itertools
#
# With names of parts it runs these alone. It prints a line for each adapter below, and each mismatch. The status is 0
# where each part prints what release/pairs/PART.stdout says.
set -eu
. "$(dirname "$0")/../tools/usage.sh"
cd "$(dirname "$0")/.."
top=$PWD
copy=$(mktemp -d)
trap 'rm -rf "$copy"' EXIT
status=0
[ $# -gt 0 ] || set -- library above below
for part in "$@"; do
    mkdir "$copy/$part"
    tools/lay.sh "$copy/$part" scripts
    cd "$copy/$part/crates/scripts"
    for file in "$copy/$part"/release/pairs/*.rt.txt; do
        cp "$file" "src/$(basename "$file" .txt)"
    done
    mv "src/$part.rt" src/main.rt
    # What the program does not name is a file that no build reads, which the toolchain refuses.
    for file in src/*.rt; do
        name=$(basename "$file" .rt)
        [ "$name" = main ] || grep -qx "mod $name;" src/main.rt || rm "$file"
    done
    rt try --steps 1 --seconds 3600 >"$copy/printed" 2>"$copy/told" || cat "$copy/told"
    cat "$copy/printed"
    cmp "$copy/printed" "$copy/$part/release/pairs/$part.stdout" || status=1
    cd "$top"
done
exit $status
