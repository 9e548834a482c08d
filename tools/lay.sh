#!/usr/bin/env bash
# Copies the files of the working tree, without what git ignores, to COPY, and lays the crates that are named into it:
#
#     tools/lay.sh COPY NAME..
#
# `tests` stands for all crates of tests/.
#
# What the gate doesn't prove stands in release/NAME or tests/NAME: its .rt and .antt files have .txt after their names, since
# the gate refuses such a file that no crate reads, and `stands_on` names the crates below it. `takes` names files of crates that
# stand in it too, each after its place.
set -eu
. "$(dirname "$0")/usage.sh"
cd "$(dirname "$0")/.."
copy=$1
names=()
shift
git ls-files -z --cached --others --exclude-standard |
    tar --null --files-from=- --ignore-failed-read -c 2>/dev/null | tar -x -C "$copy"
for name in "$@"; do
    if [ "$name" = tests ]; then
        names+=($(ls "$copy/tests"))
    else
        names+=("$name")
    fi
done
for name in "${names[@]}"; do
    laid="$copy/crates/$name"
    mv "$copy/$([ -d "$copy/tests/$name" ] && echo tests || echo release)/$name" "$laid"
    find "$laid" -name '*.txt' | while IFS= read -r file; do
        mv "$file" "${file%.txt}"
    done
    printf '%s: %s\n' "$name" "$(cat "$laid/stands_on")" >>"$copy/crates.txt"
    rm "$laid/stands_on"
    if [ -f "$laid/takes" ]; then
        while read -r place file; do
            cp "$copy/$file" "$laid/$place"
        done <"$laid/takes"
        rm "$laid/takes"
    fi
done
