#!/usr/bin/env bash
# Measures this repository's Rust crates beside others, by what each number takes.
#
#     release/rust_bench.sh [--write] [chains|calls|compile|all [MADE_FOLDER [ORIGINAL_FOLDER]]]
#
# `chains` are those of release/rust-bench, over our fallible-iterator, over the original, and beside a loop written by hand.
# `calls` are those of our fallible-itertools in release/rust-bench-itertools, over ours and over the original, beside those of
# itertools, which has them over items that can't fail. `compile` is the processor time of `cargo build` from nothing.
# MADE_FOLDER is what tools/to_rust wrote, else rust/. ORIGINAL_FOLDER is that of the original; without it, and for itertools,
# Debian's packages are taken, from /usr/share/cargo/registry, or fetched by apt and not installed. It prints the instructions
# for each number, by a fold and by `next`: those of 200,000 numbers less those of none, by valgrind's callgrind. With --write
# what `calls` and `compile` print goes into release/rust-bench/FIGURES.md too. The status is 1 where an answer differs.
set -eu
. "$(dirname "$0")/../tools/usage.sh"
repository=$(cd "$(dirname "$0")/.." && pwd)
writes=
[ "${1:-}" != --write ] || { writes=yes; shift; }
what=${1:-all}
made=${2:-$repository/rust}
original=${3:-}
work=$(mktemp -d)
trap 'rm -rf "$work"' EXIT
count=200000
differs=0
case $what in chains | calls | compile | all) ;; *) sed -n 2,13p "$0" >&2; exit 2 ;; esac

# The source of a crate of Debian's.
source_of() {
    local registry=/usr/share/cargo/registry
    if ! ls -d $registry/"$1"-[0-9]* >/dev/null 2>&1; then
        registry=$work/debian$registry
        ls -d "$registry/$1"-[0-9]* >/dev/null 2>&1 ||
            (cd "$work" && apt-get download "librust-$1-dev" >/dev/null 2>&1 && dpkg-deb -x librust-"$1"-dev*.deb debian) ||
            { echo "apt-get download finds no librust-$1-dev: run apt-get update" >&2; exit 2; }
    fi
    echo "$registry/$1"-[0-9]*
}

# Builds the bench $2 in the folder $1 of the crates that are laid there, as $1/bench.
build() {
    cp -r "$repository/release/$2" "$1/$2"
    rm -rf "$1"/fallible-*/target
    (cd "$1/$2" && RUSTFLAGS=--cap-lints=allow cargo build --release --offline --quiet)
    cp "$1/$2/target/release/$2" "$1/bench"
}

# The instructions of one task: the executable, the way, the name, the number of numbers.
instructions() {
    valgrind --tool=callgrind --callgrind-out-file=/dev/null "$@" 2>&1 >/dev/null | awk '/Collected/ { print $4 }'
}

# The instructions for each number.
figure() {
    awk -v all="$(instructions "$@" $count)" -v none="$(instructions "$@" 0)" -v count=$count \
        'BEGIN { printf "%.4f", (all - none) / count }'
}

# Says where an executable's answer is another than that: the answer, the executable, the way, the name.
compare() {
    [ "$("${@:2}" 1000)" = "$1" ] || { echo "$4, $(basename "$(dirname "$2")") by $3: differs"; differs=1; }
}

version_of() {
    sed -n 's/^version *= *"\(.*\)"/\1/p' "$1/Cargo.toml" | head -1
}

chains() {
    original=${original:-$(source_of fallible-iterator)}
    mkdir "$work/ours" "$work/original"
    cp -r "$made/fallible-iterator" "$work/ours"
    cp -r "$original" "$work/original/fallible-iterator"
    local ours=$work/ours/bench theirs=$work/original/bench name wanted line way
    build "$work/ours" rust-bench
    build "$work/original" rust-bench
    echo "$(rustc --version); the original: $(version_of "$original")"
    echo
    echo '| Chain | Loop | By a fold: ours | The original | Ratio | By `next`: ours | The original | Ratio |'
    echo '|---|---|---|---|---|---|---|---|'
    while read -r name; do
        wanted=$("$ours" loop "$name" 1000)
        line="| $name | $(printf %.1f "$(figure "$ours" loop "$name")") |"
        for way in fold next; do
            compare "$wanted" "$ours" $way "$name"
            compare "$wanted" "$theirs" $way "$name"
            line="$line$(awk -v ours="$(figure "$ours" $way "$name")" -v theirs="$(figure "$theirs" $way "$name")" \
                'BEGIN { printf " %.1f | %.1f | %.2f |", ours, theirs, ours / theirs }')"
        done
        echo "$line"
    done < <("$ours" names)
}

# Lays the bench of the calls in the folder $1, over the fallible-iterator of the folder $2.
lay_calls() {
    mkdir "$1"
    cp -r "$2" "$1/fallible-iterator"
    cp -r "$made/fallible-itertools" "$1"
    cp -r "$itertools" "$1/itertools"
    cp -r "$either" "$1/either"
    build "$1" rust-bench-itertools
}

calls() {
    local itertools either ours=$work/calls/bench beside=$work/beside/bench name wanted line way bench
    original=${original:-$(source_of fallible-iterator)}
    itertools=$(source_of itertools)
    either=$(source_of either)
    lay_calls "$work/calls" "$made/fallible-iterator"
    lay_calls "$work/beside" "$original"
    echo "By $(rustc --version | cut -d' ' -f1,2), beside itertools $(version_of "$itertools"), and over $(version_of "$original") of the original:"
    echo
    echo '| Call | By a fold: ours | Over the original | Its rival | Ratio | By `next`: ours | Over the original | Its rival | Ratio |'
    echo '|---|---|---|---|---|---|---|---|---|'
    while read -r name; do
        wanted=$("$ours" theirs-fold "$name" 1000)
        line="| $name |"
        for way in fold next; do
            figures=
            for bench in "$ours ours-$way" "$beside ours-$way" "$ours theirs-$way"; do
                # A word each: the executable and the way.
                compare "$wanted" $bench "$name" >&2
                figures="$figures $(figure $bench "$name")"
            done
            # A call that the compiler does without a loop takes nothing for a number.
            line="$line$(echo "$figures" | awk '{ printf " %.1f | %.1f | %.1f | %s |", $1, $2, $3, $3 < 0.05 ? "" : sprintf("%.2f", $1 / $3) }')"
        done
        echo "$line"
    done < <("$ours" names)
}

# The seconds of processor that `cargo build` takes for the crate of a folder, from nothing.
seconds_to_build() {
    local TIMEFORMAT='%U %S'
    rm -rf "$1/target"
    { time (cd "$1" && CARGO_INCREMENTAL=0 cargo build --offline --quiet ${2:+"$2"} 2>"$work/log" || cat "$work/log" >&2); } 2>&1 |
        awk '{ printf "%.2f", $1 + $2 }'
}

compile() {
    local folder name
    original=${original:-$(source_of fallible-iterator)}
    cp -r "$made" "$work/compiled"
    cp -r "$original" "$work/compiled-original"
    # Each is a workspace of its own here, and the second stands on the first.
    rm -f "$work/compiled/Cargo.toml"
    for folder in compiled/fallible-iterator compiled/fallible-itertools compiled-original; do
        grep -q '^\[workspace\]' "$work/$folder/Cargo.toml" || printf '\n[workspace]\n' >> "$work/$folder/Cargo.toml"
    done
    printf '\n[patch.crates-io]\nfallible-iterator = { path = "../fallible-iterator" }\n' >> "$work/compiled/fallible-itertools/Cargo.toml"
    echo '| Crate | Debug, seconds of processor | Release |'
    echo '|---|---|---|'
    for name in 'compiled-original:`fallible-iterator`, the original' 'compiled/fallible-iterator:ours' 'compiled/fallible-itertools:ours, with `fallible-itertools`'; do
        folder=$work/${name%%:*}
        echo "| ${name#*:} | $(seconds_to_build "$folder") | $(seconds_to_build "$folder" --release) |"
    done
}

# Prints what $1 prints, and puts it into FIGURES.
shown() {
    local table=$work/$1.table
    "$1" > >(tee "$table")
    wait $!
    [ -z "$writes" ] || python3 - "$1" "$table" "$repository/release/rust-bench/FIGURES.md" <<'END'
import pathlib, sys
name, table, page = sys.argv[1], pathlib.Path(sys.argv[2]), pathlib.Path(sys.argv[3])
before, rest = page.read_text().split(f"<!-- made by release/rust_bench.sh {name} -->\n")
page.write_text(f"{before}<!-- made by release/rust_bench.sh {name} -->\n{table.read_text()}<!-- end -->{rest.split('<!-- end -->', 1)[1]}")
END
}

case $what in chains | all) chains ;; esac
[ "$what" != all ] || echo
case $what in calls | all) shown calls ;; esac
[ "$what" != all ] || echo
case $what in compile | all) shown compile ;; esac
exit $differs
