#!/usr/bin/env bash
# Makes the Rust crates with the repository's own tests, compares them with those in rust/, which have none of these, builds
# them in each set of features with no warning, lints and documents them with none, runs their tests and doc tests and the
# programs, and has `fallible-itertools` stand beside the original. The status is 1 where one of these fails, and 2 where a tool
# is missing.
#
#     tools/rust_gate.sh
set -eu
. "$(dirname "$0")/usage.sh"
cd "$(dirname "$0")/.."
for tool in cargo rustc rustfmt cargo-clippy rustdoc python3; do
    command -v "$tool" >/dev/null || {
        echo "rust: $tool is not here, so the Rust crates are not built. docs/GATE.md says what the gate needs" >&2
        exit 2
    }
done
folder=$(mktemp -d)
trap 'rm -rf "$folder"' EXIT

# Runs a command, and prints what it said where it fails.
quietly() {
    "$@" >> "$folder/log" 2>&1 || {
        cat "$folder/log" >&2
        exit 1
    }
}

quietly python3 tools/rust/test_to_rust.py
tools/to_rust --tests "$folder/out" > "$folder/said"
head -n -5 "$folder/said" > "$folder/table"
if ! sed -n '/<!-- made by to_rust --table -->/,/<!-- end -->/p' docs/RUST.md | sed '1d;$d' | cmp -s - "$folder/table"; then
    echo "rust: the table of docs/RUST.md is not what tools/to_rust --table prints" >&2
    exit 1
fi
grep -v '/tests/proved/' "$folder/out/.written_by_to_rust" > "$folder/listed"
if ! diff -rq -x target -x Cargo.lock -x .written_by_to_rust -x proved rust "$folder/out" >&2 \
    || ! cmp "$folder/listed" rust/.written_by_to_rust >&2; then
    echo "rust: rust/ is not what tools/to_rust writes; this mends it: tools/to_rust rust" >&2
    exit 1
fi
export CARGO_TARGET_DIR=$folder/target CARGO_INCREMENTAL=0 RUSTFLAGS="-D warnings" RUSTDOCFLAGS="-D warnings"
crates=("$folder/out/fallible-iterator/Cargo.toml" "$folder/out/fallible-itertools/Cargo.toml")
for crate in "${crates[@]}"; do
    for features in "" alloc std; do
        quietly cargo build --offline --manifest-path "$crate" --no-default-features --features "$features"
    done
done
for crate in program-io fallible-json fallible-pg; do
    quietly cargo build --offline --manifest-path "$folder/out/$crate/Cargo.toml" --no-default-features
done
all=(--offline --manifest-path "$folder/out/Cargo.toml" --all-features)
quietly cargo fmt --all --check --manifest-path "$folder/out/Cargo.toml"
quietly cargo clippy "${all[@]}" --all-targets
quietly cargo doc "${all[@]}" --no-deps
quietly cargo test "${all[@]}"
# What the one line of the README gives, which names no feature.
quietly cargo test --offline --manifest-path "${crates[1]}" --test first_calls
quietly cargo package --offline --no-verify --allow-dirty --quiet --manifest-path "${crates[0]}"
quietly tools/word_runs --in "$CARGO_TARGET_DIR/debug"
awk '/^test result/ { n += $4 } END { print "rust: " n " tests and doc tests pass" }' "$folder/log"
grep '^word runs' "$folder/log"
tail -n 3 "$folder/said" | head -n 2
# Status 3: the originals couldn't be fetched, which it has said.
tools/rust_beside --quick "$folder/out" || [ $? = 3 ]
rustc --version
