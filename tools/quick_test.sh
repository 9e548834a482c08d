#!/usr/bin/env bash
# Runs every test and every program of the repository without a proof, by `rt try`, and says a line for each crate, as
# '7 of 26: test_examples: 9 passed, 0 failed'. It is no gate: what it passes is tested, and not proved. With names it runs
# these crates alone; `tests` stands for those of tests/. A test and a program have ten minutes each, or what `--seconds N`
# says before the names. What hasn't ended then is no failure: it is told as 'slow, not done'. The last line is 'N passed, M
# failed'; the status is 0 where each passed, 1 where one failed, and else 3 where one was slow.
#
#     tools/quick_test.sh [--seconds N] [NAME..]
#
# Of a crate that fails it prints the names and the messages of the tests that failed, or how the program's output differs,
# and the file that has all that was printed.
#
# A crate with tests passes where as many pass as its files have. A program passes where it prints what its file `stdout`
# says of what its file `stdin` has.
set -u
. "$(dirname "$0")/usage.sh"
cd "$(dirname "$0")/.."
seconds=600
if [ "${1-}" = --seconds ]; then
    seconds=$2
    shift 2
fi
work=$(mktemp -d)
trap 'rm -rf "$work"' EXIT
mkdir "$work/copy" "$work/said" "$work/done"
tools/lay.sh "$work/copy" tests examples scripts drive_refused_memory many_items fallible_speed elf_walk || exit 1

# Runs the tests of the crate $1, or its program, and says a line.
run_crate() {
    local crate="$work/copy/crates/$1" said="$work/said/$1" status=0 late='checked: no-answer: the program did not end within the time limit' slow=0
    cd "$crate" || return
    local tests
    tests=$(grep -rhE '^ *#\[test\]' src | wc -l)
    if [ "$tests" -gt 0 ]; then
        rt try --test --seconds "$seconds" >"$said" 2>&1 || status=$?
        slow=$(grep -cF "$late" "$said")
        sed -nE 's/^test result: \w+\. ([0-9]+) passed; ([0-9]+) failed.*/\1 \2/p' "$said" |
            awk -v name="$1" -v slow="$slow" '{ print name ": " $1 " passed, " $2 - slow " failed" }' >"$said.line"
        if [ ! -s "$said.line" ] || grep -q ' 0 failed' "$said.line" && [ "$(cat "$said.line")" != "$1: $((tests - slow)) passed, 0 failed" ]; then
            echo "$1 has $tests tests, and ran others:" >>"$said"
            echo "$1: 0 passed, 1 failed" >"$said.line"
        fi
    else
        rt try --steps 1 --seconds "$seconds" <"$( [ -f stdin ] && echo stdin || echo /dev/null )" >"$said" 2>"$said.told" || status=$?
        if [ "$status" = 0 ] && cmp -s "$said" stdout; then
            echo "$1: 1 passed, 0 failed" >"$said.line"
        elif grep -qF "$late" "$said.told"; then
            slow=1
            echo "$1: 0 passed, 0 failed" >"$said.line"
        else
            echo "$1: 0 passed, 1 failed" >"$said.line"
        fi
    fi
    local place=1
    until mkdir "$work/done/$place" 2>/dev/null; do place=$((place + 1)); done
    [ "$slow" = 0 ] || echo "$1" >"$said.slow"
    echo "$place of $crates: $(cat "$said.line")$([ "$slow" = 0 ] || echo "; slow, not done: $slow")"
    grep -q ' 0 failed' "$said.line" || tell_failed "$1" "$said" "$tests"
}

# Prints what failed of the crate $1, which has $3 tests and printed the file $2, and where all of it is kept.
tell_failed() {
    if [ "$3" -gt 0 ]; then
        grep -vE '^(tests: |test .*\.\.\. ok$|run=)' "$2" | head -n 200
    else
        diff stdout "$2" | head -n 30 | cut -c 1-300
        head -n 30 "$2.told"
    fi
    mkdir -p "$kept"
    cat "$2" "$2.told" >"$kept/$1" 2>/dev/null
    echo "all that $1 printed: $kept/$1"
}
export -f run_crate tell_failed
kept=${TMPDIR:-/tmp}/quick_test.$$
export work seconds kept

names=()
for name in "$@"; do
    if [ "$name" = tests ]; then
        names+=($(ls tests))
    else
        names+=("$name")
    fi
done
if [ $# -eq 0 ]; then
    # The programs first, since some run for long.
    mapfile -t names < <(cd "$work/copy/crates" && ls -S */src/main.rt | cut -d/ -f1; cd "$work/copy/crates" && grep -rl '#\[test\]' */src | cut -d/ -f1 | sort -u)
fi
export crates=${#names[@]}
printf '%s\n' "${names[@]}" | xargs -P "$(nproc)" -I{} bash -c 'run_crate {}'
late=$(cat "$work"/said/*.slow 2>/dev/null | xargs)
[ -z "$late" ] || echo "slow, not done: $late"
cat "$work"/said/*.line | awk '{ passed += $(NF - 3); failed += $(NF - 1) } END { print passed + 0 " passed, " failed + 0 " failed"; exit failed > 0 || passed == 0 && !'"${#late}"' }' || exit 1
[ -z "$late" ] || exit 3
