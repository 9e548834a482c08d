#!/usr/bin/env bash
# Refuses each request for memory of each call of the program release/drive_refused_memory in turn, by the toolchain, and compares
# what is printed with what is allowed. It proves nothing, and takes some seven minutes.
#
#     release/refused_memory.sh
#
# Run number N refuses the N-th request of each call. A call that meets it must print the outcome that `allowed` gives
# for N. A call that makes fewer requests must have made as many as `requests` says, and must print its line of
# release/drive_refused_memory/stdout. The status is 0 where every outcome is allowed.
set -eu
. "$(dirname "$0")/../tools/usage.sh"
cd "$(dirname "$0")/.."
work=$(mktemp -d)
trap 'rm -rf "$work"' EXIT
mkdir "$work/copy"
tools/lay.sh "$work/copy" drive_refused_memory
program="$work/copy/crates/drive_refused_memory"

compared=0
differ=0

# What the source gives next after a refusal: the first item, or one after it, or its end. An item is a number, or a
# number beside another.
first='Ok\(Some\((1|\(1, [0-9]+\))\)\)'
later='([2-9]|1[0-9]|20)'
after="(Ok\(Some\(($later|\($later, [0-9]+\))\)\)|Ok\(None\))"

# The outcome, without the name, that is allowed where request number $2 of call $1 is refused; nothing where the
# call makes no such request.
allowed() {
    case $1 in
    # The makings of these ask for no memory. A refused item is lost.
    collect_vec | collect_deque | collect_btree_set | collect_hash_set | collect_btree_map | collect_hash_map | \
        partition_vec | partition_btree_set | unzip_vec_deque | unzip_hash_set_btree_set)
        echo "memory was refused; then $after"
        ;;
    # The makings alone ask. Where one is refused, the next one would be met: it is not tried, and nothing is drawn.
    collect_roomy)
        if [ "$2" = 1 ]; then echo "memory was refused; then $first"; fi
        ;;
    partition_roomy | unzip_roomy)
        if [ "$2" -le 2 ]; then echo "memory was refused; then $first"; fi
        ;;
    # The source asks first, then the clone that is kept, and then the clone that each later run is.
    cycle)
        case $2 in
        1) echo 'no source' ;;
        2) echo 'memory was refused' ;;
        3) draws 1 2 - 1 2 1 2 1 ;;
        4) draws 1 2 1 2 - 1 2 1 ;;
        5) draws 1 2 1 2 1 2 - 1 ;;
        esac
        ;;
    # A refused item is lost.
    cloned)
        case $2 in
        1 | 2 | 3) echo 'no source' ;;
        4) draws - '"b"' '"c"' . ;;
        5) draws '"a"' - '"c"' . ;;
        6) draws '"a"' '"b"' - . ;;
        esac
        ;;
    # The value stays.
    repeat)
        case $2 in
        1) echo 'no source' ;;
        2) draws - '"a"' '"a"' '"a"' ;;
        3) draws '"a"' - '"a"' '"a"' ;;
        4) draws '"a"' '"a"' - '"a"' ;;
        5) draws '"a"' '"a"' '"a"' - ;;
        esac
        ;;
    repeat_err)
        case $2 in
        1) echo 'no source' ;;
        2) draws - ! ! ! ;;
        3) draws ! - ! ! ;;
        4) draws ! ! - ! ;;
        5) draws ! ! ! - ;;
        esac
        ;;
    # The original answers as one that was not cloned.
    clone_of_convert)
        case $2 in
        1) echo 'no source' ;;
        2) echo "memory was refused; the original: $(draws 2 . . .)" ;;
        esac
        ;;
    clone_of_chain)
        case $2 in
        1 | 2) echo 'no source' ;;
        3 | 4) echo "memory was refused; the original: $(draws 1 2 3 4)" ;;
        esac
        ;;
    # The source, the clone that is kept, the two parts of the clone, and then the run after the first of the clone
    # and that of the original.
    clone_of_cycle)
        case $2 in
        1) echo 'no source' ;;
        2) echo 'memory was refused' ;;
        3 | 4) echo "memory was refused; the original: $(draws 1 2 1 .)" ;;
        5) echo "the clone: $(draws 1 2 - 1); the original: $(draws 1 2 1 .)" ;;
        6) echo "the clone: $(draws 1 2 1 .); the original: $(draws 1 2 - 1)" ;;
        esac
        ;;
    clone_of_peekable)
        case $2 in
        1) echo 'no source' ;;
        2) echo "memory was refused; the original: $(draws '"a"' . . .)" ;;
        esac
        ;;
    # Nothing is drawn.
    answers | answers_at)
        if [ "$2" = 1 ]; then echo "memory was refused; then $first"; fi
        ;;
    # These ask for none.
    empty | run) ;;
    esac
}

# How many requests call $1 makes. Of std's collections it is one at least. Of those whose makings alone ask it is the
# number of makings.
requests() {
    case $1 in
    empty | run) echo 0 ;;
    collect_roomy | answers | answers_at) echo 1 ;;
    partition_roomy | unzip_roomy | clone_of_convert | clone_of_peekable) echo 2 ;;
    clone_of_chain) echo 4 ;;
    cycle | repeat | repeat_err) echo 5 ;;
    cloned | clone_of_cycle) echo 6 ;;
    *) echo '[1-9][0-9]*' ;;
    esac
}

# A pattern for what is printed of these draws: an item, `.` for an end, `!` for the failure that holds a text, and `-`
# for the failure made of a refusal.
draws() {
    local text='' answer
    for answer in "$@"; do
        case $answer in
        .) text="$text, Ok\(None\)" ;;
        !) text="$text, Err\(Text\(\"a\"\)\)" ;;
        -) text="$text, Err\(Memory\)" ;;
        *) text="$text, Ok\(Some\($answer\)\)" ;;
        esac
    done
    echo "${text#, }"
}

# Counts a comparison, and tells of one that fails: what was run, what is wanted, and what came.
compare() {
    compared=$((compared + 1))
    if ! printf '%s\n' "$3" | grep -qxE -- "$2"; then
        differ=$((differ + 1))
        printf '%s: wanted %s, got %s\n' "$1" "$2" "$3"
    fi
}

# A text as a pattern.
literally() {
    printf '%s' "$1" | sed 's/[][\.*^$+?(){}|]/\\&/g'
}

mkdir "$work/cases"
cut -d: -f1 "$program/stdout" >"$work/names"
while read -r name; do
    printf '%s' "$name" >"$work/cases/$name"
done <"$work/names"

# A call is left out of the runs once it has met no refusal.
number=0
while [ -n "$(ls "$work/cases")" ]; do
    number=$((number + 1))
    met=0
    (cd "$program" && rt try --fail-alloc "$number" --cases "$work/cases") \
        </dev/null >"$work/out" 2>"$work/err" || true
    for file in "$work/cases"/*; do
        name=${file##*/}
        got=$(awk -v name="$name" '$0 == "== " name { on = 1; next } /^== / { on = 0 } on' "$work/out")
        asked=$(awk -v name="$name" '/^allocations: / { n = $2 } $1 == "case=" name && $2 == "run=ended" && $3 == "status=0" { print n }' "$work/err")
        if [ -z "$asked" ]; then
            compare "$name, request $number" 'a run that ends' "$(grep "^case=$name " "$work/err" || echo 'no run')"
            rm "$file"
        elif [ "$asked" -lt "$number" ]; then
            compare "$name, requests" "$(requests "$name")" "$asked"
            compare "$name, no request refused" "$(literally "$(grep "^$name:" "$program/stdout")")" "$got"
            rm "$file"
        else
            met=$((met + 1))
            compare "$name, request $number" "$name: $(allowed "$name" "$number")" "$got"
        fi
    done
    echo "request $number: refused to $met calls"
done

# The program asks once, for its buffer.
rows='100
200
400'
for number in 1 2; do
    status=0
    (cd crates/count_rows && printf '%s\n' "$rows" | rt try --fail-alloc "$number") >"$work/out" 2>"$work/err" || status=$?
    said="status $status, output $(cat "$work/out"), $(grep -c '^no memory$' "$work/err" || true) no memory"
    if [ "$number" = 1 ]; then
        compare "count_rows, request 1" 'status 3, output , 1 no memory' "$said"
    else
        compare "count_rows, no request refused" 'status 0, output 2, 0 no memory' "$said"
    fi
done

echo "refused memory: $compared outcomes compared, $differ differ"
[ "$differ" = 0 ]
