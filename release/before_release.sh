#!/usr/bin/env bash
# Runs all that no landing runs, one step after another, each to its end:
#
#     release/before_release.sh           all steps
#     release/before_release.sh NAME..    these
#     release/before_release.sh --list    runs nothing, and prints each step and how long it takes
#
# It prints what each prints, the seconds that it took, and last `N passed, M failed` with the names of those that failed. The
# status is 0 where none failed. Run it with nothing uncommitted, since the edits are tried in a copy of the last commit.
set -u
. "$(dirname "$0")/../tools/usage.sh"
cd "$(dirname "$0")/.."

# The name of a step, its command, and how long it takes on four cores.
steps() {
    cat <<'END'
version|release/version.sh|at once
names|release/gone_names|at once
library|tools/library pack out/library.tar.xz|minutes, once the library is proved
edits|tools/edits --release|an hour, and the proof of each crate that has some
pairs|release/release_pairs.sh|three builds of minutes each
devices|release/device_runs|a minute, once each program is proved
groups|release/groups_runs|minutes, once sum_groups is proved
elf|release/elf_runs|minutes, once elf_tables is proved
pg|release/pg_runs|2 minutes, once pg_rows is proved; wants PostgreSQL, cargo and GNU time
pg_logins|release/pg_logins|a minute; wants PostgreSQL, cargo and apt
json|release/json_runs|a minute, once json_tokens is proved
memory|release/refused_memory.sh|7 minutes
speed|release/speed|the proof of fallible_speed, and then minutes
elf_speed|release/elf_speed|the proof of fallible_elf and elf_walk, and then minutes; wants cargo and valgrind
program_speed|release/program_speed|5 minutes; wants count_rows, sum_table, sum_groups, pg_rows and json_tokens proved, cargo, valgrind, GNU time, jq, g++ and apt
rust_speed|release/rust_bench.sh|3 minutes; wants valgrind and apt
growth|release/growth|5 minutes; wants cargo and valgrind
beside|tools/rust_beside|3 minutes; wants cargo and apt
clients|release/rust_clients|a quarter of an hour and more; wants cargo, PostgreSQL, SQLite, libclang and apt
END
}

if [ "${1:-}" = --list ]; then
    steps | while IFS='|' read -r name command time; do
        printf '%-16s %-32s %s\n' "$name" "$command" "$time"
    done
    exit
fi
for name in "$@"; do
    steps | grep -q "^$name|" || { echo "$name is no step; --list prints them" >&2; exit 2; }
done

passed=0
failed=()
while IFS='|' read -r name command _ <&3; do
    [ $# -eq 0 ] || [[ " $* " = *" $name "* ]] || continue
    echo "== $name: $command"
    SECONDS=0
    # (a command may have words after its name)
    # shellcheck disable=SC2086
    if $command </dev/null; then
        passed=$((passed + 1))
        echo "== $name: passed, $SECONDS s"
    else
        failed+=("$name")
        echo "== $name: FAILED, $SECONDS s"
    fi
done 3< <(steps)
echo "$passed passed, ${#failed[@]} failed${failed[*]:+: ${failed[*]}}"
[ ${#failed[@]} -eq 0 ]
