#!/usr/bin/env bash
# Every bench that holds a measure against a limit, and then their lines once more, as one table.
#
#     bench/all.sh PROGRAM TURNS_PROGRAM YARDSTICK.c [RUNS]
#
# PROGRAM is the built program, TURNS_PROGRAM that of crates/turns_bench, and YARDSTICK.c a C program that measures raw
# work on this machine. RUNS is 25 if left out. The status is 1 where a line is above its limit. Run this where nothing
# else runs: it takes some minutes.
set -u
export LC_ALL=C

if [ $# -lt 3 ]; then
    echo "usage: bench/all.sh PROGRAM TURNS_PROGRAM YARDSTICK.c [RUNS]" >&2
    exit 2
fi
here=$(dirname -- "$(realpath -- "$0")")
program=$(realpath -- "$1") turns=$(realpath -- "$2") yardstick=$(realpath -- "$3") runs=${4:-25}
output=$(mktemp) || exit 2
trap 'rm -f -- "$output"' EXIT
failed=0
{
    TURNS=$turns YARDSTICK=$yardstick "$here/turns.sh" "$program" "$runs" || echo "above a limit: turns"
    echo
    "$here/parse.sh" "$program" || echo "above a limit: parse"
    echo
    "$here/load.py" "$program" "$runs" || echo "above a limit: load"
    echo
    "$here/race.sh" "$program" "$runs" || echo "above a limit: race"
    echo
    "$here/scale.py" "$program" "$runs" || echo "above a limit: scale"
} | tee "$output"
echo
grep -E ' at most |above a limit' "$output"
grep -q 'above a limit' "$output" && failed=1
exit "$failed"
