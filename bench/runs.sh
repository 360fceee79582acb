#!/bin/bash
# runs.sh PROGRAM
#
# Times the built program of crates/run_map_bench, whose map has 256 regions in 64 GB: `of`, 1,000 region maps; `few`,
# 100,000 entries of changes of 64 granules, judged and applied by a replay; `many`, as many of 50,000 granules that
# are all apart, so that the map has up to 100,000 runs. It prints the least processor time of some runs of each.
set -u
export LC_ALL=C

if [ $# -ne 1 ] || ! command -v "$1" > /dev/null; then
    echo "usage: runs.sh PROGRAM" >&2
    exit 2
fi
program=$(realpath -- "$(command -v "$1")")
runs=5
for what in of few many; do
    least=
    for _ in $(seq "$runs"); do
        spent=$({ TIMEFORMAT=%U; time "$program" "$what" > /dev/null; } 2>&1) || exit 1
        if [ -z "$least" ] || awk "BEGIN { exit !($spent < $least) }"; then least=$spent; fi
    done
    echo "$what: $least s"
done
