#!/usr/bin/env bash
# Wall time and peak memory of `PROGRAM tables` beside those of its usage line, the least that a process
# takes, on fixed inputs: 4 GB with 1 table and 64 GB with 16 tables, each with one region over all tables
# and with 256 scattered regions of one granule, at the largest blocks 0 and 512.
#
#     [YARDSTICK=FILE.c] bench/tables.sh PROGRAM [RUNS]
#
# A line is of the fastest of RUNS runs (21 if left out); `more` is what `tables` takes above the usage
# line. YARDSTICK names a C program that measures raw work on this machine; its line `build`, nanoseconds
# for a word that is filled and read again, is printed with what that makes for 16 tables.
set -euo pipefail
export LC_ALL=C

readonly program=${1:?usage: bench/tables.sh PROGRAM [RUNS]}
readonly runs=${2:-21}
readonly region_count=256
readonly gigabyte=$((1 << 30))
readonly worlds=(realm secure root nonsecure)

folder=$(mktemp -d)
readonly folder
trap 'rm -rf "$folder"' EXIT

# The head of a scenario: a space of $1 gigabytes, $2 tables, the largest block $3.
head_lines() {
    printf 'gpt 1\nspace %d\nmax %d\nlocks 1\nfirst 0\nring 8\ntables %d\nbase 0x80000000\n' \
        "$1" "$3" "$2"
}

# One region over all tables.
one_region() {
    head_lines "$@"
    printf 'region 0x0 0x%x granule nonsecure\nend\n' $(($2 * gigabyte))
}

# The granules below the tables are cut into 256 equal parts. Each part has one region of one granule, at
# a place of its own in it, and neighbours differ in GPI. The parts aren't listed in their order.
scattered_regions() {
    local step=$(($2 * gigabyte / region_count))
    head_lines "$@"
    local i part place
    for ((i = 0; i < region_count; i++)); do
        part=$((i * 97 % region_count))
        place=$((part * 7919 % (step / 4096)))
        printf 'region 0x%x 0x1000 granule %s\n' \
            $((part * step + place * 4096)) "${worlds[part % 4]}"
    done
    printf 'end\n'
}

# Peak memory of the program with the words $2.. on the input $1, in kilobytes. Python's own few megabytes
# are the least that its way can show, so time is preferred where it is installed.
peak_kilobytes() {
    local input=$1
    shift
    if [ -x /usr/bin/time ]; then
        /usr/bin/time -q -f %M -o "$folder/peak" "$program" "$@" <"$input" >"$folder/report" 2>&1 || true
        cat "$folder/peak"
    else
        python3 -c '
import resource, subprocess, sys
with open(sys.argv[2]) as scenario, open(sys.argv[3], "w") as report:
    subprocess.run([sys.argv[1], *sys.argv[4:]], stdin=scenario, stdout=report, stderr=report)
print(resource.getrusage(resource.RUSAGE_CHILDREN).ru_maxrss)
' "$program" "$input" "$folder/report" "$@"
    fi
}

# Wall time of the fastest run of the program with the words $2.. on the input $1, in microseconds.
fastest_microseconds() {
    local input=$1 run start end least=
    shift
    for ((run = 0; run < runs; run++)); do
        start=${EPOCHREALTIME/./}
        "$program" "$@" <"$input" >"$folder/report" 2>&1 || true
        end=${EPOCHREALTIME/./}
        if [ -z "$least" ] || ((end - start < least)); then
            least=$((end - start))
        fi
    done
    echo "$least"
}

if [ -n "${YARDSTICK:-}" ]; then
    cc -O2 -o "$folder/yardstick" "$YARDSTICK"
    "$folder/yardstick" | awk '$1 == "build" {
        printf "%-28s %10.2f ns a word, %.2f ms for 16 tables\n", "yardstick", $2, $2 * 262144 / 1e6
    }'
fi
: >"$folder/empty"
base=$(fastest_microseconds "$folder/empty")
base_peak=$(peak_kilobytes "$folder/empty")
awk -v time="$base" -v peak="$base_peak" \
    'BEGIN { printf "%-28s %10.2f ms %10d KB\n", "usage line", time / 1e3, peak }'
printf '%6s %7s %5s %8s %12s %12s %12s %12s\n' \
    space tables max regions 'time ms' 'more ms' 'peak KB' 'more KB'
for max in 0 512; do
    for size in '4 1' '64 16'; do
        read -r space tables <<<"$size"
        for kind in one_region scattered_regions; do
            "$kind" "$space" "$tables" "$max" >"$folder/scenario"
            time=$(fastest_microseconds "$folder/scenario" tables)
            peak=$(peak_kilobytes "$folder/scenario" tables)
            awk -v space="$space" -v tables="$tables" -v max="$max" -v time="$time" -v peak="$peak" \
                -v base="$base" -v base_peak="$base_peak" \
                -v regions="$(grep -c '^region' "$folder/scenario")" 'BEGIN {
                    printf "%3d GB %7d %5d %8d %12.2f %12.2f %12d %12d\n", space, tables, max, regions,
                        time / 1e3, (time - base) / 1e3, peak, peak - base_peak
                }'
        done
    done
done
