#!/bin/bash
# parse.sh PROGRAM
#
# Times `PROGRAM tables` on texts of a quarter of a megabyte and of one megabyte: of a processor with
# many `look` lines, of an agent with many `delegate` lines, and of an agent and many `turn` lines. It
# prints for each text the least wall time of some runs, that time for a megabyte, and the peak memory;
# and for each kind the ratio of the time of the large text to that of the small one, which is 4 where
# time grows as the text does. Where it is above 6, the status is 1. A megabyte is 1,000,000 bytes.
set -u
export LC_ALL=C

if [ $# -ne 1 ] || ! command -v "$1" > /dev/null; then
    echo "usage: parse.sh PROGRAM" >&2
    exit 2
fi
program=$(realpath -- "$(command -v "$1")")
scratch=$(mktemp -d) || exit 2
trap 'rm -rf -- "$scratch"' EXIT
runs=9
most_ratio=6
failed=0

# The head, one line again and again up to this number of bytes, and the end.
text() { # KIND BYTES
    local section line
    case $1 in
        look) section=cpu line="look 0x200000 nonsecure" ;;
        delegate) section=agent line="delegate 0x200000 realm" ;;
        turn) section=agent line="turn 0 7" ;;
    esac
    printf '%s\n' "gpt 1" "space 4" "max 512" "locks 1" "first 0" "ring 8" "tables 1" "base 0x80000000" \
        "region 0x0 0x40000000 granule nonsecure" "$section"
    yes -- "$line" | head -n $((($2 - 122) / (${#line} + 1)))
    echo end
}

# Microseconds since the epoch.
now() { local t=${EPOCHREALTIME/[.,]/}; echo "$t"; }

# The least wall time of the runs, in microseconds.
least() {
    local best= i start end
    for ((i = 0; i < runs; i++)); do
        start=$(now)
        "$program" tables < "$1" > "$scratch/out" || { echo "the program refused $1: $(head -n 1 "$scratch/out")" >&2; exit 1; }
        end=$(now)
        if [ -z "$best" ] || [ $((end - start)) -lt "$best" ]; then best=$((end - start)); fi
    done
    echo "$best"
}

# The peak memory of a run, in kilobytes. Without GNU time the run is held at its write, into a full
# pipe, until its peak was read.
peak() {
    if [ -x /usr/bin/time ] && /usr/bin/time -f %M true 2> /dev/null; then
        /usr/bin/time -o "$scratch/peak" -f %M "$program" tables < "$1" > /dev/null
        cat "$scratch/peak"
        return
    fi
    local run high state calm=0
    rm -f "$scratch/pipe"
    mkfifo "$scratch/pipe"
    exec 9<> "$scratch/pipe"
    head -c 65536 /dev/zero >&9
    "$program" tables < "$1" >&9 &
    run=$!
    while [ "$calm" -lt 5 ]; do
        sleep 0.02
        state=$(sed -n 's/^State:[[:space:]]*\(.\).*/\1/p' "/proc/$run/status")
        if [ "$state" = S ]; then calm=$((calm + 1)); else calm=0; fi
        if [ "$state" = Z ] || [ -z "$state" ]; then break; fi
    done
    high=$(sed -n 's/^VmHWM:[[:space:]]*\([0-9]*\).*/\1/p' "/proc/$run/status")
    head -c 65536 <&9 > /dev/null
    wait "$run"
    exec 9>&-
    echo "${high:-unknown}"
}

thousandths() { printf '%d.%03d' $(($1 / 1000)) $(($1 % 1000)); }

printf '%-8s %10s %12s %14s %12s\n' lines bytes ms "ms per MB" "peak KB"
for kind in look delegate turn; do
    times=()
    for size in 250000 1000000; do
        text "$kind" "$size" > "$scratch/text"
        length=$(wc -c < "$scratch/text")
        time=$(least "$scratch/text") || exit 1
        memory=$(peak "$scratch/text")
        times+=("$time")
        printf '%-8s %10d %12s %14s %12s\n' "$kind" "$length" "$(thousandths "$time")" "$(thousandths $((time * 1000000 / length)))" "$memory"
    done
    echo "$kind: 1 MB takes $(thousandths $((times[1] * 1000 / times[0]))) times as long as 0.25 MB, at most $most_ratio"
    if [ "${times[1]}" -gt $((most_ratio * times[0])) ]; then failed=1; fi
done
exit "$failed"
