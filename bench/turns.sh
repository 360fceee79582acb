#!/usr/bin/env bash
# Processor time of the turns that `PROGRAM play` plays: of an agent that waits at a held lock, of 2 and
# of many agents that wait, of agents that make whole transitions, with few regions and calls and with
# many, of processors whose accesses walk the tables and of one whose accesses are hit, and of an agent
# that splits and merges 512 MB.
#
#     [YARDSTICK=FILE.c] [TURNS=TURNS_PROGRAM] bench/turns.sh PROGRAM [RUNS]
#
# Each time is that of the fastest of RUNS runs (5 if left out), less that of the same scenario with a
# schedule of one turn, which is read and built alike. The scenarios that a table compares run by turns.
#
# A turn's time should be the same whatever the number of agents, of regions and of calls. Each line with
# the word `ratio` says how many times as long a turn takes with many; where one is above 1.3, the status
# is 1. Turns that change nothing end their line at once, so that some of these lines take no time. The last of these take a few milliseconds: run this where nothing else runs.
#
# TURNS names the program of crates/turns_bench, which plays a scenario as PROGRAM does and prints no report: the
# acts of whole transitions are timed by it too, without the texts of their answers, and those of accesses by it alone.
#
# Accesses walk the tables each time where a processor keeps one walk and goes between two words. They are hit where it
# goes on with one word; that walk is the oldest of a full ring, of 8 walks and of 64, so that each access looks through
# the whole ring.
#
# YARDSTICK names a C program that measures raw work on this machine: its line `act`, nanoseconds for one act of whole
# transitions, is printed below those of TURNS; where one costs more than twice as much, the status is 1. So are
# its lines `access` and `search`, for one act of accesses that are hit by the oldest walk of 8 and of 64; where one
# costs more than 2.5 and 1.5 times as much, the status is 1; and its line `wait`, for one turn at a lock that another
# agent holds, where a turn costs more than twice as much. Its line `store`, nanoseconds for one store of splitting
# and merging 512 MB, is printed below those of the program. Of a pair in one turn line all acts are counted, most of
# which are stores; where one costs more than 1.5 times as much, the status is 1.
#
# One `round` line gives the agent that holds the lock as many turns as each that waits, and a holder
# releases its lock within 15 turns. So it is the last one, and the line is one round: all others wait until
# it has its turns, which then are those of an agent that has ended. These are taken off at their price.
set -euo pipefail
export LC_ALL=C

readonly program=${1:?usage: bench/turns.sh PROGRAM [RUNS]}
readonly runs=${2:-5}
readonly most_turns=20000000
readonly most_bytes=1048576
readonly delegate_acts=12
readonly undelegate_acts=16
readonly pair_acts=$((delegate_acts + undelegate_acts))
# At `max 512` a pair splits its block in 8,192 stores, and merges it in 62 loads and as many stores.
readonly split_acts=$((pair_acts + 8192 + 62 + 8192))
readonly most_ratio=1.3
readonly most_store_ratio=1.5
readonly most_act_ratio=2
readonly most_wait_ratio=2
readonly most_hit_ratio=2.5
readonly most_search_ratio=1.5
readonly gigabyte=$((1 << 30))
failed=0

folder=$(mktemp -d)
readonly folder
trap 'rm -rf "$folder"' EXIT

# The first lines of a scenario, without contiguous entries where `max` isn't set, and with rings of 8 walks where `ring`
# isn't.
setup_text() {
    printf '%s\n' 'gpt 1' 'space 4' "max ${max:-0}" 'locks 1' 'first 0' "ring ${ring:-8}" 'tables 1' 'base 0x80000000'
}

# The head of a scenario. The first gigabyte is Non-secure, in $1 equal regions (1 if left out).
head_text() {
    local i step=$((gigabyte / ${1:-1}))
    setup_text
    for ((i = 0; i < ${1:-1}; i++)); do
        printf 'region 0x%x 0x%x granule nonsecure\n' $((i * step)) "$step"
    done
}

# A scenario of $1 agents, each with one call at a granule of its own, under one lock.
short_agents() {
    local i
    head_text
    for ((i = 0; i < $1; i++)); do
        printf 'agent\ndelegate 0x%x realm\n' $((i * 4096))
    done
}

# A scenario of $1 agents with $2 pairs each, each agent at a granule of its own under one lock, or all at
# the address $3 where there is one; with $4 regions.
pair_agents() {
    head_text "${4:-1}"
    awk -v agents="$1" -v pairs="$2" -v same="${3:-}" 'BEGIN {
        for (i = 0; i < agents; i++) {
            print "agent"
            address = same == "" ? sprintf("0x%x", i * 4096) : same
            for (k = 0; k < pairs; k++) printf "delegate %s realm\nundelegate %s realm\n", address, address
        }
    }'
}

# Writes a scenario as the file $1, with the callers of standard input and the schedule $2, ..; and as
# $1.one with one turn.
scenario() {
    local name=$folder/$1
    shift
    cat >"$name.callers"
    { cat "$name.callers"; printf '%s\n' "$@" end; } >"$name"
    { cat "$name.callers"; printf '%s\n' 'turn 0 1' end; } >"$name.one"
}

# The least processor time of each of the scenarios $1, .., which run by turns, in microseconds. A name
# is followed by the status that its run is to end with, as in NAME=6.
least() {
    least_by "$program" "$@"
}

# The same of the program $1, for the scenarios after it.
least_by() {
    python3 -c '
import os, sys
program, runs, folder = sys.argv[1], int(sys.argv[2]), sys.argv[3]
cases = [case.split("=") for case in sys.argv[4:]]
times = [[] for _ in cases]
for _ in range(runs):
    for (name, wanted), kept in zip(cases, times):
        child = os.fork()
        if child == 0:
            os.dup2(os.open(folder + "/" + name, os.O_RDONLY), 0)
            os.dup2(os.open(folder + "/report", os.O_WRONLY | os.O_CREAT | os.O_TRUNC), 1)
            os.execv(program, [program, "play"])
        _, status, used = os.wait4(child, 0)
        if os.WEXITSTATUS(status) != int(wanted):
            sys.exit(f"{name}: status {os.WEXITSTATUS(status)}, and not {wanted}")
        kept.append(used.ru_utime + used.ru_stime)
print(*(round(min(kept) * 1e6) for kept in times))
' "$1" "$runs" "$folder" "${@:2}"
}

heading() {
    printf '%-50s %10s %10s %8s\n' "$@"
}

# A line of the table: what it is, its turns or acts, its time in microseconds, and nanoseconds for each.
row() {
    awk -v what="$1" -v turns="$2" -v time="$3" \
        'BEGIN { printf "%-50s %10d %10.1f %8.2f\n", what, turns, time / 1e3, time * 1e3 / turns }'
}

# Compares the price of a turn of many with that of few: what is compared, times and turns of both. Too
# high a ratio fails the bench.
compare() {
    awk -v what="$1" -v many="$2" -v many_turns="$3" -v few="$4" -v few_turns="$5" -v most="$most_ratio" 'BEGIN {
        if (many < 200 && few < 200) { printf "%s: both took less than 0.2 ms\n", what; exit 0 }
        ratio = many / many_turns / (few / few_turns)
        printf "%s: ratio %.2f of at most %s\n", what, ratio, most
        exit ratio > most
    }' || failed=1
}

# ---- one agent, and many that wait

readonly alone=$((most_turns - 1)) idle=$((most_turns - delegate_acts))
readonly few=$(((most_turns - 1) / 3)) many=$(((most_turns - 1) / 32))
short_agents 2 | scenario waits 'turn 0 1' "turn 1 $alone"
short_agents 2 | scenario ended "turn 0 $delegate_acts" "turn 0 $idle"
short_agents 3 | scenario few 'turn 2 1' "round $few 1"
short_agents 32 | scenario many 'turn 31 1' "round $many 1"
times=$(least waits=6 waits.one=6 ended=6 ended.one=6 few=6 few.one=6 many=6 many.one=6)
read -r waits waits_one ended ended_one few_time few_one many_time many_one <<<"$times"
waits=$((waits - waits_one))
ended=$((ended - ended_one))
few_time=$((few_time - few_one))
many_time=$((many_time - many_one))
few_alone=$((few_time - ended * few / idle))
many_alone=$((many_time - ended * many / idle))

heading 'turns of one agent' turns 'time ms' 'ns/turn'
row 'waits at a lock that another holds' "$alone" "$waits"
row 'has ended' "$idle" "$ended"
echo
heading 'one round line, a lock that the last one holds' turns 'time ms' 'ns/turn'
row '2 agents wait, with the turns of the holder' $((3 * few)) "$few_time"
row '2 agents wait, without them' $((2 * few)) "$few_alone"
row '31 agents wait, with the turns of the holder' $((32 * many)) "$many_time"
row '31 agents wait, without them' $((31 * many)) "$many_alone"
compare 'a turn of 31 that wait to one of 2' "$many_alone" $((31 * many)) "$few_alone" $((2 * few))

# ---- whole transitions

# A round gives each agent the turns of a pair, so none waits and none has ended. All pairs are at the
# address 0x0, where one has 40 bytes; the rest of a scenario has less than 600. The same calls at 0x1,
# which is no granule's address, are answered `inval` without acts, for the price of the answers' lines.
readonly one_pairs=$(((most_bytes - 600) / 40)) shared_pairs=$(((most_bytes - 600) / 40 / 32))
pair_agents 1 "$one_pairs" 0x0 | scenario one "round $pair_acts $one_pairs"
pair_agents 1 "$one_pairs" 0x1 | scenario one_refused 'turn 0 1'
pair_agents 32 "$shared_pairs" 0x0 | scenario shared "round $pair_acts $shared_pairs"
pair_agents 32 "$shared_pairs" 0x1 | scenario shared_refused 'turn 0 1'
times=$(least waits=6 waits.one=6 one=0 one.one=6 one_refused=0 shared=0 shared.one=6 shared_refused=0)
read -r again again_one one one_one one_refused shared shared_one shared_refused <<<"$times"

echo
heading 'whole transitions, each turn an act; with printing' acts 'time ms' 'ns/act'
readonly one_acts=$((one_pairs * pair_acts)) shared_acts=$((32 * shared_pairs * pair_acts))
row "1 agent, $one_pairs pairs" "$one_acts" $((one - one_one))
row '  less as many lines "inval"' "$one_acts" $((one - one_refused))
row "32 agents, $shared_pairs pairs each" "$shared_acts" $((shared - shared_one))
row '  less as many lines "inval"' "$shared_acts" $((shared - shared_refused))
row 'for comparison: a turn that waits, as above' "$alone" $((again - again_one))
compare 'an act of 32 agents to one of 1 agent' "$((shared - shared_refused))" "$shared_acts" "$((one - one_refused))" "$one_acts"

# The C program that the yardstick is, built once.
if [ -n "${YARDSTICK:-}" ]; then
    cc -O2 -o "$folder/yardstick" "$YARDSTICK"
fi

# Holds nanoseconds for an act against the yardstick's line $1: what it is, microseconds, acts, the most.
hold() {
    "$folder/yardstick" | awk -v line="$1" -v what="$2" -v time="$3" -v acts="$4" -v most="$5" '$1 == line {
        printf "%-50s %30.2f\n", "yardstick: " line, $2
        ratio = time * 1e3 / acts / $2
        printf "%s to it: ratio %.2f of at most %s\n", what, ratio, most
        if (ratio > most) exit 1
    }' || failed=1
}

# A scenario of $1 processors with $2 accesses each, each processor at a granule of its own from the address $3 on and at the
# one 64 KB after it by turns. Each keeps one walk, so that none is hit.
accesses() {
    ring=1 head_text
    awk -v processors="$1" -v looks="$2" -v first="$3" 'BEGIN {
        for (i = 0; i < processors; i++) {
            print "cpu"
            for (k = 0; k < looks; k++) printf "look 0x%x nonsecure\n", first + i * 4096 + k % 2 * 65536
        }
    }'
}

# A scenario of a processor that fills its ring of $1 walks, and then has $2 accesses by the oldest of them. The first
# gigabyte is described in the way $3 and the second in the way $4: where the first is a `block`, no access has an act.
hits() {
    ring=$1 setup_text
    printf 'region 0x0 0x40000000 %s root\nregion 0x40000000 0x40000000 %s root\ncpu\n' "$3" "$4"
    awk -v ring="$1" -v looks="$2" 'BEGIN {
        for (i = 0; i < ring; i++) printf "look 0x%x root\n", i * 65536
        for (k = 0; k < looks; k++) print "look 0x0 root"
    }'
}

# Acts without their report: less the same scenario with one turn, and less one with as many answers without acts (calls
# that are answered `inval`, and accesses at the second gigabyte, an L0 block), which touches the same memory for the
# first time. The second is what is held against the yardstick, which keeps no answers. An access has 26 bytes, one that
# is hit 14, and one that fills a ring at most 19.
if [ -n "${TURNS:-}" ]; then
    readonly one_looks=$(((most_bytes - 600) / 26)) look_acts=8 hit_acts=4 inside=$((1 << 28))
    readonly hit_looks=$(((most_bytes - 600 - 64 * 19) / 14))
    readonly few_looks=$((one_looks / 2)) many_looks=$((one_looks / 32 - 1))
    accesses 1 "$one_looks" "$inside" | scenario access "turn 0 $((one_looks * look_acts))"
    accesses 1 "$one_looks" "$gigabyte" | scenario idle_access 'turn 0 1'
    accesses 2 "$few_looks" "$inside" | scenario accesses2 "round 1 $((few_looks * look_acts))"
    accesses 32 "$many_looks" "$inside" | scenario accesses32 "round 1 $((many_looks * look_acts))"
    for size in 8 64; do
        hits "$size" "$hit_looks" granule block | scenario "hits$size" "turn 0 $((size * look_acts + hit_looks * hit_acts))"
        hits "$size" "$hit_looks" block granule | scenario "idle_hits$size" 'turn 0 1'
    done
    times=$(least_by "$TURNS" one=0 one.one=0 one_refused=0 shared=0 shared.one=0 shared_refused=0 \
        access=0 access.one=0 idle_access=0 accesses2=0 accesses2.one=0 accesses32=0 accesses32.one=0 \
        hits8=0 hits8.one=0 idle_hits8=0 hits64=0 hits64.one=0 idle_hits64=0)
    read -r one one_one one_idle shared shared_one shared_idle \
        access access_one access_idle by2 by2_one by32 by32_one \
        hit8 hit8_one hit8_idle hit64 hit64_one hit64_idle <<<"$times"
    readonly hit8_acts=$((8 * look_acts + hit_looks * hit_acts)) hit64_acts=$((64 * look_acts + hit_looks * hit_acts))
    readonly access_acts=$((one_looks * look_acts))
    readonly by2_acts=$((2 * few_looks * look_acts)) by32_acts=$((32 * many_looks * look_acts))
    echo
    heading 'each turn an act; no report' acts 'time ms' 'ns/act'
    row "whole transitions: 1 agent, $one_pairs pairs" "$one_acts" $((one - one_one))
    row '  less as many answers' "$one_acts" $((one - one_idle))
    row "32 agents, $shared_pairs pairs each" "$shared_acts" $((shared - shared_one))
    row '  less as many answers' "$shared_acts" $((shared - shared_idle))
    row "accesses that walk: 1 processor, $one_looks" "$access_acts" $((access - access_one))
    row '  less as many answers' "$access_acts" $((access - access_idle))
    row "2 processors, $few_looks each, in turns" "$by2_acts" $((by2 - by2_one))
    row "32 processors, $many_looks each, in turns" "$by32_acts" $((by32 - by32_one))
    row "accesses that hit the oldest of 8, $hit_looks" "$hit8_acts" $((hit8 - hit8_one))
    row '  less as many answers' "$hit8_acts" $((hit8 - hit8_idle))
    row "accesses that hit the oldest of 64, $hit_looks" "$hit64_acts" $((hit64 - hit64_one))
    row '  less as many answers' "$hit64_acts" $((hit64 - hit64_idle))
    compare 'an act of 32 agents to one of 1 agent' $((shared - shared_one)) "$shared_acts" $((one - one_one)) "$one_acts"
    compare 'an act of 32 processors to one of 2' $((by32 - by32_one)) "$by32_acts" $((by2 - by2_one)) "$by2_acts"
    if [ -n "${YARDSTICK:-}" ]; then
        hold act 'an act of 1 agent' $((one - one_idle)) "$one_acts" "$most_act_ratio"
        hold act 'an act of 32 agents' $((shared - shared_idle)) "$shared_acts" "$most_act_ratio"
        hold act 'an act of 1 processor that walks' $((access - access_idle)) "$access_acts" "$most_act_ratio"
        hold access 'an act of hits in a ring of 8' $((hit8 - hit8_idle)) "$hit8_acts" "$most_hit_ratio"
        hold search 'an act of hits in a ring of 64' $((hit64 - hit64_idle)) "$hit64_acts" "$most_search_ratio"
    fi
fi

# ---- few and many regions and calls

# One agent at the last granule of the last region, where a pair has 54 bytes and a region at most 45, with as
# many pairs as an input has beside 256 regions, and with half of them.
readonly last_granule=0x3ffff000
readonly many_pairs=$(((most_bytes - 600 - 256 * 45) / 54)) few_pairs=$(((most_bytes - 600 - 256 * 45) / 54 / 2))
for regions in 1 256; do
    pair_agents 1 "$many_pairs" "$last_granule" "$regions" | scenario "regions$regions" "round $pair_acts $many_pairs"
done
pair_agents 1 "$few_pairs" "$last_granule" 1 | scenario calls "round $pair_acts $few_pairs"
times=$(least regions1=0 regions1.one=6 regions256=0 regions256.one=6 calls=0 calls.one=6)
read -r region1 region1_one region256 region256_one calls calls_one <<<"$times"

echo
heading 'whole transitions of 1 agent; with printing' acts 'time ms' 'ns/act'
readonly many_acts=$((many_pairs * pair_acts)) few_acts=$((few_pairs * pair_acts))
row "$many_pairs pairs, 1 region" "$many_acts" $((region1 - region1_one))
row "$many_pairs pairs, 256 regions" "$many_acts" $((region256 - region256_one))
row "$few_pairs pairs, 1 region" "$few_acts" $((calls - calls_one))
compare 'an act with 256 regions to one with 1' $((region256 - region256_one)) "$many_acts" $((region1 - region1_one)) "$many_acts"
compare 'an act with twice the calls' $((region1 - region1_one)) "$many_acts" $((calls - calls_one)) "$few_acts"

# ---- splitting and merging

readonly split_pairs=$((most_turns / split_acts))
readonly all_split=$((split_pairs * split_acts))
max=512 pair_agents 1 "$split_pairs" 0x0 | scenario line "turn 0 $all_split"
max=512 pair_agents 1 "$split_pairs" 0x0 | scenario rounds "round 64 $((all_split / 64 + 1))"
max=512 pair_agents 1 "$split_pairs" 0x0 | scenario single "round 1 $all_split"
times=$(least line=0 line.one=6 rounds=0 rounds.one=6 single=0 single.one=6)
read -r line line_one rounds rounds_one single single_one <<<"$times"

echo
heading 'splitting and merging of 512 MB; with printing' acts 'time ms' 'ns/act'
row "$split_pairs pairs in one turn line, by runs" "$all_split" $((line - line_one))
row "$split_pairs pairs in rounds of 64 turns" "$all_split" $((rounds - rounds_one))
row "$split_pairs pairs in rounds of 1 turn" "$all_split" $((single - single_one))
if [ -n "${YARDSTICK:-}" ]; then
    hold store 'an act of one turn line' $((line - line_one)) "$all_split" "$most_store_ratio"
fi

# ---- one acts and the rest wait

# A call takes the lock in the round in which the one before let it go, but where the last agent lets it
# go. So all have ended after as many rounds as there are acts, less the calls of all agents but one. The
# lines of the answers are in the times: of 2 agents they are a few nanoseconds a turn.
readonly two_pairs=$(((most_bytes - 600) / 48 / 2)) all_pairs=$(((most_bytes - 600) / 48 / 32))
readonly two_rounds=$((2 * two_pairs * pair_acts - 2 * two_pairs))
readonly all_rounds=$((32 * all_pairs * pair_acts - 31 * 2 * all_pairs))
pair_agents 2 "$two_pairs" | scenario two "round 1 $two_rounds"
pair_agents 32 "$all_pairs" | scenario all "round 1 $all_rounds"
times=$(least two=0 two.one=6 all=0 all.one=6)
read -r two two_one all all_one <<<"$times"

echo
heading 'one acts and the rest wait; with printing' turns 'time ms' 'ns/turn'
row "2 agents, $two_pairs pairs each" $((2 * two_rounds)) $((two - two_one))
row "32 agents, $all_pairs pairs each" $((32 * all_rounds)) $((all - all_one))
if [ -n "${YARDSTICK:-}" ]; then
    hold wait 'a turn where one of 32 acts' $((all - all_one)) $((32 * all_rounds)) "$most_wait_ratio"
fi

exit "$failed"
