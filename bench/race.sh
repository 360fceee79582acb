#!/usr/bin/env bash
# Wall time of `PROGRAM race`, whose callers run beside each other on shared atomic words.
#
#     bench/race.sh PROGRAM [RUNS]
#
# Each time is that of the fastest of RUNS runs (9 if left out), less that of the same scenario without calls, which is read
# and built alike. The scenarios that a line compares run by turns. Where a ratio is above what it may be at most, the
# status is 1. The limits are those of four processors where nothing else runs.
#
# `board`: 2 agents that split and merge 512 MB, each under its own lock, and 4 processors whose accesses are hit, 2,000 calls in
# all, by `race` and by `play`, most of whose turns are in rounds of one turn.
#
# `64 GB`: 32 agents, each on a lock block of its own of a space of 64 GB with 16 tables. One of them has calls, or four have
# as many each, which on four processors should take little longer.
# They split and merge 512 MB, and 32 MB by `max 32`, where the text is nearly 1 MB. The time of the same text is
# taken off in which no address is aligned, so that each call is read, answered at once and printed.
set -euo pipefail
export LC_ALL=C

readonly program=${1:?usage: bench/race.sh PROGRAM [RUNS]}
readonly runs=${2:-9}
# Pairs of an agent: of 512 MB, and of 32 MB, of which four agents have a text of nearly 1 MB.
readonly split_pairs=100 small_pairs=4400
failed=0

folder=$(mktemp -d)
readonly folder
trap 'rm -rf "$folder"' EXIT

# The callers of the board.
board_callers() {
    awk 'BEGIN {
        split("realm secure", source, " "); split("40000000 60000000", base, " ")
        for (a = 0; a < 2; a++) {
            print "agent"
            for (i = 0; i < 250; i++) {
                address = sprintf("0x%x", (2 + a) * 536870912 + i * 4096)
                print "delegate", address, source[a + 1]; print "undelegate", address, source[a + 1]
            }
        }
        for (p = 0; p < 4; p++) {
            print "cpu"
            for (j = 0; j < 250; j++) printf "look 0x%x nonsecure\n", 2147483648 + j * 4096
        }
    }'
}

board() {
    printf '%s\n' 'gpt 1' 'space 4' 'max 512' 'locks 1' 'first 0' 'ring 8' 'tables 3' 'base 0xc0000000' \
        'region 0xc0000000 0x40000000 block root' 'region 0x0 0x40000000 granule secure' \
        'region 0x40000000 0x60000000 granule nonsecure' 'region 0xa0000000 0x20000000 granule realm'
    cat
}

# A scenario of 64 GB by `max` $1 with 32 agents, of which $2 have $3 pairs each, at addresses with $4 added.
scale() {
    printf '%s\n' 'gpt 1' 'space 64' "max $1" 'locks 1' 'first 0' 'ring 8' 'tables 16' 'base 0x2000000000' \
        'region 0x0 0x400000000 granule nonsecure'
    awk -v with_calls="$2" -v pairs="$3" -v added="$4" 'BEGIN {
        for (a = 0; a < 32; a++) {
            print "agent"
            for (k = 0; a % 8 == 0 && a / 8 < with_calls && k < pairs; k++) {
                address = sprintf("0x%x", a * 536870912 + k * 4096 + added)
                print "delegate", address, "realm"; print "undelegate", address, "realm"
            }
        }
        print "end"
    }'
}

# The least wall time of each of the cases $1, .., which run by turns, in microseconds; a case is a file and a command.
least() {
    python3 -c '
import os, sys, time
program, runs, folder = sys.argv[1], int(sys.argv[2]), sys.argv[3]
cases = [case.split("=") for case in sys.argv[4:]]
times = [[] for _ in cases]
sink = os.open("/dev/null", os.O_WRONLY)
for _ in range(runs):
    for (name, command), kept in zip(cases, times):
        source = os.open(folder + "/" + name, os.O_RDONLY)
        acts = [(os.POSIX_SPAWN_DUP2, source, 0), (os.POSIX_SPAWN_DUP2, sink, 1)]
        begin = time.monotonic()
        status = os.waitpid(os.posix_spawn(program, [program, command], os.environ, file_actions=acts), 0)[1]
        kept.append(time.monotonic() - begin)
        os.close(source)
        if status:
            sys.exit(f"{name} by {command}: status {os.waitstatus_to_exitcode(status)}")
print(*(round(min(kept) * 1e6) for kept in times))
' "$program" "$runs" "$folder" "$@"
}

# A line of the table: what it is, its calls, and its time in microseconds.
row() {
    awk -v what="$1" -v calls="$2" -v time="$3" 'BEGIN { printf "%-52s %10d %10.2f %10.1f\n", what, calls, time / 1e3, time * 1e3 / calls }'
}

# A ratio of two times, and what it may be at most.
hold() {
    awk -v what="$1" -v a="$2" -v b="$3" -v most="$4" 'BEGIN {
        ratio = b > 0 ? a / b : 0
        printf "%s: ratio %.2f of at most %s\n", what, ratio, most
        exit ratio > most
    }' || failed=1
}

# ---- the board

board_callers >"$folder/callers"
board <"$folder/callers" | cat - <(echo end) >"$folder/race"
# An agent has 4,121,500 acts: nearly three quarters of them in rounds of one turn, and then the rest, which is at most
# all turns that a schedule may have.
board <"$folder/callers" | cat - <(printf '%s\n' 'round 1 2900000' 'turn 0 1230000' 'turn 1 1230000' end) >"$folder/play"
for command in race play; do grep -vE '^(delegate|undelegate|look) ' "$folder/$command" >"$folder/$command.idle"; done
times=$(least race=race race.idle=race play=play play.idle=play)
read -r race race_idle play play_idle <<<"$times"
printf '%-52s %10s %10s %10s\n' 'the board: 2 agents, 4 processors' calls 'time ms' 'ns/call'
row 'by race' 2000 $((race - race_idle))
row 'by play, most turns in rounds of 1 turn' 2000 $((play - play_idle))
hold 'the board by race to play' $((race - race_idle)) $((play - play_idle)) 2

# ---- 64 GB

# The lines of `max` $1 with $2 pairs an agent, of what is called $3.
scale_lines() {
    local agents name cases=() times
    for agents in 1 4; do
        name=scale$1.$agents
        scale "$1" "$agents" "$2" 0 >"$folder/$name"
        scale "$1" "$agents" "$2" 2048 >"$folder/$name.idle"
        cases+=("$name=race" "$name.idle=race")
    done
    times=$(least "${cases[@]}")
    read -r one one_idle four four_idle <<<"$times"
    row "$3: 1 agent with calls" $((2 * $2)) $((one - one_idle))
    row "  4 agents with as many each" $((8 * $2)) $((four - four_idle))
    hold "$3: 4 agents to 1" $((four - four_idle)) $((one - one_idle)) 1.4
}

echo
printf '%-52s %10s %10s %10s\n' '64 GB, 32 agents on lock blocks of their own' calls 'time ms' 'ns/call'
scale_lines 512 "$split_pairs" 'splitting and merging of 512 MB'
scale_lines 32 "$small_pairs" 'splitting and merging of 32 MB'

exit "$failed"
