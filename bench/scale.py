#!/usr/bin/env python3
"""How time and memory of a run grow with each of its sizes: the text, the callers, the turns of the schedule, and the
memory that is protected.

    bench/scale.py PROGRAM [RUNS]

Each row has a small run and a large one, by how much the large one is larger, and how its processor time (the least of
RUNS runs, 9 if left out) and its peak memory grew, both above the usage line. The last column is what the time may grow
by: the size's own factor and a quarter more. The status is 1 where a row is above it. A megabyte is 1,000,000 bytes."""
import sys

from measured import peak, run

program = sys.argv[1]
runs = int(sys.argv[2]) if len(sys.argv) > 2 else 9
LIMIT = 1048576


def head(gigabytes, tables, largest=0):
    return (f"gpt 1\nspace {gigabytes}\nmax {largest}\nlocks 1\nfirst 0\nring 8\ntables {tables}\nbase 0x80000000\n"
            f"region 0x0 {tables << 30:#x} granule nonsecure\n")


def callers(count, calls, turns):
    """Agents with this many calls each, each agent in 512 MB of its own, and turns for all of them."""
    pair = ["delegate {} realm\n", "undelegate {} realm\n"]
    lists = ["agent\n" + "".join(pair[k % 2].format(hex((n % 32 << 29) + 0x200000)) for k in range(calls))
             for n in range(count)]
    return "".join(lists) + f"round {turns} 1\n"


def text(body, space=(64, 16)):
    return (head(*space) + body + "end\n").encode()


# The second agent waits for the lock that the first one holds.
WAIT = "agent\ndelegate 0x200000 realm\nagent\ndelegate 0x201000 realm\nturn 0 1\nturn 1 %d\n"
# Each pair of calls of an agent makes 31 acts, so 20 turns a call are enough.
CASES = [
    ("text: transitions of 32 agents, 0.25 MB to 1 MB", 4,
     text(callers(32, 290, 290 * 20)), text(callers(32, 1160, 1160 * 20)), 0),
    ("text: turn lines, 0.25 MB to 1 MB", 4,
     text("agent\n" + "turn 0 1\n" * 29000, (4, 1)), text("agent\n" + "turn 0 1\n" * 116000, (4, 1)), 0),
    ("callers: 1 to 32, with 32 times the calls", 32, text(callers(1, 1000, 20000)), text(callers(32, 1000, 20000)), 0),
    ("turns: an agent waits for a lock, 625,000 to 20,000,000", 32, text(WAIT % 624999, (4, 1)),
     text(WAIT % 19999999, (4, 1)), 6),
    ("memory protected: 64 GB, 1 table to 16", 16, text("", (64, 1)), text("", (64, 16)), 0),
]


def least(words, given, status):
    """Microseconds of processor, the least of the runs, and the peak bytes of memory."""
    return min(run(program, words, given, status)[0] for _ in range(runs)), peak(program, words, given)


failed = False
idle, base = least([], b"", 2)
for what, factor, small, large, status in CASES:
    assert len(small) <= LIMIT and len(large) <= LIMIT, (what, len(small), len(large))
    (t, m), (u, n) = least(["play"], small, status), least(["play"], large, status)
    grown = (u - idle) / max(t - idle, 1)
    failed = failed or grown > 1.25 * factor
    print(f"{what}: {(t - idle) / 1e3:.2f} ms, {(m - base) / 1e6:.1f} MB to {(u - idle) / 1e3:.2f} ms, "
          f"{(n - base) / 1e6:.1f} MB: {grown:.2f} of at most {1.25 * factor:g} times")
sys.exit(failed)
