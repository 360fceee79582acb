#!/usr/bin/env python3
"""Times `PROGRAM load 0` above the usage line, the least that a process takes; times `PROGRAM play` on texts
whose calls are all answered at once, so that reading and reporting is all the work; and holds the peak memory
of runs against the sizes of their words and their texts.

    bench/load.py PROGRAM [RUNS]

Each time is processor time, the least of RUNS runs (25 if left out), and each line ends with what it may be at
most. The status is 1 where one is above it. A megabyte is 1,000,000 bytes."""
import sys

from measured import peak, run

program = sys.argv[1]
runs = int(sys.argv[2]) if len(sys.argv) > 2 else 25
LIMIT = 1048576
failed = False


def least(cases):
    """The least time of each of the cases, which run by turns, its peak memory, and what it wrote."""
    kept = [None] * len(cases)
    for _ in range(runs):
        for k, case in enumerate(cases):
            spent, out = run(program, *case)
            kept[k] = (spent, out) if kept[k] is None else (min(spent, kept[k][0]), out)
    return [(spent, peak(program, *case[:2]), out) for (spent, out), case in zip(kept, cases)]


def hold(what, value, unit, most):
    """Prints a value and what it may be at most."""
    global failed
    print(f"{what}: {value:.2f} of at most {most:g} {unit}")
    failed = failed or value > most


def head(gigabytes, tables):
    return (f"gpt 1\nspace {gigabytes}\nmax 512\nlocks 1\nfirst 0\nring 8\ntables {tables}\nbase 0x80000000\n"
            f"region 0x0 {tables << 30:#x} granule nonsecure\n")


def repeated(section, line, size, schedule):
    """A text of at most this size with one line again and again."""
    begin, end = head(4, 1) + section + "\n", schedule + "end\n"
    return (begin + (line + "\n") * ((size - len(begin) - len(end)) // (len(line) + 1)) + end).encode()


def words_of(gigabytes, tables, cpus):
    """The bytes of the shared words: locks, generations, duty words, level 1 words and line words."""
    return 8 * (2 + 546 * gigabytes + cpus + 2 * 16384 * tables)


texts = {
    "calls that are no granule's": ("agent", "delegate 0x1 realm", ""),
    "accesses at a block": ("cpu", "look 0x40000000 nonsecure", ""),
    "turns of a caller without calls": ("agent", "turn 0 1", ""),
}
cases = [([], b"", 2), (["load", "0"], b"", 0), (["play"], (head(64, 16) + "end\n").encode(), 0)]
cases += [(["play"], repeated(*texts[what][:2], size, texts[what][2]), 0) for what in texts for size in (LIMIT // 4, LIMIT)]
(idle, base, _), (load, load_memory, load_out), (large, large_memory, large_out), *rest = least(cases)

print(f"the usage line: {idle / 1e3:.2f} ms")
hold("load 0, above the usage line", (load - idle) / 1e3, "ms", 3)
for k, what in enumerate(texts):
    quarter, whole = rest[2 * k], rest[2 * k + 1]
    size, out = len(cases[3 + 2 * k + 1][1]), len(whole[2])
    hold(f"play of 1 MB of {what}, {out} bytes of report", (whole[0] - idle) * 1e3 / (size + out), "ns a byte", 5)
    hold("  to a quarter of it", (whole[0] - idle) / (quarter[0] - idle), "times", 6)

# Memory: the words twice, the text and the report twice, and 2 MB, above the usage line.
print(f"the usage line: {base / 1e6:.2f} MB")
hold("memory of load 0", (load_memory - base) / 1e6, "MB", (2 * words_of(4, 4, 4) + 2 * len(load_out)) / 1e6 + 2)
hold("memory of 64 GB with 16 tables", (large_memory - base) / 1e6, "MB",
     (2 * words_of(64, 16, 0) + 2 * len(large_out)) / 1e6 + 2)
for k, (what, (section, _, _)) in enumerate(texts.items()):
    text, (_, memory, out) = cases[3 + 2 * k + 1][1], rest[2 * k + 1]
    hold(f"memory of 1 MB of {what}", (memory - base) / 1e6, "MB",
         (2 * words_of(4, 1, section == "cpu") + 2 * (len(text) + len(out))) / 1e6 + 2)
sys.exit(failed)
