"""Counts what a processor does in each stage, by valgrind. The numbers are the same on each machine and in each run."""

import subprocess
import sys

from rounds import PASS_CALLS, PASS_CAPACITIES, PASSES
from table import PASSES as NAMES
from table import STAGES, print_aligned

# The level that valgrind's names of options and of events have in them; the second cache is its last level, LL.
FIRST = 1
# A first and a second cache: 32 KB in sets of 8 lines, and 2 MB in sets of 16.
CACHES = [f"--I{FIRST}=32768,8,64", f"--D{FIRST}=32768,8,64", "--LL=2097152,16,64"]
# As they come one after another: a dump ends at each look at the clock, which a stage takes at its start and at its end.
ORDER = {
    "stages": ["replay", "fill", "get", "evict", "pop", "absent"],
    "reserved": ["reserved"],
    "made": ["made"],
    "texts": ["text_fill", "text_get", "text_evict"],
}
# What each group of rows runs.
RUNS = {"stages": ["stages"], "fills": ["reserved", "made"], "texts": ["texts"]}
COUNTED = {
    "instructions": ["Ir"],
    "mispredicted": ["Bcm", "Bim"],
    "first-cache misses": [f"D{FIRST}mr", f"D{FIRST}mw"],
    "second-cache misses": ["DLmr", "DLmw"],
}


def print_counts(given, built):
    print(built.tools)
    print("a call, as valgrind counts it; caches of 32 KB and of 2 MB")
    for rows in (cache_rows(given, built), pass_rows(given, built)):
        if len(rows) > 1:
            print()
            print_aligned(rows)


def cache_rows(given, built):
    rows = [["", "capacity", "cache", *COUNTED]]
    for capacity in given.capacities:
        found = {it: counts_of(given, built, capacity, it) for it in built.names}
        for stage in [it for it in STAGES if it in found["ours"]]:
            for cache, name in built.names.items():
                rows.append([STAGES[stage], str(capacity), name, *map("{:.2f}".format, found[cache][stage])])
    return rows


def counts_of(given, built, capacity, cache):
    """By stage, what is counted of a call."""
    counts = {}
    for command in [it for group in given.only for it in RUNS.get(group, [])]:
        print(f"bench: counting {command} of {cache} at {capacity}", file=sys.stderr)
        words = [command, cache, capacity, *([given.calls] if command in ("stages", "texts") else [])]
        calls, dumps = run(built, words)
        for stage, total in zip(ORDER[command], dumps[1::2]):
            counts[stage] = per_call(total, calls[stage])
    return counts


def per_call(total, calls):
    return [sum(total.get(it, 0) for it in events) / calls for events in COUNTED.values()]


def pass_rows(given, built):
    """The rows of a list of requests: ours and plain Rust, and one replay of ours."""
    rows = [["", "keys", "by", *COUNTED]]
    passes = [it for it in ("curve", "sizes", "least") if it in given.only]
    for capacity in PASS_CAPACITIES if passes else []:
        for row, who in [("replay", "ours"), *((row, who) for row in passes for who in PASSES[row])]:
            print(f"bench: counting {row} of {who} at {capacity}", file=sys.stderr)
            _, dumps = run(built, ["pass", row, who, capacity, PASS_CALLS])
            name = NAMES[row][0] if row in NAMES else row
            counts = map("{:.2f}".format, per_call(dumps[1], PASS_CALLS))
            rows.append([name, str(4 * capacity), who, *counts])
    return rows


def run(built, words):
    """How many calls each stage had, and what was counted before each look at the clock."""
    folder = built.work / "counts"
    folder.mkdir(exist_ok=True)
    for old in folder.iterdir():
        old.unlink()
    tool = ["valgrind", "-q", "--tool=callgrind", "--branch-sim=yes", "--cache-sim=yes", *CACHES]
    tool += ["--dump-before=clock_gettime*", f"--callgrind-out-file={folder}/out"]
    words = [*tool, built.driver, *map(str, words)]
    ran = subprocess.run(words, stdout=subprocess.PIPE, stderr=subprocess.DEVNULL, text=True, check=True)
    files = sorted((it for it in folder.iterdir() if it.suffix), key=lambda it: int(it.suffix[1:]))
    lines = [line.split() for line in ran.stdout.splitlines()]
    return {stage: int(calls) for stage, calls, *_ in lines}, [total_of(it) for it in files]


def total_of(file):
    lines = file.read_text().splitlines()
    names, numbers = ([it for it in lines if it.startswith(f"{head}:")][-1].split()[1:] for head in ("events", "totals"))
    return dict(zip(names, map(int, numbers)))
