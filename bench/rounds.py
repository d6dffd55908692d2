"""The groups of rows, each of which can be measured alone."""

import subprocess
import sys

from measure import Measured, answer, run_program, turned

# The rows of a list of requests, and who answers each.
PASSES = {it: ("ours", "plain") for it in ("curve", "sizes", "least", "rooms")}
PASS_CAPACITIES = (10**4, 10**5)  # for four times as many keys
PASS_CALLS = 10**6
MEMORY_CAPACITY = 10**5
TABLE_CAPACITY = 10**5
ROOMS = [TABLE_CAPACITY * at // 10 for at in range(1, 21)]


def measure_all(given, built):
    answer(built, "hashes")
    measured = Measured()
    for at in range(given.rounds):
        print(f"bench: round {at + 1} of {given.rounds}", file=sys.stderr)
        for group in given.only:
            GROUPS[group](measured, given, built, at)
    measured.agree()
    return measured


def stages(measured, given, built, at):
    for capacity in given.capacities:
        for cache in turned(built.names, at):
            add_lines(measured, capacity, cache, answer(built, "stages", cache, capacity, given.calls))


def fills(measured, given, built, at):
    for capacity in given.capacities:
        for cache in turned(built.names, at):
            text = answer(built, "reserved", cache, capacity) + answer(built, "made", cache, capacity)
            add_lines(measured, capacity, cache, text)


def texts(measured, given, built, at):
    for capacity in given.capacities:
        for cache in turned(built.names, at):
            add_lines(measured, capacity, cache, answer(built, "texts", cache, capacity, given.calls))


def add_lines(measured, capacity, cache, text):
    for line in text.splitlines():
        stage, *words = line.split()
        calls, time, *counts = map(int, words)
        measured.add((stage, capacity, cache), calls, time, tuple(counts))


def memory(measured, given, built, at):
    """Memory is the same in each round: it is looked at in the first, where the entries are many beside a process's own."""
    if at:
        return
    for capacity in [it for it in given.capacities if it >= MEMORY_CAPACITY]:
        for cache in built.names:
            found = map(int, answer(built, "memory", cache, capacity).split())
            for stage, grown in zip(("highest", "rest"), found):
                measured.bytes[stage, capacity, cache] = grown / capacity


def curve(measured, given, built, at):
    for capacity in PASS_CAPACITIES:
        add_passes(measured, built, at, ["curve"], capacity, PASS_CALLS)
    if given.long:
        add_passes(measured, built, at, ["curve"], PASS_CAPACITIES[-1], 10 * PASS_CALLS)


def sizes(measured, given, built, at):
    for capacity in PASS_CAPACITIES:
        add_passes(measured, built, at, ["sizes"], capacity, PASS_CALLS)


def least(measured, given, built, at):
    for capacity in PASS_CAPACITIES:
        add_passes(measured, built, at, ["least", "rooms"], capacity, PASS_CALLS)


def add_passes(measured, built, at, rows, capacity, calls):
    """Adds rows of one list, and a replay of it right beside them."""
    for row in rows:
        for what, who in turned([("replay", "ours"), *((row, it) for it in PASSES[row])], at):
            _, *words = answer(built, "pass", what, who, capacity, calls).split()
            calls, time, *counts, grown, distinct = map(int, words)
            name = f"beside {row}" if what == "replay" else row
            cell = measured.add((name, (capacity, calls), who), calls, time, tuple(counts))
            cell.bytes.append(grown)
            cell.distinct = distinct


def program(measured, given, built, at):
    for capacity in given.lines_capacities:
        source = input_of(given, built, capacity)
        for cache in turned(built.names, at):
            words = [built.programs[0]] if cache == "ours" else [built.driver, "lines", cache]
            run_program(measured, built, ("lines", capacity, cache), words, source, given.lines)


def mrc(measured, given, built, at):
    """The table of many capacities, and the replay of one of them by our other program, of the same lines."""
    replayed = input_of(given, built, TABLE_CAPACITY)
    requests = built.work / "requests"
    with open(replayed, "rb") as source, open(requests, "wb") as out:
        source.readline()
        out.write(source.read())
    replay, table = built.programs
    rooms = ",".join(map(str, ROOMS))
    runs = [
        ("replayed", "ours", [replay], replayed),
        ("table", "ours", [table], requests),
        ("table", "plain", [built.driver, "table"], requests),
        ("table, least", "ours", [table, "--least", "--at", rooms], requests),
        ("table, least", "plain", [built.driver, "table", rooms], requests),
    ]
    for row, who, words, source in turned(runs, at):
        run_program(measured, built, (row, (TABLE_CAPACITY, given.lines), who), words, source, given.lines)


def input_of(given, built, capacity):
    """The lines of the program's input, written once."""
    source = built.work / f"lines-{capacity}-{given.lines}"
    if not source.exists():
        part = source.with_suffix(".part")
        with open(part, "wb") as out:
            words = [built.driver, "input", str(capacity), str(given.lines)]
            subprocess.run(words, stdout=out, check=True)
        part.rename(source)
    return source


GROUPS = {it.__name__: it for it in (stages, fills, texts, memory, program, curve, sizes, least, mrc)}
