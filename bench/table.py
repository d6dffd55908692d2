"""The tables."""

STAGES = {
    "replay": "replay",
    "get": "get, hits",
    "absent": "get, misses",
    "evict": "put, evicting",
    "pop": "pop and put",
    "fill": "fill",
    "reserved": "fill, reserved",
    "made": "make and fill",
    "text_fill": "texts, fill",
    "text_get": "texts, get",
    "text_evict": "texts, put",
    "lines": "program, a line",
}
MEMORY = {"highest": "bytes an entry, at most", "rest": "bytes an entry, at rest"}
# A row of many capacities, and the row of the replay that it stands beside.
PASSES = {
    "curve": ("curve", "beside curve"),
    "sizes": ("sizes", "beside sizes"),
    "least": ("least, a room", "beside least"),
    "rooms": ("least, 20 rooms", "beside rooms"),
    "table": ("clru_mrc", "replayed"),
    "table, least": ("clru_mrc, least", "replayed"),
}


def print_tables(given, built, measured):
    print(built.tools)
    print(f"ns of processor time a call: the minimum and the median of {given.rounds} rounds")
    for rows in (cache_rows(built, measured), pass_rows(measured)):
        if len(rows) > 1:
            print()
            print_aligned(rows)


def cache_rows(built, measured):
    """In brackets ours by theirs, of the least times."""
    rows = [["", "capacity", *built.names.values(), "ours by best", "hits", "misses"]]
    for stage, name in STAGES.items():
        for capacity in capacities_of(measured.cells, stage):
            ours, *theirs = (measured.cells[stage, capacity, it] for it in built.names)
            hits, misses, _ = ours.counts
            rows.append([name, str(capacity), *shown(ours, theirs), str(hits), str(misses)])
    for stage, name in MEMORY.items():
        for capacity in capacities_of(measured.bytes, stage):
            ours, *theirs = (measured.bytes[stage, capacity, it] for it in built.names)
            texts = [f"{it:.1f} ({ours / it:.2f})" for it in theirs]
            rows.append([name, str(capacity), f"{ours:.1f}", *texts, f"{ours / min(theirs):.2f}", "", ""])
    return rows


def capacities_of(found, stage):
    return sorted({capacity for it, capacity, _ in found if it == stage})


def shown(ours, theirs):
    """Our times, each of theirs with the ratio, and the ratio to the least of theirs."""
    best = ours.best() / min(it.best() for it in theirs)
    return [times(ours), *(f"{times(it)} ({ours.best() / it.best():.2f})" for it in theirs), f"{best:.2f}"]


def times(cell):
    return f"{cell.best():.1f} {cell.middle():.1f}"


def pass_rows(measured):
    rows = [["", "keys", "requests", "replay", "ours", "by replay", "plain", "by plain", *BYTES]]
    for stage, (name, beside) in PASSES.items():
        for capacity, calls in capacities_of(measured.cells, stage):
            replay, ours = (measured.cells[it, (capacity, calls), "ours"] for it in (beside, stage))
            plain = measured.cells[stage, (capacity, calls), "plain"]
            row = [name, str(4 * capacity), str(calls), times(replay), times(ours)]
            row += [f"{ours.best() / replay.best():.2f}", times(plain), f"{ours.best() / plain.best():.2f}"]
            rows.append(row + bytes_of(stage, replay, ours, plain))
    return rows


BYTES = ["bytes a", "ours", "plain", "replay"]


def bytes_of(stage, replay, ours, plain):
    """The highest memory by what it goes with: distinct keys, or requests, of which a line of a program is one. A replay in one
    process with its requests holds them twice, so its memory says something for programs alone."""
    unit, by = ("key", ours.distinct) if stage == "curve" else ("request", ours.calls)
    beside = "" if ours.distinct else f"{max(replay.bytes) / by:.1f}"
    return [unit, *(f"{max(it.bytes) / by:.1f}" for it in (ours, plain)), beside]


def print_aligned(rows):
    """Prints the first word of each row to the left of its column, and the others to the right."""
    widths = [max(map(len, column)) for column in zip(*rows)]
    for words in rows:
        padded = [it.rjust(width) for it, width in zip(words, widths)]
        padded[0] = words[0].ljust(widths[0])
        print("  ".join(padded).rstrip())
