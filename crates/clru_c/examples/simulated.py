#!/usr/bin/env python3
"""Compares the misses by size with those of a plain simulation, and prints the table of `by_size.c`:

    simulated.py LIBCLRU.SO < KEYS_AND_SIZES

Each line has a key and a size. It fails where a number differs, with and without a seed.
"""
import collections
import pathlib
import sys

sys.path.insert(0, str(pathlib.Path(__file__).resolve().parent.parent / "python"))
import clru


def simulated(requests, capacity):
    """The misses and the missed size of an LRU cache of objects, whose sizes together are at most the capacity."""
    held, room, misses, missed = collections.OrderedDict(), capacity, 0, 0
    for request in requests:
        size = max(request[1], 1)
        if request in held:
            held.move_to_end(request)
            continue
        misses, missed, room = misses + 1, missed + size, room - size
        held[request] = size
        while room < 0:
            room += held.popitem(last=False)[1]
    return misses, missed


def main():
    clru.load(sys.argv[1])
    requests = [tuple(map(int, line.split())) for line in sys.stdin]
    keys, sizes = [list(column) for column in zip(*requests)]
    greatest, whole = max([1, *sizes]), sum(max(size, 1) for _, size in set(requests))
    capacities = [greatest << power for power in range(64) if power == 0 or greatest << power - 1 < whole]
    wanted = [simulated(requests, capacity) for capacity in capacities]
    for seed in (0, 0), (1, 2**63):
        misses, missed, distinct_size = clru.misses_by_size(keys, sizes, capacities, seed)
        found = [(int(a), int(b)) for a, b in zip(misses, missed)]
        if found != wanted or distinct_size != whole:
            sys.exit(f"simulated: {found} and {distinct_size} with seed {seed}, and not {wanted} and {whole}")
        most, first = {}, {}
        for key, size in requests:
            most[key] = max(size, most.get(key, 0))
        if list(clru.one_size(keys, sizes, seed=seed)) != [most[key] for key in keys]:
            sys.exit(f"simulated: other greatest sizes with seed {seed}")
        others = (at for at, (key, size) in enumerate(requests) if first.setdefault(key, size) != size)
        if clru.other_size(keys, sizes, seed) != next(others, None):
            sys.exit(f"simulated: another first size that differs, with seed {seed}")
    print("capacity,misses,missed_size")
    for capacity, numbers in zip(capacities, wanted):
        print(capacity, *numbers, sep=",")


if __name__ == "__main__":
    main()
