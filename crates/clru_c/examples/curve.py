#!/usr/bin/env python3
"""Prints a small table of the keys in its input, one number a line, at the capacities 1, 2, 4 and so on:

    curve.py LIBCLRU.SO < KEYS
"""
import pathlib
import sys

sys.path.insert(0, str(pathlib.Path(__file__).resolve().parent.parent / "python"))
import clru


def main():
    clru.load(sys.argv[1])
    keys = [int(line) for line in sys.stdin]
    misses, distinct = clru.misses_by_capacity(keys, len(keys))
    rooms = [2**power for power in range(64) if 2**power <= distinct]
    print("capacity,misses,least_misses")
    for room, fewest in zip(rooms, clru.least_by_room(keys, rooms)):
        print(f"{room},{misses[room - 1]},{fewest}")


if __name__ == "__main__":
    main()
