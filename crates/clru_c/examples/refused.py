#!/usr/bin/env python3
"""Sees that clru.py says each code in words, refuses numbers that would be cut, and answers each call as small as can be:

    refused.py LIBCLRU.SO
"""
import ctypes
import io
import pathlib
import sys

sys.path.insert(0, str(pathlib.Path(__file__).resolve().parent.parent / "python"))
import clru


def seen(words, call, *arguments):
    """Fails unless the call is refused with these words."""
    try:
        call(*arguments)
    except (TypeError, ValueError, MemoryError) as error:
        if words in str(error):
            return
        sys.exit(f"refused: {error}, and not {words}")
    sys.exit(f"refused: {call.__name__}{arguments} was not")


def too_short():
    """Hits of two keys, with a place for one."""
    clru._call("clru_hits_at", clru._numbers([1, 2]), 1, 0, 0, (ctypes.c_bool * 1)(), ctypes.c_size_t())


def answered():
    """What each call answers, as plain lists."""
    hits, misses = clru.hits_at([1, 2, 1], 2)
    curve, distinct = clru.misses_by_capacity(clru.numbered(["a", "b", "a"]), 3)
    missed = clru.misses_by_size([1, 2, 1], [5, 6, 5], [6, 11])
    floors = clru.floor_by_size([1, 2, 1], [5, 6, 5], [1, 6])
    by_room = list(clru.least_by_room([1, 2, 1], [1])), list(clru.floor_by_room([1, 2, 1], [1]))
    return list(hits), misses, list(curve), distinct, *by_room, list(missed[0]), list(missed[1]), missed[2], list(floors[0]), list(floors[1])


def printed():
    """What a call returns without numpy, as it prints, and a quotient of its numbers."""
    installed, clru.numpy = clru.numpy, None
    misses, distinct = clru.misses_by_capacity(clru.numbered(["a", "b", "a"]), 3)
    shown = f"{clru.hits_at([1, 2, 1], 2)[0]} {misses} {misses[2] / distinct} {clru.one_size([1, 1], [2, 3])} {clru.numbered(['a'])}"
    clru.numpy = installed
    return shown


def sized():
    """Keys with several sizes: two objects, one of the greatest size, or refused."""
    keys, sizes = [1, 2, 1, 2, 1], [5, 6, 9, 6, 7]
    if list(clru.one_size(keys, sizes)) != [9, 6, 9, 6, 9] or list(clru.one_size([1, 2], [3, 4], refuse=True)) != [3, 4]:
        sys.exit(f"refused: one size of each key is {list(clru.one_size(keys, sizes))}")
    several, one = (clru.misses_by_size(keys, it, [15, 27]) for it in (sizes, clru.one_size(keys, sizes)))
    if (list(several[0]), several[2], list(one[0]), one[2]) != ([4, 4], 27, [2, 2], 15):
        sys.exit(f"refused: the misses of several sizes are {several}, and of one {one}")
    seen("the key 1 has the sizes 5 and 9: clru.one_size(keys, sizes)", clru.one_size, keys, sizes, True)
    seen("lengths", clru.one_size, keys, [1])
    seen("lengths", clru.other_size, keys, [1])
    if (clru.other_size(keys, sizes), clru.other_size(keys, clru.one_size(keys, sizes)), sizes) != (2, None, [5, 6, 9, 6, 7]):
        sys.exit(f"refused: the first key with another size is that of request {clru.other_size(keys, sizes)}")


def main():
    clru.load(sys.argv[1])
    sized()
    half = 2**63
    seen("is 0", clru.least_by_room, [1, 2], [0])
    seen("is 0", clru.floor_by_room, [1, 2], [0])
    seen("lengths", too_short)
    seen("memory", clru._check, 3)
    seen("pass 2^64 - 1", clru.misses_by_size, [1, 2], [half, half], [half])
    seen("pass 2^64 - 1", clru.floor_by_size, [1, 2], [half, half], [half])
    seen("less than the greatest", clru.misses_by_size, [1, 2], [3, 4], [3])
    seen("from 0 to 2^64 - 1", clru.misses_by_capacity, [1, 2**64 + 1], 2)
    seen("from 0 to 2^64 - 1", clru.misses_by_capacity, [1, -1], 2)
    seen("from 0 to 2^64 - 1", clru.hits_at, [1, 2], 2**64)
    seen("clru.numbered(keys)", clru.misses_by_capacity, [1.5, 2], 2)
    seen("clru.numbered(keys)", clru.misses_by_capacity, ["a", "b"], 2)
    for keys, what in ("text", "text"), (b"text", "text"), (io.StringIO("1\n2\n"), "file"):
        seen(f"and not a {what}: clru.numbered(open(path))", clru.misses_by_capacity, keys, 2)
    seen("text.splitlines()", clru.numbered, "text")
    for count in 2**48, 2**63, 2**64 - 1:
        seen(f"no memory for {count} results: ask for fewer", clru.misses_by_capacity, [1, 2], count)
    for seed in ((), (5,), (5, 6, 7), 5):
        seen("a seed is two numbers", clru.hits_at, [1, 2], 2, seed)
        seen("a seed is two numbers", clru.misses_by_capacity, [1, 2], 2, seed)
        seen("a seed is two numbers", clru.least_by_room, [1, 2], [1], seed)
        seen("a seed is two numbers", clru.floor_by_room, [1, 2], [1], seed)
        seen("a seed is two numbers", clru.floor_by_size, [1, 2], [3, 4], [8], seed)
        seen("a seed is two numbers", clru.misses_by_size, [1, 2], [3, 4], [8], seed)
        seen("a seed is two numbers", clru.one_size, [1, 2], [3, 4], False, seed)
        seen("a seed is two numbers", clru.other_size, [1, 2], [3, 4], seed)
    seen("lengths", clru.split, [[9, 1], [9]], 1)
    seen("from 0 to 2^64 - 1", clru.split, [[9]], 2**64)
    if list(clru.split([[9, 9, 1], [9, 8, 8]], 2)) != [2, 0] or list(clru.split([], 7)):
        sys.exit(f"refused: the parts are {list(clru.split([[9, 9, 1], [9, 8, 8]], 2))}")
    if clru._words((5, 6)) != (5, 6):
        sys.exit("refused: the words of a seed in another order")
    seen("", clru.hits_at, [1, 2, 3, 1], ctypes.c_size_t(2))
    wanted = [False, False, True], 2, [3, 2, 2], 2, [3], [2], [3, 2], [16, 11], 11, [3, 2], [15, 11]
    if answered() != wanted:
        sys.exit(f"refused: {answered()}, and not {wanted}")
    if printed() != "[False, False, True] [3, 2, 2] 1.0 [3, 3] [0]":
        sys.exit(f"refused: without numpy results print as {printed()}")
    if list(clru.hits_at([], 1)[0]) or clru.misses_by_capacity([], 0)[1]:
        sys.exit("refused: an answer for no keys")


if __name__ == "__main__":
    main()
