"""The proved numbers of an LRU cache, from the requests in order, each the key that is asked for.

    import clru
    misses, distinct = clru.misses_by_capacity(clru.numbered(open("keys")), 1000)

Keys, sizes and capacities are integers from 0 to 2^64 - 1, in a list or an array; keys that are none get numbers by `numbered`. Each call
returns lists, or numpy arrays if numpy is installed. Their numbers are unsigned: before you subtract, convert them by
`misses.astype(numpy.int64)`. clru.h says at length what each call returns. A seed (0, 0) is the fastest; if strangers pick the keys, pass
(secrets.randbits(64), secrets.randbits(64)), or they can make a call slow. The results are the same.

The library is that of the wheel, or `lib/libclru.so` of the package or of the folder below which it was installed, or what `load` is given.
"""
import ctypes
import operator
import pathlib

try:
    import numpy
except ImportError:
    numpy = None

CODES = {
    1: "a capacity or a room is 0",
    2: "arrays that belong together have unequal lengths",
    3: "memory was refused",
    4: "the sizes together pass 2^64 - 1",
    5: "a capacity is less than the greatest size",
}
SEED = (0, 0)
TEXTS = (str, bytes, bytearray)
_library = None


def load(path=None):
    """Takes the library at a path; with none that of the package, or else one that the system finds."""
    global _library
    beside = (folder / "lib/libclru.so" for folder in pathlib.Path(__file__).resolve().parents)
    _library = ctypes.CDLL(str(path or next((it for it in beside if it.exists()), "libclru.so")))


def hits_at(keys, capacity, seed=SEED):
    """Whether each request hits at one capacity, in keys, and how many don't."""
    keys, misses = _numbers(keys), ctypes.c_size_t()
    hits = _zeros(len(keys), ctypes.c_bool)
    _call("clru_hits_at", keys, _whole(capacity), *_words(seed), hits, misses)
    return _result(hits), misses.value


def misses_by_capacity(keys, count, seed=SEED):
    """The misses at the capacities 1, 2 and so on up to `count`, in keys, and the number of distinct keys."""
    keys, misses, distinct = _numbers(keys), _zeros(_whole(count)), ctypes.c_size_t()
    _call("clru_misses_by_capacity", keys, *_words(seed), misses, distinct)
    return _result(misses), distinct.value


def least_by_room(keys, rooms, seed=SEED):
    """The least possible misses for each of the rooms, in keys."""
    keys, rooms = _numbers(keys), _numbers(rooms)
    least = _zeros(len(rooms))
    _call("clru_least_by_room", keys, rooms, *_words(seed), least)
    return _result(least)


def misses_by_size(keys, sizes, capacities, seed=SEED):
    """The misses and the missed size at each of the capacities, which are sums of sizes, and the size of the distinct objects. A key
    with two sizes is two objects: see `one_size`."""
    keys, sizes, capacities = _numbers(keys), _numbers(sizes), _numbers(capacities)
    misses, missed_sizes, distinct_size = _zeros(len(capacities)), _zeros(len(capacities)), ctypes.c_size_t()
    _call("clru_misses_by_size", keys, sizes, capacities, *_words(seed), misses, missed_sizes, distinct_size)
    return _result(misses), _result(missed_sizes), distinct_size.value


def floor_by_room(keys, rooms, seed=SEED):
    """A floor of the misses for each of the rooms, in keys: no policy that starts empty and takes in requested keys only misses
    fewer, even if it bypasses some."""
    keys, rooms = _numbers(keys), _numbers(rooms)
    floors = _zeros(len(rooms))
    _call("clru_floor_by_room", keys, rooms, *_words(seed), floors)
    return _result(floors)


def floor_by_size(keys, sizes, rooms, seed=SEED):
    """A floor of the misses and one of the missed size for each of the rooms, which are sums of sizes."""
    keys, sizes, rooms = _numbers(keys), _numbers(sizes), _numbers(rooms)
    misses, missed_sizes = _zeros(len(rooms)), _zeros(len(rooms))
    _call("clru_floor_by_size", keys, sizes, rooms, *_words(seed), misses, missed_sizes)
    return _result(misses), _result(missed_sizes)


def split(missed, budget):
    """How many units of a budget each of several caches gets, so that together they miss the least. `missed[i][u]` is what cache i misses
    with u units, from 0 to `budget`; 2^64 - 1 says that there is no such cache."""
    rows, parts = [_numbers(row) for row in missed], _zeros(len(missed))
    if any(len(row) != _whole(budget) + 1 for row in rows):
        raise ValueError(CODES[2])
    _call("clru_split", _numbers([number for row in rows for number in row]), budget, parts)
    return _result(parts)


def numbered(names):
    """A number for each of the names, the same one for equal names. A file gives its lines."""
    if isinstance(names, TEXTS):
        raise TypeError("a text is one name: give its lines, as in clru.numbered(text.splitlines())")
    numbers = {}
    return _result(_numbers([numbers.setdefault(name, len(numbers)) for name in names]))


def one_size(keys, sizes, refuse=False, seed=SEED):
    """The sizes, where each key has the greatest that it came with: to the calls above two sizes of a key are two objects. With
    `refuse` such a key is refused instead."""
    keys, sizes = _numbers(keys), _copied(sizes)
    if not refuse:
        _call("clru_greatest_sizes", keys, *_words(seed), sizes)
    elif (other := other_size(keys, sizes, seed)) is not None:
        key, size = keys[other], sizes[other]
        held = next(size for before, size in zip(keys, sizes) if before == key)
        raise ValueError(f"the key {key} has the sizes {held} and {size}: clru.one_size(keys, sizes) takes the greatest")
    return _result(sizes)


def other_size(keys, sizes, seed=SEED):
    """The index of the first request whose key came before it with another size, or None."""
    keys, sizes, index = _numbers(keys), _numbers(sizes), ctypes.c_size_t()
    _call("clru_other_size", keys, sizes, *_words(seed), index)
    return index.value if index.value < len(keys) else None


# Arguments as the calls take them: an array as a pointer and a length, a place for a count as a pointer, a number as a whole word, which
# ctypes would else cut to 32 bits.
def _call(name, *arguments):
    if _library is None:
        load()
    passed = []
    for it in arguments:
        if isinstance(it, ctypes.c_size_t):
            passed.append(ctypes.byref(it))
        elif isinstance(it, ctypes.Array):
            passed += [it, ctypes.c_size_t(len(it))]
        elif numpy is not None and isinstance(it, numpy.ndarray):
            passed += [ctypes.c_void_p(it.ctypes.data), ctypes.c_size_t(it.size)]
        else:
            passed.append(ctypes.c_uint64(_whole(it)))
    _check(getattr(_library, name)(*passed))


def _check(code):
    if code == 3:
        raise MemoryError(CODES[code])
    if code:
        raise ValueError(CODES[code])


# A number that would be cut is refused, since keys would become one.
def _whole(number):
    try:
        number = operator.index(number)
    except TypeError:
        raise TypeError(f"{number!r} is no integer: for keys that are none give clru.numbered(keys)") from None
    if not 0 <= number < 2**64:
        raise ValueError(f"{number} is no number from 0 to 2^64 - 1")
    return number


# A seed of one word, or of three, would move all that is passed behind it.
def _words(seed):
    try:
        low, high = seed
    except (TypeError, ValueError):
        raise ValueError(f"a seed is two numbers, as in seed=(0, 0), and not {seed!r}") from None
    return _whole(low), _whole(high)


def _numbers(values):
    """An array of 64-bit numbers in one aligned block."""
    if isinstance(values, TEXTS) or hasattr(values, "read"):
        what = "text" if isinstance(values, TEXTS) else "file"
        raise TypeError(f"numbers are wanted, and not a {what}: clru.numbered(open(path)) gives each line of a file its number")
    if numpy is not None and isinstance(values, numpy.ndarray):
        if values.size and values.dtype.kind not in "iu":
            raise TypeError(f"an array must be of integers, not of {values.dtype}")
        if values.dtype.kind == "i" and values.size:
            _whole(values.min())
        return numpy.require(values, dtype=numpy.uint64, requirements="CA")
    values = list(values)
    if numpy is not None:
        return numpy.fromiter(map(_whole, values), dtype=numpy.uint64, count=len(values))
    return (ctypes.c_uint64 * len(values))(*map(_whole, values))


def _copied(values):
    values = _numbers(values)
    return values.copy() if numpy is not None else type(values)(*values)


def _result(array):
    # an array of ctypes prints as an address
    return array if numpy is not None else list(array)


def _zeros(count, kind=ctypes.c_uint64):
    try:
        return numpy.zeros(count, dtype=kind) if numpy is not None else (kind * count)()
    except (MemoryError, OverflowError, ValueError):
        raise MemoryError(f"there is no memory for {count} results: ask for fewer, since from the number of distinct keys on "
                          "the misses stay the same") from None
