#!/usr/bin/env python3
"""Plain models of what scripts call, by which `tools/test/random` answers calls. It runs nothing itself.

They know no index, no link and no running total: a cache is a list of pairs in order, a capacity and a number of places, a list of
numbers is a list, and misses are counted by a walk through the requests for each capacity. When memory is asked for, how often, and what
stays if a request is refused, is as docs/PROVED.md, MODEL.md and the scripts `memory`, `growths` and `list` say.
"""
import collections
import fractions

MAX = 2 ** 64 - 1
# Up to so many places links have 4 bytes.
NARROW = 2 ** 32 - 1
# How many requests of a line are written one by one.
MOST = 40


class Memory:
    """Counts requests, and refuses those that a line `refuse` names."""

    def __init__(self):
        self.asked = self.refused = self.passing = self.refusing = 0

    def refuse(self, words):
        if words == ["none"]:
            self.refusing = 0
        else:
            self.passing, self.refusing = int(words[-1]), 1 if words[0] == "one" else MAX

    def grants(self):
        self.asked += 1
        if self.passing or not self.refusing:
            self.passing = max(self.passing - 1, 0)
            return True
        self.refusing -= 1
        self.refused += 1
        return False


class Places:
    """Places of a list, and buckets where it is indexed: how many there is memory for, and in how many bytes."""

    def __init__(self, memory, capacity, reserve=0, limit=NARROW, indexed=True, bytes_each=112):
        self.memory, self.capacity, self.limit, self.indexed, self.bytes_each = memory, capacity, limit, indexed, bytes_each
        self.count = self.nodes = min(reserve, capacity)
        self.upper = self.buckets = self.index_bytes = self.hashed = 0
        self.made = self.count == 0 or (not indexed or self.make_buckets(self.count, 0)) and memory.grants()

    def grown(self):
        return min(max(4 * self.count, 4), self.capacity)

    def index_places_for(self, places):
        """For how many places buckets are made: from a quarter of the capacity on for all of it."""
        return places if places < self.capacity // 4 else max(places, self.capacity)

    def make_buckets(self, places, held):
        """Buckets that can name so many places; each held key is hashed again."""
        if places > self.buckets:
            if not self.memory.grants():
                return False
            self.buckets = 1 << (places - 1).bit_length()
            self.index_bytes = 3 * self.buckets * (4 if places <= self.limit else 8)
            self.hashed += held
        return True

    def make_buckets_for(self, places, held):
        """Buckets for so many places or for more, where memory for more is found."""
        if places <= self.buckets:
            return True
        wanted = self.index_places_for(places)
        return self.make_buckets(wanted, held) or places < wanted and self.make_buckets(places, held)

    def ready(self, held):
        """Finds memory for one more, where there is room and each place is taken. What was found stays where more is refused."""
        if held == self.capacity or held < self.count:
            return True
        grown = self.grown()
        if self.indexed and not self.make_buckets_for(grown, held):
            return False
        if grown > self.nodes:
            if not self.memory.grants():
                return False
            self.nodes = grown
        if grown > self.limit and grown > self.upper:
            if not self.memory.grants():
                return False
            self.upper = grown
        self.count = grown
        return True

    def bytes(self):
        return self.bytes_each * self.nodes + 8 * self.upper + self.index_bytes

    def blocks(self):
        return sum(part > 0 for part in (self.nodes, self.upper, self.buckets))


def number_of(word):
    """The number that a word is, as the driver reads it."""
    if word.startswith("max"):
        return MAX - int(word[4:] or 0)
    return int(word)


def found(word):
    return "none" if word is None else str(word)


def truth(is_so):
    return "yes" if is_so else "no"


def shown(pair):
    return "none" if pair is None else f"{pair[0]} {pair[1]}"


def listed(pairs):
    return ", ".join(map(shown, pairs)) or "nothing"


def kept(which, number):
    """Whether a retain of this form keeps a number."""
    form, bound = which[0], int(which[1]) if len(which) > 1 and which[1].isdigit() else 0
    return {"all": True, "none": False, "even": number % 2 == 0, "odd": number % 2 == 1, "below": number < bound, "above": number > bound}[form]


def walked(pairs, steps):
    """The answers of steps of one iterator."""
    left, other, said, steps = list(pairs), None, [], iter(steps)
    for step in steps:
        if step in ("nth", "nth_back"):
            index = int(next(steps))
            gone = left[:index] if step == "nth" else left[::-1][:index]
            left = left[len(gone):] if step == "nth" else left[:len(left) - len(gone)]
            step = "next" + step[len("nth"):]
        if step in ("len", "count"):
            said.append(str(len(left)))
        elif step == "size_hint":
            said.append(f"({len(left)}, Some({len(left)}))")
        elif step == "clone":
            left, other = list(left), left
            said.append("done")
        elif step == "other":
            said.append("none" if other is None else "done")
            left, other = (left, None) if other is None else (other, left)
        else:
            said.append(shown(left.pop(0 if step == "next" else -1) if left else None))
    return "; ".join(said)


def written(pairs, steps):
    """The answers of steps of one cursor, which write values. A pair is a list here."""
    left, said, steps = list(pairs), [], iter(steps)
    for step in steps:
        if step == "len":
            said.append(str(len(left)))
            continue
        value, pair = next(steps), None
        if left:
            pair = left.pop(-1 if step.endswith("_back") else 0)
            old, pair[1] = pair[1], value
        entry = pair and (f"{pair[0]} {old}" if "entry" in step else old)
        said.append(found(entry))
    return "; ".join(said)


class Subject:
    """What answers a call by a function of its name, or else by `reads`."""

    def call(self, line):
        name, *words = line.split()
        answer = getattr(self, f"call_{name}", None)
        return answer(*words) if answer else self.reads(name, *words)


class Cache(Subject):
    """A list of pairs that answers the calls of a cache, the most recently used first."""

    def __init__(self, memory, capacity, reserve, weigh):
        self.places, self.weigh = Places(memory, capacity, reserve), weigh
        self.capacity, self.pairs, self.hashed = capacity, [], 0

    def weight_of(self, value):
        return 0 if not self.weigh else len(value) if self.weigh == "length" else number_of(value)

    def weight(self):
        return sum(self.weight_of(value) for _, value in self.pairs)

    def size(self):
        return len(self.pairs) + self.weight()

    def find(self, key):
        self.hashed += 1
        return next((pair for pair in self.pairs if pair[0] == key), None)

    def to_front(self, pair):
        self.pairs.remove(pair)
        self.pairs.insert(0, pair)

    def take(self, pair):
        self.hashed += 1
        self.pairs.remove(pair)
        return pair

    def fit(self, room):
        """Takes pairs out from the back until the rest fits, and gives them, the last one first."""
        gone = []
        while self.size() > room:
            gone.append(self.take(self.pairs[-1]))
        return gone

    def makes_room(self, room):
        """Drops what does not fit. Where nothing has to go, there has to be a place. Gives what went, or None where one is refused."""
        if self.size() > room:
            return self.fit(room)
        return [] if self.places.ready(len(self.pairs)) else None

    def stores(self, key, value, make=lambda value: value):
        """A put of a new key: what it drops, or None where memory is refused. `make` makes its value of the word."""
        gone = self.makes_room(self.capacity - 1 - self.weight_of(value))
        if gone is not None:
            self.pairs.insert(0, [key, make(value)])
        return gone

    def put(self, key, value):
        """Whether it is stored, the old value, and what is dropped."""
        held = self.find(key)
        if held is None:
            gone = self.stores(key, value)
            return gone is not None, None, gone or []
        self.pairs.remove(held)
        gone = self.fit(self.capacity - 1 - self.weight_of(value))
        self.pairs.insert(0, [key, value])
        return True, held[1], gone

    def say_put(self, key, value):
        stored, old, gone = self.put(key, value)
        if not stored:
            return f"no memory, back {key} {value}"
        return "stored" + (f", replaced {old}" if old is not None else "") + self.say_gone(gone)

    def say_gone(self, gone):
        return "".join(f", dropped {shown(pair)}" for pair in gone)

    call_put = say_put

    def call_put_with_weight(self, key, value):
        if self.weight_of(value) >= self.capacity:
            return f"too heavy, back {key} {value}"
        return self.say_put(key, value)

    call_put_with_weight_handing_to = call_put_with_weight

    def call_put_with_weight_dropping(self, key, value):
        return self.call_put_with_weight(key, value).partition(", dropped")[0]

    def call_extend(self, *words):
        for key, value in zip(words[::2], words[1::2]):
            if not self.put(key, value)[0]:
                return f"no memory, back {key} {value}"
        return "done"

    def call_put_or_modify(self, key, data, form="store", error=None):
        fails = form in ("fails", "write-fails") or form == "odd-fails" and int(data) % 2 == 1
        failed = " ".join(["failed"] + [data] * (form == "odd-fails") + [error] * (error is not None))
        held = self.find(key)
        if held is not None:
            self.to_front(held)
            if not fails or form == "write-fails":
                held[1] = modified(form, key, held[1], data)
            return failed if fails else held[1]
        # A closure is called once there is a place, and before the last pair goes.
        if len(self.pairs) < self.capacity and not self.places.ready(len(self.pairs)):
            return f"no memory, back {key} {data}"
        if fails:
            return failed
        self.stores(key, data, lambda data: str(int(data) + len(key)) if form == "length" else data)
        return self.pairs[0][1]

    call_try_put_or_modify = call_put_or_modify

    def call_get(self, key):
        held = self.find(key)
        if held is not None:
            self.to_front(held)
        return found(held and held[1])

    def call_demote(self, key):
        held = self.find(key)
        if held is not None:
            self.pairs.remove(held)
            self.pairs.append(held)
        return truth(held is not None)

    def writes(self, pair, value):
        if pair is None:
            return "none"
        old, pair[1] = pair[1], value
        return old

    def call_get_mut(self, key, value):
        self.call_get(key)
        self.hashed -= 1
        return self.writes(self.find(key), value)

    def call_peek_mut(self, key, value):
        return self.writes(self.find(key), value)

    def call_peek(self, key):
        held = self.find(key)
        return found(held and held[1])

    def call_contains(self, key):
        return truth(self.find(key) is not None)

    def end(self, name):
        return self.pairs[0 if "front" in name else -1] if self.pairs else None

    def lends(self, name, what, value=None):
        """`front_mut` and `back_mut`."""
        pair = self.end(name)
        if pair is None or value is not None:
            return self.writes(pair, value)
        return pair[0 if what == "key" else 1]

    def pops(self, name):
        return shown(self.end(name) and self.take(self.end(name)))

    def call_pop(self, key):
        held = self.find(key)
        if held is not None:
            self.pairs.remove(held)
        return found(held and held[1])

    def call_clear(self):
        self.pairs = []
        return "done"

    def call_resize(self, word):
        capacity = number_of(word)
        self.fit(capacity)
        self.capacity = self.places.capacity = capacity
        return "done"

    def call_retain(self, *which):
        for pair in [pair for pair in self.pairs if not kept(which, number_of(pair[1]))]:
            self.take(pair)
        return "done"

    def call_retain_mut(self, *words):
        self.call_retain(*words)
        for pair in self.pairs if words[-2:-1] == ("add",) else []:
            pair[1] = str(int(pair[1]) + int(words[-1]))
        return "done"

    def call_list(self):
        return listed(self.pairs)

    def call_iter(self, *steps):
        return walked(self.pairs, steps)

    def call_iter_mut(self, *steps):
        return written(self.pairs, steps)

    def call_into_iter(self, *steps):
        said = walked(self.pairs, steps) or "done"
        memory = self.places.memory
        self.places, self.pairs = Places(memory, self.capacity), []
        return said

    def reads(self, name, *words):
        if name.endswith("_mut"):
            return self.lends(name, *words)
        if name.startswith("pop_"):
            return self.pops(name)
        if name in ("front", "back"):
            return shown(self.end(name))
        counts = {"len": len(self.pairs), "weight": self.weight(), "size": self.size(), "capacity": self.capacity, "bytes": self.places.bytes()}
        flags = {"is_empty": not self.pairs, "is_full": self.size() == self.capacity}
        if name == "blocks":
            return f"{2 * len(self.pairs)} of pairs, {self.places.blocks()} of places"
        return truth(flags[name]) if name in flags else str(counts[name])


def modified(form, key, old, data):
    """What a closure of this form makes of a held value."""
    if form == "add":
        return str(int(old) + int(data))
    if form == "length":
        return str((2 * int(old) if int(old) == len(key) else int(old) // 2) + int(data))
    return data


class Run(Cache):
    """The same by the calls of runs."""

    def say_gone(self, gone):
        more = f" as the last of {len(gone)}" if len(gone) > 1 else ""
        return f", dropped {shown(gone[-1])}{more}" if gone else ""

    def call_put_or_modify(self, key, value):
        return f"lent {value}" if self.put(key, value)[0] else f"no memory, back {key} {value}"

    def call_try_put_or_modify(self, key, what, value=None):
        held = self.find(key)
        if held is not None:
            self.to_front(held)
            held[1] = held[1] if value is None else value
            return f"lent {value}" if what == "store" else "failed"
        if len(self.pairs) < self.capacity and not self.places.ready(len(self.pairs)):
            return f"no memory, back {key} {f'store {value}' if what == 'store' else 'fail'}"
        if what != "store":
            return "failed"
        self.stores(key, value)
        return f"lent {value}"

    def call_retain(self, key):
        for pair in [pair for pair in self.pairs if pair[0] == key]:
            self.take(pair)
        return "done"

    def call_retain_mut(self, key, value):
        self.call_retain(key)
        for pair in self.pairs:
            pair[1] = value
        return "done"

    def call_nth(self, index):
        return found(self.pairs[int(index)][1] if int(index) < len(self.pairs) else None)

    def call_nth_back(self, index):
        return found(self.pairs[-1 - int(index)][1] if int(index) < len(self.pairs) else None)

    def lends(self, name, value):
        return self.writes(self.end(name), value)

    def call_resize(self, word):
        return super().call_resize(str(max(int(word), 1)))

    def reads(self, name, *words):
        if name in ("front", "back"):
            return found(self.end(name) and self.end(name)[1])
        return super().reads(name, *words)


def hits(requests, capacity):
    """Of each request whether an LRU cache of the capacity hits. What does not fit goes from the back."""
    held, used = collections.OrderedDict(), 0
    for key, takes in requests:
        yield key in held
        used += takes if key not in held else 0
        held[key] = takes
        held.move_to_end(key)
        while used > capacity:
            used -= held.popitem(last=False)[1]


def missed(requests, capacity):
    """How many of the requests such a cache misses, and their size."""
    sizes = [takes for (_, takes), hit in zip(requests, hits(requests, capacity)) if not hit]
    return len(sizes), sum(sizes)


def replay_of(requests, capacity):
    marks = "".join("H " if hit else "M " for hit in hits(requests, capacity)) if len(requests) <= MOST else ""
    return f"{marks}misses {missed(requests, capacity)[0]} of {len(requests)}"


def since(requests):
    """Of each request the requests after the latest one of its key, or None."""
    latest = {}
    for at, (key, _) in enumerate(requests):
        yield requests[latest[key] + 1:at] if key in latest else None
        latest[key] = at


def distances(requests):
    return ["new" if between is None else str(len({key for key, _ in between})) for between in since(requests)]


def spans(requests):
    for (_, takes), between in zip(requests, since(requests)):
        yield "new" if between is None else str(takes + sum(dict(between).values()))


def curve_of(requests, times=None, limit=None):
    """The curve of requests, under an idle limit where there is one."""
    plain, distinct = [(key, 1) for key, _ in requests], len(dict(requests))
    misses = [aged(plain, times or [0] * len(plain), capacity, limit, MAX)[0] for capacity in range(1, distinct + 1)] if distinct <= MOST else []
    return f"distinct {distinct}" + (", misses" + "".join(f" {number}" for number in misses)) * (distinct <= MOST)


def sized_curve_of(requests):
    """The curve by size, with the missed size behind each request that hits at some capacity, in the order of these."""
    whole, sizes = sum(takes for _, takes in requests), dict(requests).values()
    hits = sorted(((int(span), takes) for (_, takes), span in zip(requests, spans(requests)) if span != "new"), key=lambda hit: hit[0])
    said = f"requests {len(requests)} of size {whole}, distinct size {sum(sizes)}, greatest weight {max(sizes) - 1}"
    steps, left = "", whole
    for span, takes in hits:
        left -= takes
        steps += f" {span}:{left}"
    return said + (f", steps{steps}" if hits and len(hits) <= MOST else "")


def soon(requests, times, limit):
    """Of each request whether it comes within the limit after the latest one of its key, or earlier."""
    latest = {}
    for (key, _), time in zip(requests, times):
        yield key in latest and time - latest[key] <= limit
        latest[key] = time


def aged(requests, times, capacity, idle, age):
    """The misses of a cache that notes when it fetched each entry, and when it was used, and their size."""
    held, room, misses, size = {}, capacity, 0, 0
    for (key, takes), time in zip(requests, times):
        is_fresh = False
        if key in held:
            _, fetched, used = held.pop(key)
            room += takes
            is_fresh = time - fetched <= age and (idle is None or time - used <= idle)
        if not is_fresh:
            fetched, misses, size = time, misses + 1, size + takes
        held[key], room = (takes, fetched, time), room - takes
        while room < 0:
            room += held.pop(next(iter(held)))[0]
    return misses, size


def aged_of(requests, times, capacities, idle, age, by_size):
    """What a pass at these capacities has counted."""
    if not by_size:
        misses = "".join(f" {aged([(key, 1) for key, _ in requests], times, capacity, idle, age)[0]}" for capacity in capacities)
        return f"requests {len(requests)}, distinct {len(dict(requests))}, misses{misses}"
    whole, sizes = sum(takes for _, takes in requests), dict(requests).values()
    rows = [aged(requests, times, capacity, idle, age) for capacity in capacities]
    return (f"requests {len(requests)} of size {whole}, distinct size {sum(sizes)}, greatest weight {max(sizes) - 1}, misses"
            + "".join(f" {misses}" for misses, _ in rows) + ", of size" + "".join(f" {size}" for _, size in rows))


def at_of(requests, capacity):
    if capacity < max(takes for _, takes in requests):
        return "none"
    return "{} of size {}".format(*missed(requests, capacity))


def searched(keys, room):
    """The fewest misses of any way to hold at most so many keys, by trying all of them. A set of keys is a number, a bit each."""
    fewest = {0: 0}
    for key in keys:
        bit, after = 1 << key, {}
        for held, misses in fewest.items():
            misses += not held & bit
            others = rest = held & ~bit
            while True:
                if bin(rest).count("1") < room:
                    after[rest | bit] = min(misses, after.get(rest | bit, misses))
                if not rest:
                    break
                rest = (rest - 1) & others
        fewest = after
    return min(fewest.values())


def searched_by_size(requests, room):
    """The fewest misses, and the least size of misses, of any way to hold keys of at most this size together, which may bypass requested
    keys, by trying all of them."""
    sizes, bits = dict(requests), {key: 1 << at for at, key in enumerate(dict(requests))}
    held_size = [sum(takes for key, takes in sizes.items() if held & bits[key]) for held in range(1 << len(bits))]
    for worth in (lambda takes: 1), (lambda takes: takes):
        least = {0: 0}
        for key, takes in requests:
            after = {}
            for held, cost in least.items():
                cost += 0 if held & bits[key] else worth(takes)
                may = rest = held | bits[key]
                while True:
                    if held_size[rest] <= room:
                        after[rest] = min(cost, after.get(rest, cost))
                    if not rest:
                        break
                    rest = (rest - 1) & may
            least = after
        yield min(least.values())


def floor_of(requests, room):
    """The floors of the misses and of the missed size, by their definition: the greatest that a price of a hit says, which is one of the
    volumes, and for the size one of the gaps."""
    latest, reuses = {}, []
    for at, (key, takes) in enumerate(requests):
        if key in latest:
            reuses.append((at - latest[key], takes))
        latest[key] = at
    count, whole, paid = len(requests), sum(takes for _, takes in requests), room * len(requests)
    firsts = {key: takes for key, takes in reversed(requests)}
    misses = [count - (sum(max(price - gap * takes, 0) for gap, takes in reuses) + paid) // price for price in {gap * takes for gap, takes in reuses}]
    sizes = [whole - (sum(max(price * takes - gap * takes, 0) for gap, takes in reuses) + paid) // price for price in {gap for gap, _ in reuses}]
    return max([len(firsts), *misses]), max([sum(firsts.values()), *sizes])


def floors_of(requests):
    """Both floors with room for 1, 2 and so on, up to where they stay the same."""
    last, said = floor_of(requests, MAX), ""
    for room in range(1, MOST + 1):
        floor = floor_of(requests, room)
        said += "{}{} of size {}".format(", " if said else "", *floor)
        if floor == last:
            break
    else:
        said += " .. {} of size {}".format(*last)
    return said + (f"; 3 keys {floor_of(requests, 3)[0]}" if all(takes == 1 for _, takes in requests) else "")


def falls_of(requests):
    """What an LRU cache of each capacity misses, in requests and in their size, as two lists that begin at the capacity 0; from the
    spans of the requests."""
    sizes = dict(requests)
    misses, bytes_missed = [len(requests)] * (sum(sizes.values()) + 1), [sum(takes for _, takes in requests)] * (sum(sizes.values()) + 1)
    for (_, takes), span in zip(requests, spans(requests)):
        for capacity in range(len(misses) if span == "new" else int(span), len(misses)):
            misses[capacity] -= 1
            bytes_missed[capacity] -= takes
    return misses, bytes_missed


def off_line(missed, a, b, x):
    """How far the misses at x are from the straight line from a to b."""
    return abs(missed[x] - (missed[a] * fractions.Fraction(b - x, b - a) + missed[b] * fractions.Fraction(x - a, b - a)))


def faithful_table(missed, usual):
    """As long as some capacity between two neighbours lies more than a fiftieth of the whole off their line, the furthest is added."""
    table = list(usual)
    while True:
        off = [(off_line(missed, a, b, x), -x) for a, b in zip(table, table[1:]) for x in range(a + 1, b)]
        far, x = max(off, default=(0, 0))
        if far * 50 <= missed[0]:
            return table
        table = sorted([*table, -x])


def knees_of(missed, table):
    """Where a fall ends: a fiftieth of the whole or more is saved since the row before, and for each unit more than behind it, by more
    than the ratio of the capacities around it."""
    return {
        c for a, c, b in zip(table, table[1:], table[2:])
        if 50 * (missed[a] - missed[c]) >= missed[0]
        and fractions.Fraction(missed[a] - missed[c], c - a) * a > fractions.Fraction(missed[c] - missed[b], b - c) * b
    }


def with_one_size(requests):
    """Each request with the greatest size that its key came with. A size of 0 counts as 1."""
    greatest = {}
    for key, takes in requests:
        greatest[key] = max(takes, greatest.get(key, 1))
    return [(key, greatest[key]) for key, _ in requests]


def hashed(line):
    """FNV-1a of 64 bits, by which one line in so many is kept."""
    code = 14695981039346656037
    for byte in line.encode():
        code = (code ^ byte) * 1099511628211 % 2 ** 64
    return code


def six_digits(part, whole):
    whole = max(whole, 1)
    number = (2 * 10 ** 6 * part + whole) // (2 * whole)
    return f"{number // 10 ** 6}.{number % 10 ** 6:06}"


def report_of(requests, at, by_size, after=0):
    """The table that clru_mrc makes of the requests: of the usual capacities, of `all`, or of these. The first `after` are not counted."""
    misses, bytes_missed = (
        [number - first[min(capacity, len(first) - 1)] for capacity, number in enumerate(all_of)]
        for all_of, first in zip(falls_of(requests), falls_of(requests[:after]))
    )
    falling = bytes_missed if by_size else misses
    first, last = max(takes for _, takes in requests) if by_size else 1, len(misses) - 1
    rounds = (digit * 10 ** power for power in range(20) for digit in (1, 2, 5))
    table = faithful_table(falling, [capacity for capacity in rounds if first <= capacity < last] + [last])
    knees = knees_of(falling, table)
    each = [first] + [capacity for capacity in range(first + 1, last + 1) if misses[capacity] < misses[capacity - 1]]
    middle = "missed_bytes,byte_miss_ratio,saved_per_byte" if by_size else "saved_per_key"
    lines, before = [f"capacity,misses,miss_ratio,{middle},knee"], 0
    if misses[0] == 0:
        return "\n".join(["status 0", *lines])
    for capacity in table if at is None else each if at == "all" else at:
        here = min(capacity, last)
        bytes_too = f"{bytes_missed[here]},{six_digits(bytes_missed[here], bytes_missed[0])}," if by_size else ""
        saved = falling[min(before, last)] - falling[here]
        lines.append(f"{capacity},{misses[here]},{six_digits(misses[here], misses[0])},{bytes_too}"
                     f"{six_digits(saved, capacity - before)},{int(capacity in knees)}")
        before = capacity
    return "\n".join(["status 0", *lines])


def as_json(report):
    """The same table as JSON: an object for each row, by the names of its columns."""
    status, header, *rows = report.split("\n")
    members = (zip(header.split(","), row.split(",")) for row in rows)
    return "\n".join([status, *("{" + ",".join(f'"{name}":{number}' for name, number in row) + "}" for row in members)])


class List(Subject):
    """A list of pairs of a place and an item, the front first. Free places are taken again, the last one that came free first."""

    def __init__(self, memory, capacity, reserve, limit):
        self.places = Places(memory, capacity, reserve or 0, NARROW if limit is None else limit, False, 24)
        self.entries, self.free, self.used = [], [], 0

    def index(self, place):
        return next((at for at, entry in enumerate(self.entries) if entry[0] == int(place)), None)

    def entry(self, at):
        return self.entries[at] if at is not None and 0 <= at < len(self.entries) else None

    def item(self, at):
        entry = self.entry(at)
        return found(entry and entry[1])

    def place(self, at):
        entry = self.entry(at)
        return found(entry and entry[0])

    def push(self, at, item):
        if len(self.entries) == self.places.capacity:
            return f"full, back {item}"
        if not self.places.ready(len(self.entries)):
            return f"no memory, back {item}"
        place = self.free.pop() if self.free else self.used
        self.used = max(self.used, place + 1)
        self.entries.insert(at, [place, item])
        return str(place)

    def call_push_front(self, item):
        return self.push(0, item)

    def call_push_back(self, item):
        return self.push(len(self.entries), item)

    def call_fill(self, count):
        for number in range(len(self.entries), int(count)):
            self.push(len(self.entries) if number % 2 else 0, str(number))
        return "done"

    def take(self, at):
        said = self.item(at)
        if self.entry(at):
            self.free.append(self.entries.pop(at)[0])
        return said

    def call_remove(self, place):
        return self.take(self.index(place))

    def call_pop_front(self):
        return self.take(0)

    def call_move_front(self, place):
        at = self.index(place)
        if at is not None:
            self.entries.insert(0, self.entries.pop(at))
        return self.item(0 if at is not None else None)

    def call_move_back(self, place):
        at = self.index(place)
        if at is None:
            return "none"
        self.entries.append(self.entries.pop(at))
        return "done"

    def call_bring_front(self, place):
        return "none" if self.call_move_front(place) == "none" else "done"

    def beside(self, place, step):
        at = self.index(place)
        return self.place(None if at is None else at + step)

    def call_list(self):
        return listed(self.entries)

    def call_iter(self, *steps):
        return walked(self.entries, steps)

    def call_iter_mut(self, *steps):
        return written(self.entries, steps)

    def call_retain(self, *which):
        return self.call_retain_mut(*which, "0")

    def call_retain_mut(self, *words):
        for place in [entry[0] for entry in self.entries if not kept(words, int(entry[1]))]:
            self.call_remove(place)
        for entry in self.entries:
            entry[1] = str(int(entry[1]) + int(words[-1]))
        return "done"

    def writes(self, at, item):
        said = self.item(at)
        if self.entry(at):
            self.entries[at][1] = item
        return said

    def call_resize(self, capacity):
        if len(self.entries) > int(capacity):
            return "they do not fit"
        self.places.capacity = int(capacity)
        return "done"

    def call_clear(self):
        self.entries, self.free, self.used = [], [], 0
        return "done"

    def call_make_ready(self):
        return "done" if self.places.ready(len(self.entries)) else "no memory"

    def reads(self, name, *words):
        length, last = len(self.entries), len(self.entries) - 1
        places, number = self.places, int(words[0]) if words else 0
        return {
            "get": lambda: self.item(self.index(number)), "item": lambda: self.item(self.index(number)),
            "get_mut": lambda: self.writes(self.index(number), words[1]), "front_mut": lambda: self.writes(0, words[0]),
            "back_mut": lambda: self.writes(last, words[0]), "next_idx": lambda: self.beside(number, 1), "prev_idx": lambda: self.beside(number, -1),
            "place_at": lambda: self.place(number), "place_at_back": lambda: self.place(number), "front": lambda: self.item(0), "back": lambda: self.item(last),
            "front_idx": lambda: self.place(0), "back_idx": lambda: self.place(last), "len": lambda: str(length),
            "capacity": lambda: str(places.capacity), "places": lambda: str(places.count), "grown_places": lambda: str(places.grown()),
            "is_empty": lambda: truth(length == 0), "is_full": lambda: truth(length == places.capacity), "bytes": lambda: str(places.bytes()),
        }[name]()
