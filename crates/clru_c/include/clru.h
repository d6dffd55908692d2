/* The proved numbers of an LRU cache, from an array of 64-bit keys.
 *
 * The array has the requests in order, each the key that is asked for. All that counts of a key is whether it equals another one:
 * numbers of pages, hashes of names, codes of a column all do. Nothing outlives a call, and no call prints, waits or ends the
 * process.
 *
 * What each call writes is proved of its code in Rattle (the clauses are in src/exports.rt). Nothing checks that a caller keeps
 * to the list below. This header is written by hand; tools/test/from_c calls each function and sees each code.
 *
 * What the caller must keep to:
 * - Each pointer is valid for its length, aligned for its type, and not NULL, not even if the length is 0. An array that is
 *   written overlaps no other argument. Arrays are shorter than 2^63 bytes.
 * - Each bool of an array that is passed in is 0 or 1: zero the array first.
 * - No other thread writes the arrays during a call, and none reads those that are written. Calls on arrays of their own may run
 *   side by side in as many threads as you like.
 * - malloc, realloc and free come from one allocator, which aligns a block to each power of two up to 16 that divides its size.
 * - No call from a signal handler, nor in the forked child of a process that has threads.
 *
 * The seed: 0, 0 hashes keys with a fixed seed, which is the fastest. Whoever picks the keys can then make a call take time that
 * grows with the square of their number. Against an attacker pass two secret words, as from getrandom: the keys are then hashed
 * by SipHash-1-3 under them. The results are the same.
 *
 * Every call returns a code. Unless it is CLRU_OK, nothing was written, which is proved too. If several other codes apply, the call
 * returns the least of them except CLRU_NO_MEMORY, which it returns only if memory was refused before the call found its code, and
 * never without keys. So one input always gives the same code, or CLRU_NO_MEMORY. Built and tried on Linux x86-64.
 *
 * Memory is what a call holds when it holds the most, as counted by examples/memory.c for 65 to 70,000 keys: also while a table
 * doubles, and the old one stands beside the new one. All of it is freed when the call returns.
 */
#ifndef CLRU_H
#define CLRU_H

#include <stdbool.h>
#include <stddef.h>
#include <stdint.h>

/* The release of the Rust crate clru whose behaviour this is, and our own number behind it: that of the release to come where
 * the text says unreleased. */
#define CLRU_VERSION_MAJOR 0
#define CLRU_VERSION_MINOR 6
#define CLRU_VERSION_PATCH 3
#define CLRU_VERSION_NUMBER 4
#define CLRU_VERSION "0.6.3+4-unreleased"

#define CLRU_OK 0u           /* all was written */
#define CLRU_NO_CAPACITY 1u  /* a capacity or a room was 0 */
#define CLRU_WRONG_LENGTH 2u /* arrays that belong together have unequal lengths */
#define CLRU_NO_MEMORY 3u    /* memory was refused */
#define CLRU_TOO_LARGE 4u    /* the sizes of all requests together exceed 2^64 - 1 */
#define CLRU_TOO_SMALL 5u    /* a capacity was less than the greatest size */

#ifdef __cplusplus
extern "C" {
#endif

/* Which requests hit in an LRU cache of the capacity, in keys, that starts empty, and how many don't.
 *
 * hits has as many elements as keys: true if the request hits. *misses is the number of the others.
 *
 * Proved: a request hits exactly if its key was requested before, and fewer than capacity distinct keys since (the stack distance
 * is that number plus 1). And for h from 1 to capacity the misses are at most capacity / (capacity - h + 1) times those of each
 * policy that starts empty, holds at most h keys, and takes in each requested key and no other, even if it knows all requests.
 *
 * Codes: CLRU_NO_CAPACITY, CLRU_WRONG_LENGTH, CLRU_NO_MEMORY.
 * Cost: a look-up for each request. Memory: a byte for each request, and a cache of as many entries as there are keys, capacity at
 * most, 44 to 56 bytes each. */
uint32_t clru_hits_at(const uint64_t *keys, size_t keys_len, size_t capacity, uint64_t seed_low, uint64_t seed_high,
                      bool *hits, size_t hits_len, size_t *misses);

/* The misses at every capacity, from one pass.
 *
 * misses[i] is the number at capacity i + 1, for each element of the array, which may be of any length. *distinct is the number of
 * distinct keys: from that capacity on the misses stay the same, and are that number.
 *
 * Proved: misses[i] is the number of requests that don't hit, as clru_hits_at says it, at capacity i + 1.
 *
 * Codes: CLRU_NO_MEMORY.
 * Cost: for each request a look-up, and steps that go with the logarithm of their number. Memory: 19 to 40 bytes for each 64
 * requests with the latest of a key, and 64 to 129 bytes for each distinct key. */
uint32_t clru_misses_by_capacity(const uint64_t *keys, size_t keys_len, uint64_t seed_low, uint64_t seed_high,
                                 size_t *misses, size_t misses_len, size_t *distinct);

/* The least possible misses for each of the rooms, which are capacities in keys: the fewest of any policy that takes in each
 * requested key and no other, even if it knows all requests. A policy that may bypass keys misses no fewer than the least with
 * room for one more key.
 *
 * least has as many elements as rooms: least[i] is for room rooms[i]. Rooms may come in any order, and twice.
 *
 * Proved: some policy that starts empty has least[i] misses, and none has fewer; one that starts with keys has at most rooms[i]
 * fewer; LRU of that capacity has no fewer.
 *
 * Codes: CLRU_NO_CAPACITY, CLRU_WRONG_LENGTH, CLRU_NO_MEMORY.
 * Cost: a look-up for each request, once; and for each room a pass whose steps go with the logarithm of the number of requests.
 * Memory: 5 to 7 bytes for each request. */
uint32_t clru_least_by_room(const uint64_t *keys, size_t keys_len, const size_t *rooms, size_t rooms_len,
                            uint64_t seed_low, uint64_t seed_high, size_t *least, size_t least_len);

/* A floor of the misses for each of the rooms, which are capacities in keys: no policy that starts empty and takes in requested keys
 * only misses fewer, even if it bypasses some and knows all requests beforehand. One that fetches keys before their requests may.
 * Unlike the least the floor is not always reached, but all rooms cost one sort.
 *
 * floors has as many elements as rooms: floors[i] is for room rooms[i]. Rooms may stand in any order, and twice.
 *
 * Proved: no schedule that starts empty and holds at most rooms[i] keys has fewer misses than floors[i], so neither has the least.
 * floors[i] is the number of requests less the most hits whose gaps, the least first, are at most rooms[i] times that number
 * together; the gap of a request is how many positions after the latest request of its key it comes.
 *
 * Codes: CLRU_NO_CAPACITY, CLRU_WRONG_LENGTH, CLRU_NO_MEMORY.
 * Cost: a look-up for each request, a sort, and a search for each room. Memory: 31 to 71 bytes for each request of a floor in
 * keys. */
uint32_t clru_floor_by_room(const uint64_t *keys, size_t keys_len, const size_t *rooms, size_t rooms_len,
                            uint64_t seed_low, uint64_t seed_high, size_t *floors, size_t floors_len);

/* The misses by size: the requests that miss at each of the capacities, and their size.
 *
 * A capacity is a sum of sizes, in bytes say. sizes has as many elements as keys: sizes[i] is the size of what request i asks for.
 * A key that comes with another size is another object, so that a size never changes: two sizes of one key are two objects. Neither
 * is a hit for the other, both take room, and both count in *distinct_size. clru_greatest_sizes gives each key one size. A size of
 * 0 counts as 1, but a key that comes with the sizes 0 and 1 is two objects as well.
 *
 * misses and missed_sizes have as many elements as capacities: misses[i] is the number of requests that miss at capacities[i], and
 * missed_sizes[i] the sum of their sizes. Capacities may come in any order, and twice. *distinct_size is the sum of the sizes of
 * the distinct objects: from that capacity on both stay the same, and the missed size is that sum. For it alone pass arrays of
 * length 0.
 *
 * Proved: a request hits exactly if its object was requested before, and its size plus those of the distinct objects since is at
 * most the capacity; misses[i] is the number of the others, missed_sizes[i] the sum of their sizes. That is an LRU cache that
 * drops the least recently used objects until the rest fits. A cache whose capacity is below the greatest size can't take in some
 * object; then the code is CLRU_TOO_SMALL.
 *
 * Codes: CLRU_NO_CAPACITY, CLRU_WRONG_LENGTH, CLRU_NO_MEMORY, CLRU_TOO_LARGE, CLRU_TOO_SMALL. Proved too: the code is
 * CLRU_TOO_LARGE only if the sizes (0 as 1) exceed 2^64 - 1 together, CLRU_TOO_SMALL only if they don't and a capacity is less than
 * the greatest size, and CLRU_OK in neither case.
 * Cost: for each request a look-up, and steps that go with the logarithm of their number; then two searches for each capacity.
 * Memory: 93 to 171 bytes for each request of another object (up to 192 from the first size above 2^32 - 1 on), and 40 to 64 bytes
 * for each of one that was requested before. */
uint32_t clru_misses_by_size(const uint64_t *keys, size_t keys_len, const size_t *sizes, size_t sizes_len,
                             const size_t *capacities, size_t capacities_len, uint64_t seed_low, uint64_t seed_high,
                             size_t *misses, size_t misses_len, size_t *missed_sizes, size_t missed_sizes_len,
                             size_t *distinct_size);

/* The floors where keys have sizes: for each of the rooms one of the misses, and one of the missed size. No policy with that room
 * for the sizes of the keys held that starts empty and takes in requested keys only misses fewer, or less, even if it bypasses some.
 *
 * sizes, and objects, are those of clru_misses_by_size. misses and missed_sizes have as many elements as rooms. A room may be less
 * than the greatest size.
 *
 * Proved: no schedule that starts empty, and whose held objects have at most the size rooms[i] together, misses fewer than
 * misses[i], nor less of the size than missed_sizes[i].
 *
 * Codes: CLRU_NO_CAPACITY, CLRU_WRONG_LENGTH, CLRU_NO_MEMORY, CLRU_TOO_LARGE. Proved too: CLRU_TOO_LARGE is answered only where
 * the sizes (0 as 1) pass 2^64 - 1 together, and CLRU_OK only where they don't.
 * Cost: a look-up for each request, two sorts, and two searches for each room. Memory: 51 to 96 bytes for each request of floors
 * by size. */
uint32_t clru_floor_by_size(const uint64_t *keys, size_t keys_len, const size_t *sizes, size_t sizes_len,
                            const size_t *rooms, size_t rooms_len, uint64_t seed_low, uint64_t seed_high,
                            size_t *misses, size_t misses_len, size_t *missed_sizes, size_t missed_sizes_len);

/* One size for each key: the greatest that it comes with. To the two calls above a key with two sizes is two objects, as in a log
 * whose transfers were broken off. Call this one before them, or clru_other_size to refuse such keys.
 *
 * sizes has as many elements as keys, and is read and written: sizes[i] becomes the greatest of all sizes[j] with
 * keys[j] == keys[i].
 *
 * Proved: each sizes[i] is that number.
 *
 * Codes: CLRU_WRONG_LENGTH, CLRU_NO_MEMORY.
 * Cost: up to three look-ups for each request. Memory: 35 to 71 bytes for each distinct key with a size. */
uint32_t clru_greatest_sizes(const uint64_t *keys, size_t keys_len, uint64_t seed_low, uint64_t seed_high,
                             size_t *sizes, size_t sizes_len);

/* Whether each key has one size: *index is that of the first request whose key came before it with another size, or keys_len if
 * there is none.
 *
 * sizes has as many elements as keys.
 *
 * Proved: *index is that number.
 *
 * Codes: CLRU_WRONG_LENGTH, CLRU_NO_MEMORY.
 * Cost: a look-up for each request. Memory: 35 to 71 bytes for each distinct key with a size. */
uint32_t clru_other_size(const uint64_t *keys, size_t keys_len, const size_t *sizes, size_t sizes_len,
                         uint64_t seed_low, uint64_t seed_high, size_t *index);

/* One budget for several caches: how much of it each gets, so that together they miss the least.
 *
 * The budget is counted in units, of 1,000 keys or 64 MB say. missed has a row of budget + 1 numbers for each cache, one row behind
 * the other: what that cache misses with 0 units, with 1 and so on up to budget, in requests or bytes. The first number is what is
 * missed without a cache: all requests. UINT64_MAX anywhere else says that there is no cache of so many units, as below the
 * greatest size. Numbers need not fall. parts has an element for each cache: how many units it gets.
 *
 * Proved: the parts are at most budget together, each has a number, and no other such parts miss less together. Of several best
 * parts it writes those with the least parts[0], then the least parts[1] and so on, which is not proved. Totals cannot overflow.
 *
 * Codes: CLRU_WRONG_LENGTH unless missed_len is parts_len * (budget + 1), CLRU_NO_MEMORY.
 * Cost: parts_len * budget * budget / 2 additions. Memory: 12 to 72 bytes for each of the numbers, the less
 * the more caches there are: counted for 2 to 98. */
uint32_t clru_split(const size_t *missed, size_t missed_len, size_t budget, size_t *parts, size_t parts_len);

#ifdef __cplusplus
}
#endif

#endif
