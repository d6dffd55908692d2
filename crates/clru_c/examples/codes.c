/* Sees each code of each call, that nothing was written with one, what memory is requested, that no block is left behind, and that
 * all calls agree; answers.c has the numbers. Link it with --wrap=malloc, --wrap=realloc and --wrap=free, since it refuses memory
 * and counts it. */
#include "clru.h"

#include <stdio.h>
#include <stdlib.h>
#include <string.h>

#define KEYS 500
#define LARGEST 50

/* So many requests for memory pass; those after them are refused. */
static size_t passing = (size_t)-1;
/* Requests that passed, their bytes, and blocks that are not freed. */
static size_t requested, requested_bytes, blocks;

void *__real_malloc(size_t);
void *__real_realloc(void *, size_t);
void __real_free(void *);

static bool passes(size_t size) {
    if (passing == 0) {
        return false;
    }
    passing--;
    requested++;
    requested_bytes += size;
    return true;
}

/* One block more, if it was given. */
static void *counted(void *block) {
    blocks += block != NULL;
    return block;
}

void *__wrap_malloc(size_t size) { return passes(size) ? counted(__real_malloc(size)) : NULL; }

void *__wrap_realloc(void *block, size_t size) {
    if (!block) {
        return __wrap_malloc(size);
    }
    return passes(size) ? __real_realloc(block, size) : NULL;
}

void __wrap_free(void *block) {
    blocks -= block != NULL;
    __real_free(block);
}

static int faults;

/* Stands behind each call. */
static void expect(bool holds, const char *what) {
    if (blocks != 0) {
        fprintf(stderr, "codes: %zu blocks are left behind: %s\n", blocks, what);
        blocks = 0;
        faults++;
    }
    if (!holds) {
        fprintf(stderr, "codes: %s\n", what);
        faults++;
    }
}

static uint64_t keys[KEYS];
static size_t misses[KEYS], missed_sizes[KEYS], least[2], number;
static bool hits[KEYS];
static size_t sizes[KEYS], greatest[KEYS], capacities[KEYS];
static const size_t rooms[2] = {3, 70};

/* Arrays that no call has written. */
static void reset(void) {
    memset(misses, 0x55, sizeof misses);
    memset(missed_sizes, 0x55, sizeof missed_sizes);
    memset(least, 0x55, sizeof least);
    memset(&number, 0x55, sizeof number);
    memset(hits, 1, sizeof hits);
}

static bool untouched(void) {
    for (size_t i = 0; i < KEYS; i++) {
        if (misses[i] != 0x5555555555555555u || missed_sizes[i] != misses[i] || !hits[i]) {
            return false;
        }
    }
    return number == 0x5555555555555555u && least[0] == number && least[1] == number;
}

/* A call by size, with so many places of each array. */
static uint32_t by_size(size_t sizes_len, size_t misses_len, size_t missed_sizes_len) {
    return clru_misses_by_size(keys, KEYS, sizes, sizes_len, capacities, KEYS, 0, 0, misses, misses_len, missed_sizes,
                               missed_sizes_len, &number);
}

/* The floors by size, with so many places of each array. */
static uint32_t floor_by_size(size_t sizes_len, size_t misses_len, size_t missed_sizes_len) {
    return clru_floor_by_size(keys, KEYS, sizes, sizes_len, capacities, KEYS, 0, 0, misses, misses_len, missed_sizes,
                              missed_sizes_len);
}

/* The misses by size, where one size or one capacity is another one. */
static uint32_t by_size_with(size_t *place, size_t value) {
    size_t before = *place;
    *place = value;
    uint32_t code = by_size(KEYS, KEYS, KEYS);
    *place = before;
    return code;
}

static void codes_of_sizes(void) {
    reset();
    expect(by_size_with(&capacities[KEYS - 1], 0) == CLRU_NO_CAPACITY, "a capacity by size of 0");
    expect(by_size_with(&capacities[KEYS - 1], LARGEST - 1) == CLRU_TOO_SMALL, "a capacity less than the greatest size");
    expect(by_size(KEYS - 1, KEYS, KEYS) == CLRU_WRONG_LENGTH, "too few sizes");
    expect(by_size(KEYS, KEYS - 1, KEYS) == CLRU_WRONG_LENGTH, "misses by size too short");
    expect(by_size(KEYS, KEYS, KEYS - 1) == CLRU_WRONG_LENGTH, "missed sizes too short");
    expect(floor_by_size(KEYS - 1, KEYS, KEYS) == CLRU_WRONG_LENGTH, "too few sizes for floors");
    expect(floor_by_size(KEYS, KEYS - 1, KEYS) == CLRU_WRONG_LENGTH, "floors by size too short");
    expect(floor_by_size(KEYS, KEYS, KEYS - 1) == CLRU_WRONG_LENGTH, "floors of the missed size too short");
    expect(by_size_with(&sizes[KEYS - 1], SIZE_MAX) == CLRU_TOO_LARGE, "sizes that pass 2^64 - 1, and capacities less than the greatest");
    capacities[0] = 1;
    expect(by_size(KEYS, KEYS, KEYS) == CLRU_TOO_SMALL, "the first capacity less than the greatest size");
    expect(by_size(KEYS - 1, KEYS, KEYS) == CLRU_WRONG_LENGTH, "too few sizes beside a capacity too small");
    expect(by_size_with(&capacities[1], 0) == CLRU_NO_CAPACITY, "a capacity of 0 beside one too small");
    capacities[0] = LARGEST;
    expect(untouched(), "something was written with a code by size");
}

/* The greatest sizes, of so many. Nothing is written where there is none. */
static uint32_t greatest_sizes(size_t sizes_len, uint64_t low) {
    memcpy(greatest, sizes, sizeof sizes);
    uint32_t code = clru_greatest_sizes(keys, KEYS, low, 0, greatest, sizes_len);
    expect(code == CLRU_OK || memcmp(greatest, sizes, sizeof sizes) == 0, "sizes were written with a code");
    return code;
}

static void codes_of_arguments(void) {
    reset();
    expect(clru_hits_at(keys, KEYS, 0, 0, 0, hits, KEYS, &number) == CLRU_NO_CAPACITY, "a capacity of 0");
    expect(clru_hits_at(keys, KEYS, 3, 0, 0, hits, KEYS - 1, &number) == CLRU_WRONG_LENGTH, "hits too short");
    expect(clru_hits_at(keys, KEYS - 1, 3, 0, 0, hits, KEYS, &number) == CLRU_WRONG_LENGTH, "hits too long");
    expect(clru_least_by_room(keys, KEYS, (size_t[]){3, 0}, 2, 0, 0, least, 2) == CLRU_NO_CAPACITY, "a room of 0");
    expect(clru_least_by_room(keys, KEYS, rooms, 2, 0, 0, least, 1) == CLRU_WRONG_LENGTH, "least too short");
    expect(clru_least_by_room(keys, KEYS, rooms, 1, 0, 0, least, 2) == CLRU_WRONG_LENGTH, "least too long");
    expect(clru_floor_by_room(keys, KEYS, (size_t[]){3, 0}, 2, 0, 0, least, 2) == CLRU_NO_CAPACITY, "a room of 0 for a floor");
    expect(clru_floor_by_room(keys, KEYS, rooms, 2, 0, 0, least, 1) == CLRU_WRONG_LENGTH, "floors too short");
    expect(clru_split(sizes, KEYS, KEYS / 2, least, 2) == CLRU_WRONG_LENGTH, "rows too short");
    expect(greatest_sizes(KEYS - 1, 0) == CLRU_WRONG_LENGTH, "too few sizes to take the greatest of");
    expect(clru_other_size(keys, KEYS - 1, sizes, KEYS, 0, 0, &number) == CLRU_WRONG_LENGTH, "too many sizes to compare");
    expect(untouched(), "something was written with a code");
}

static uint32_t call(int which, uint64_t low) {
    switch (which) {
    case 0:
        return clru_hits_at(keys, KEYS, 3, low, 0, hits, KEYS, &number);
    case 1:
        return clru_misses_by_capacity(keys, KEYS, low, 0, misses, KEYS, &number);
    case 2:
        return clru_misses_by_size(keys, KEYS, sizes, KEYS, capacities, KEYS, low, 0, misses, KEYS, missed_sizes, KEYS, &number);
    case 3:
        return clru_floor_by_room(keys, KEYS, rooms, 2, low, 0, least, 2);
    case 4:
        return clru_floor_by_size(keys, KEYS, sizes, KEYS, capacities, KEYS, low, 0, misses, KEYS, missed_sizes, KEYS);
    case 5:
        return clru_split(sizes, KEYS, KEYS / 2 - 1, least, 2);
    case 6:
        return greatest_sizes(KEYS, low);
    case 7:
        return clru_other_size(keys, KEYS, greatest, KEYS, low, 0, &number);
    default:
        return clru_least_by_room(keys, KEYS, rooms, 2, low, 0, least, 2);
    }
}

/* What each call asks for, exactly: a table that is made twice, or room for more than is needed, is seen here. */
static const struct {
    const char *name;
    size_t requests, bytes;
} needs[9] = {{"hits", 3, 644}, {"misses", 20, 24752}, {"misses by size", 36, 59600}, {"floors", 33, 39176}, {"floors by size", 35, 56920},
              {"parts", 39, 44768}, {"greatest sizes", 24, 17960}, {"another size", 24, 17960},
              {"least", 5, 2672}};

/* Refuses each request for memory in turn with all behind it, until the call meets no refusal. */
static void code_of_refused_memory(uint64_t low) {
    for (int which = 0; which < 9; which++) {
        for (size_t granted = 0;; granted++) {
            reset();
            requested = requested_bytes = 0;
            passing = granted;
            uint32_t code = call(which, low);
            passing = (size_t)-1;
            if (code == CLRU_OK) {
                break;
            }
            expect(code == CLRU_NO_MEMORY && untouched(), "refused memory");
        }
        if (requested != needs[which].requests || requested_bytes != needs[which].bytes) {
            fprintf(stderr, "codes: %s requested %zu times for %zu bytes\n", needs[which].name, requested, requested_bytes);
            faults++;
        }
    }
}

/* The misses of each capacity, by both calls and with both kinds of seeds. */
static void calls_agree(uint64_t low) {
    expect(clru_misses_by_capacity(keys, KEYS, low, 7 * low, misses, KEYS, &number) == CLRU_OK, "misses");
    expect(misses[KEYS - 1] == number, "the last misses are the distinct keys");
    for (size_t capacity = 1; capacity <= KEYS; capacity++) {
        size_t missed, hit = 0;
        expect(clru_hits_at(keys, KEYS, capacity, low, 7 * low, hits, KEYS, &missed) == CLRU_OK, "hits");
        for (size_t i = 0; i < KEYS; i++) {
            hit += hits[i];
        }
        expect(missed == misses[capacity - 1] && missed + hit == KEYS, "the misses of two calls differ");
    }
}

/* Where all sizes are 1, or 0, which counts as 1, a capacity by size is a number of keys. */
static void sizes_of_1_agree(uint64_t low) {
    for (size_t i = 0; i < KEYS; i++) {
        sizes[i] = keys[i] % 2;
    }
    static size_t by_number[KEYS];
    expect(clru_misses_by_capacity(keys, KEYS, low, low, by_number, KEYS, &number) == CLRU_OK, "misses");
    size_t distinct = number;
    expect(clru_misses_by_size(keys, KEYS, sizes, KEYS, capacities, KEYS, low, low, misses, KEYS, missed_sizes, KEYS, &number)
               == CLRU_OK, "misses by size");
    expect(number == distinct, "the size of the distinct keys of size 1");
    for (size_t i = 0; i < KEYS; i++) {
        size_t wanted = by_number[capacities[i] - 1];
        expect(misses[i] == wanted && missed_sizes[i] == wanted, "misses by size and by number differ");
    }
}

/* With the greatest sizes each key has one, and the size of the distinct keys is that of each once. */
static void one_size_agrees(uint64_t low) {
    expect(clru_other_size(keys, KEYS, sizes, KEYS, low, low, &number) == CLRU_OK && number < KEYS
               && keys[number] == keys[0] && sizes[number] != sizes[0], "another size");
    expect(clru_greatest_sizes(keys, KEYS, low, low, memcpy(greatest, sizes, sizeof sizes), KEYS) == CLRU_OK, "greatest sizes");
    expect(clru_other_size(keys, KEYS, greatest, KEYS, low, low, &number) == CLRU_OK && number == KEYS, "one size each");
    size_t whole = 0;
    for (size_t i = 0; i < KEYS; i++) {
        size_t first = 0, most = 0;
        while (keys[first] != keys[i]) {
            first++;
        }
        for (size_t j = 0; j < KEYS; j++) {
            most = keys[j] == keys[i] && sizes[j] > most ? sizes[j] : most;
        }
        expect(greatest[i] == most, "the greatest size of a key");
        whole += first == i ? (most > 0 ? most : 1) : 0;
    }
    expect(clru_misses_by_size(keys, KEYS, greatest, KEYS, capacities, KEYS, low, low, misses, KEYS, missed_sizes, KEYS, &number)
               == CLRU_OK && number == whole, "the size of the keys of one size");
}

/* Without keys no call asks for memory. */
static void no_keys(void) {
    passing = 0;
    expect(clru_misses_by_capacity(keys, 0, 0, 0, misses, 2, &number) == CLRU_OK && number == 0 && misses[1] == 0, "no keys");
    expect(clru_hits_at(keys, 0, 5, 0, 0, hits, 0, &number) == CLRU_OK && number == 0, "hits of no keys");
    expect(clru_least_by_room(keys, 0, rooms, 2, 0, 0, least, 2) == CLRU_OK && least[0] == 0, "the least of no keys");
    expect(clru_floor_by_room(keys, 0, rooms, 2, 0, 0, least, 2) == CLRU_OK && least[0] == 0, "the floor of no keys");
    expect(clru_misses_by_size(keys, 0, sizes, 0, capacities, 1, 0, 0, misses, 1, missed_sizes, 1, &number) == CLRU_OK
               && number == 0 && misses[0] == 0 && missed_sizes[0] == 0, "misses by size of no keys");
    expect(clru_floor_by_size(keys, 0, sizes, 0, capacities, 1, 0, 0, misses, 1, missed_sizes, 1) == CLRU_OK
               && misses[0] == 0 && missed_sizes[0] == 0, "the floors by size of no keys");
    expect(clru_greatest_sizes(keys, 0, 0, 0, sizes, 0) == CLRU_OK, "the greatest sizes of no keys");
    expect(clru_other_size(keys, 0, sizes, 0, 0, 0, &number) == CLRU_OK && number == 0, "another size of no keys");
    passing = (size_t)-1;
}

int main(void) {
    uint64_t drawn = 1;
    for (size_t i = 0; i < KEYS; i++) {
        drawn = drawn * 16807 % 2147483647;
        keys[i] = drawn % 90 * (drawn % 7);
        sizes[i] = keys[i] % LARGEST;
        capacities[i] = LARGEST + i % 400;
    }
    sizes[0] = LARGEST;
    codes_of_arguments();
    codes_of_sizes();
    code_of_refused_memory(0);
    code_of_refused_memory(1);
    calls_agree(0);
    calls_agree(0x1234567890abcdefu);
    no_keys();
    one_size_agrees(0);
    one_size_agrees(0x1234567890abcdefu);
    sizes_of_1_agree(0);
    sizes_of_1_agree(0x1234567890abcdefu);
    return faults != 0;
}
