/* Sees that the seed of a call is what hashes its keys. Keys that share the place in a table that the hash under one seed gives them
 * make a call under that seed slow, and under no other; for each call and each pair of seeds. The answers are the same. */
#include "clru.h"

#include <stdio.h>
#include <time.h>

#define KEYS 1000
/* Of a call with such keys: more than so many times as long as with others. */
#define SLOWER 5

/* From the fifth on a call has a table of std. */
enum { HITS, CURVE, BY_SIZE, LEAST, FLOOR, FLOOR_BY_SIZE, GREATEST, OTHER };

typedef struct {
    uint64_t low, high;
} Seed;

static const Seed seeds[] = {
    {0, 0}, {0, 0x243f6a8885a308d3u}, {0x13198a2e03707344u, 0}, {0xa4093822299f31d0u, 0x082efa98ec4e6c89u},
};
#define SEEDS (sizeof seeds / sizeof *seeds)

static uint64_t turned(uint64_t word, int by) { return word << by | word >> (64 - by); }

static void sip_round(uint64_t v[4]) {
    v[0] += v[1];
    v[2] += v[3];
    v[1] = turned(v[1], 13) ^ v[0];
    v[3] = turned(v[3], 16) ^ v[2];
    v[0] = turned(v[0], 32);
    v[2] += v[1];
    v[0] += v[3];
    v[1] = turned(v[1], 17) ^ v[2];
    v[3] = turned(v[3], 21) ^ v[0];
    v[2] = turned(v[2], 32);
}

/* SipHash-1-3 of so many words: a key, or an object, which is a key with a size. */
static uint64_t sip(Seed seed, const uint64_t *words, size_t count) {
    uint64_t v[4] = {seed.low ^ 0x736f6d6570736575u, seed.high ^ 0x646f72616e646f6du, seed.low ^ 0x6c7967656e657261u,
                     seed.high ^ 0x7465646279746573u};
    for (size_t i = 0; i <= count; i++) {
        uint64_t word = i < count ? words[i] : (uint64_t)(8 * count) << 56;
        v[3] ^= word;
        sip_round(v);
        v[0] ^= word;
    }
    v[2] ^= 0xff;
    for (int i = 0; i < 3; i++) {
        sip_round(v);
    }
    return v[0] ^ v[1] ^ v[2] ^ v[3];
}

/* Of the key 7, by a program of 30 lines that gives the published values of SipHash-2-4 too. */
static const struct {
    Seed seed;
    uint64_t hash;
} hashes[] = {
    {{1, 0}, 0x07350c57b4310903u},
    {{0, 1}, 0xae78c52b938790ffu},
    {{1, 2}, 0x27af68d834d1f21du},
    {{0x0706050403020100u, 0x0f0e0d0c0b0a0908u}, 0x33d5b3229db273ebu},
};

/* The fixed hash: for each word a product of 128 bits, whose halves are joined. */
static uint64_t fixed(const uint64_t *words, size_t count) {
    uint64_t state = 0x243f6a8885a308d3u;
    for (size_t i = 0; i < count; i++) {
        unsigned __int128 product = (unsigned __int128)(state ^ words[i]) * (0x9e3779b97f4a7c15u ^ 16);
        state = (uint64_t)product ^ (uint64_t)(product >> 64);
    }
    return state;
}

/* Whether a key shares its place in the table of a call with each other one of which that is so. A cache takes the lowest bits of
 * the hash of a key for its buckets, which are fewer than these, as the least does, and by size those of an object. Std's table takes
 * both halves joined, of these the lowest bits for a group, and the highest for a tag. */
static bool shares_place(int which, Seed seed, uint64_t key) {
    const uint64_t words[2] = {key, 1};
    size_t count = which == BY_SIZE || which == FLOOR_BY_SIZE ? 2 : 1;
    uint64_t hash = seed.low || seed.high ? sip(seed, words, count) : fixed(words, count);
    return which >= FLOOR ? ((hash ^ hash >> 32) & 0xff00007fu) == 0x35000000u : hash % 4096 == 0;
}

static void find(int which, Seed seed, uint64_t keys[KEYS]) {
    uint64_t key = 1;
    for (size_t found = 0; found < KEYS; key++) {
        if (shares_place(which, seed, key)) {
            keys[found++] = key;
        }
    }
}

static int faults;
static size_t numbers[KEYS], missed_sizes[KEYS], sizes[KEYS], capacity = KEYS, distinct;
static bool hits[KEYS];

/* The call of that number, and its answer. */
static size_t call(int which, Seed seed, const uint64_t keys[KEYS]) {
    uint32_t code;
    switch (which) {
    case HITS:
        code = clru_hits_at(keys, KEYS, KEYS, seed.low, seed.high, hits, KEYS, &distinct);
        break;
    case CURVE:
        code = clru_misses_by_capacity(keys, KEYS, seed.low, seed.high, numbers, KEYS, &distinct);
        break;
    case BY_SIZE:
        code = clru_misses_by_size(keys, KEYS, sizes, KEYS, &capacity, 1, seed.low, seed.high, numbers, 1, missed_sizes, 1,
                                   &distinct);
        break;
    case FLOOR:
        code = clru_floor_by_room(keys, KEYS, &capacity, 1, seed.low, seed.high, &distinct, 1);
        break;
    case FLOOR_BY_SIZE:
        code = clru_floor_by_size(keys, KEYS, sizes, KEYS, &capacity, 1, seed.low, seed.high, &distinct, 1, missed_sizes, 1);
        break;
    case GREATEST:
        code = clru_greatest_sizes(keys, KEYS, seed.low, seed.high, sizes, KEYS);
        distinct = KEYS;
        break;
    case OTHER:
        code = clru_other_size(keys, KEYS, sizes, KEYS, seed.low, seed.high, &distinct);
        break;
    default:
        code = clru_least_by_room(keys, KEYS, &capacity, 1, seed.low, seed.high, &distinct, 1);
    }
    if (code != CLRU_OK || distinct != KEYS) {
        fprintf(stderr, "seeds: code %u, %zu keys\n", code, distinct);
        faults++;
    }
    return distinct;
}

/* The least processor time of some calls, since other work may stand in between. */
static double time_of(int which, Seed seed, const uint64_t keys[KEYS]) {
    double least = 1;
    for (int i = 0; i < 9; i++) {
        clock_t begin = clock();
        call(which, seed, keys);
        double took = (double)(clock() - begin) / CLOCKS_PER_SEC;
        least = took < least ? took : least;
    }
    return least;
}

/* One call, with each seed, on the keys of each seed. */
static void see(int which, const char *name) {
    static uint64_t others[KEYS], shared[SEEDS][KEYS];
    for (size_t i = 0; i < KEYS; i++) {
        others[i] = i;
        sizes[i] = 1;
    }
    for (size_t of = 0; of < SEEDS; of++) {
        find(which, seeds[of], shared[of]);
    }
    for (size_t with = 0; with < SEEDS; with++) {
        double usual = time_of(which, seeds[with], others);
        for (size_t of = 0; of < SEEDS; of++) {
            double took = time_of(which, seeds[with], shared[of]);
            if ((took > SLOWER * usual) != (of == with)) {
                fprintf(stderr, "seeds: %s, seed %zu, keys of seed %zu: %.0f microseconds, others %.0f\n", name, with, of,
                        1e6 * took, 1e6 * usual);
                faults++;
            }
        }
    }
}

/* What stands above is that hash. */
static void see_hashes(void) {
    for (size_t row = 0; row < sizeof hashes / sizeof *hashes; row++) {
        uint64_t seven = 7, hash = sip(hashes[row].seed, &seven, 1);
        if (hash != hashes[row].hash) {
            fprintf(stderr, "seeds: hash %zu is another one\n", row);
            faults++;
        }
    }
}

int main(void) {
    see_hashes();
    see(HITS, "clru_hits_at");
    see(CURVE, "clru_misses_by_capacity");
    see(BY_SIZE, "clru_misses_by_size");
    see(LEAST, "clru_least_by_room");
    see(FLOOR, "clru_floor_by_room");
    see(FLOOR_BY_SIZE, "clru_floor_by_size");
    see(GREATEST, "clru_greatest_sizes");
    see(OTHER, "clru_other_size");
    return faults != 0;
}
