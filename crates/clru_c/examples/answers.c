/* Sees what each call answers at ten keys, in numbers that were worked out by hand: without a seed, and with one of either word and
 * of both; and each code of a wrong argument, also where several are wrong, with what stood in the arrays before. */
#include "clru.h"

#include <stdio.h>
#include <string.h>

#define KEYS 10
#define MOST 6

/* a b a c b a d a b e */
static const uint64_t keys[KEYS] = {1, 2, 1, 3, 2, 1, 4, 1, 2, 5};

static const struct {
    uint64_t low, high;
} seeds[] = {{0, 0}, {1, 0}, {0, 1}, {1, 2}};
#define SEEDS (sizeof seeds / sizeof *seeds)

/* What a call may write. */
typedef struct {
    bool hits[KEYS];
    size_t misses[MOST], missed_sizes[MOST], number;
} Arrays;

/* What stands there before each call. */
static const Arrays before = {{1, 1, 1, 1, 1, 1, 1, 1, 1, 1}, {8, 8, 8, 8, 8, 8}, {7, 7, 7, 7, 7, 7}, 9};
static Arrays found;
static int faults;

/* Stands behind each call: all of `found` is as it is wanted. */
static void see(const char *what, size_t seed, uint32_t code, uint32_t wanted_code, const Arrays *wanted) {
    bool same = memcmp(found.hits, wanted->hits, sizeof found.hits) == 0
                && memcmp(found.misses, wanted->misses, sizeof found.misses) == 0
                && memcmp(found.missed_sizes, wanted->missed_sizes, sizeof found.missed_sizes) == 0
                && found.number == wanted->number;
    if (code != wanted_code || !same) {
        fprintf(stderr, "answers: %s, seed %zu: code %u%s\n", what, seed, code, same ? "" : ", and other numbers than are wanted");
        faults++;
    }
    found = before;
}

static const struct {
    const char *what;
    size_t capacity, hits_len;
    uint32_t code;
    bool hits[KEYS];
    size_t misses;
} of_hits[] = {
    {"hits at 3", 3, KEYS, CLRU_OK, {0, 0, 1, 0, 1, 1, 0, 1, 1, 0}, 5},
    {"hits at 0, and too short", 0, 2, CLRU_NO_CAPACITY, {0}, 0},
    {"hits too short", 3, 2, CLRU_WRONG_LENGTH, {0}, 0},
};

static void see_hits(void) {
    for (size_t row = 0; row < sizeof of_hits / sizeof *of_hits; row++) {
        for (size_t seed = 0; seed < SEEDS; seed++) {
            Arrays wanted = before;
            if (of_hits[row].code == CLRU_OK) {
                memcpy(wanted.hits, of_hits[row].hits, sizeof wanted.hits);
                wanted.number = of_hits[row].misses;
            }
            uint32_t code = clru_hits_at(keys, KEYS, of_hits[row].capacity, seeds[seed].low, seeds[seed].high, found.hits,
                                         of_hits[row].hits_len, &found.number);
            see(of_hits[row].what, seed, code, of_hits[row].code, &wanted);
        }
    }
}

/* No argument of this call can be wrong. */
static void see_misses(void) {
    static const size_t misses[MOST] = {10, 8, 5, 5, 5, 5};
    for (size_t places = 0; places <= MOST; places++) {
        for (size_t seed = 0; seed < SEEDS; seed++) {
            Arrays wanted = before;
            memcpy(wanted.misses, misses, places * sizeof *misses);
            wanted.number = 5;
            uint32_t code = clru_misses_by_capacity(keys, KEYS, seeds[seed].low, seeds[seed].high, found.misses, places,
                                                    &found.number);
            see("misses", seed, code, CLRU_OK, &wanted);
        }
    }
}

static const struct {
    const char *what;
    size_t rooms_len, rooms[MOST], least_len;
    uint32_t code;
    size_t least[MOST];
} of_least[] = {
    {"least", 3, {2, 1, 5}, 3, CLRU_OK, {7, 10, 5}},
    {"least with room 0", 2, {2, 0}, 2, CLRU_NO_CAPACITY, {0}},
    {"least with room 0, and too short", 2, {2, 0}, 1, CLRU_NO_CAPACITY, {0}},
    {"least too long", 1, {2}, 2, CLRU_WRONG_LENGTH, {0}},
};

static void see_least(void) {
    for (size_t row = 0; row < sizeof of_least / sizeof *of_least; row++) {
        for (size_t seed = 0; seed < SEEDS; seed++) {
            Arrays wanted = before;
            if (of_least[row].code == CLRU_OK) {
                memcpy(wanted.misses, of_least[row].least, of_least[row].least_len * sizeof *of_least[row].least);
            }
            uint32_t code = clru_least_by_room(keys, KEYS, of_least[row].rooms, of_least[row].rooms_len, seeds[seed].low,
                                               seeds[seed].high, found.misses, of_least[row].least_len);
            see(of_least[row].what, seed, code, of_least[row].code, &wanted);
        }
    }
}

static const struct {
    const char *what;
    size_t rooms_len, rooms[MOST], floors_len;
    uint32_t code;
    size_t floors[MOST];
} of_floors[] = {
    {"floors", 4, {2, 1, 5, SIZE_MAX}, 4, CLRU_OK, {5, 6, 5, 5}},
    {"floors with room 0, and too short", 2, {2, 0}, 1, CLRU_NO_CAPACITY, {0}},
    {"floors too long", 1, {2}, 2, CLRU_WRONG_LENGTH, {0}},
};

static void see_floors(void) {
    for (size_t row = 0; row < sizeof of_floors / sizeof *of_floors; row++) {
        for (size_t seed = 0; seed < SEEDS; seed++) {
            Arrays wanted = before;
            if (of_floors[row].code == CLRU_OK) {
                memcpy(wanted.misses, of_floors[row].floors, of_floors[row].floors_len * sizeof *of_floors[row].floors);
            }
            uint32_t code = clru_floor_by_room(keys, KEYS, of_floors[row].rooms, of_floors[row].rooms_len, seeds[seed].low,
                                               seeds[seed].high, found.misses, of_floors[row].floors_len);
            see(of_floors[row].what, seed, code, of_floors[row].code, &wanted);
        }
    }
}

/* How large each of the ten is: a 2, b 3, c 4, d 5, e 1, but for the last a, of size 0, which is an object of its own. */
#define SIZES {2, 3, 2, 4, 3, 2, 5, 0, 3, 1}
#define EIGHTH ((size_t)1 << 61)

static const struct {
    const char *what;
    size_t sizes_len, sizes[KEYS], capacities_len, capacities[MOST], misses_len, missed_sizes_len;
    uint32_t code;
    size_t misses[MOST], missed_sizes[MOST], distinct_size;
} by_size[] = {
    {"by size", KEYS, SIZES, 4, {9, 5, 6, 16}, 4, 4, CLRU_OK, {7, 9, 9, 6}, {19, 24, 24, 16}, 16},
    {"by size at 0", KEYS, SIZES, 2, {9, 0}, 2, 2, CLRU_NO_CAPACITY, {0}, {0}, 0},
    {"two sizes", 2, {1, 2}, 2, {9, 9}, 2, 2, CLRU_WRONG_LENGTH, {0}, {0}, 0},
    {"one capacity", KEYS, SIZES, 1, {9}, 2, 2, CLRU_WRONG_LENGTH, {0}, {0}, 0},
    {"misses by size too short", KEYS, SIZES, 2, {9, 9}, 1, 2, CLRU_WRONG_LENGTH, {0}, {0}, 0},
    {"missed sizes too short", KEYS, SIZES, 2, {9, 9}, 2, 1, CLRU_WRONG_LENGTH, {0}, {0}, 0},
    {"a size too large, capacities too small", KEYS, {2, 3, 2, 4, SIZE_MAX, 2, 5, 0, 3, 1}, 2, {9, 9}, 2, 2, CLRU_TOO_LARGE,
     {0}, {0}, 0},
    {"sizes too large together", KEYS, {EIGHTH, EIGHTH, EIGHTH, EIGHTH, EIGHTH, EIGHTH, EIGHTH, EIGHTH, EIGHTH, EIGHTH}, 2,
     {EIGHTH, SIZE_MAX}, 2, 2, CLRU_TOO_LARGE, {0}, {0}, 0},
    {"a capacity too small", KEYS, SIZES, 2, {5, 4}, 2, 2, CLRU_TOO_SMALL, {0}, {0}, 0},
};

static void see_by_size(void) {
    for (size_t row = 0; row < sizeof by_size / sizeof *by_size; row++) {
        for (size_t seed = 0; seed < SEEDS; seed++) {
            Arrays wanted = before;
            if (by_size[row].code == CLRU_OK) {
                size_t bytes = by_size[row].capacities_len * sizeof *by_size[row].misses;
                memcpy(wanted.misses, by_size[row].misses, bytes);
                memcpy(wanted.missed_sizes, by_size[row].missed_sizes, bytes);
                wanted.number = by_size[row].distinct_size;
            }
            uint32_t code = clru_misses_by_size(keys, KEYS, by_size[row].sizes, by_size[row].sizes_len, by_size[row].capacities,
                                                by_size[row].capacities_len, seeds[seed].low, seeds[seed].high, found.misses,
                                                by_size[row].misses_len, found.missed_sizes, by_size[row].missed_sizes_len,
                                                &found.number);
            see(by_size[row].what, seed, code, by_size[row].code, &wanted);
        }
    }
}

static const struct {
    const char *what;
    size_t sizes_len, sizes[KEYS], rooms_len, rooms[MOST], misses_len, missed_sizes_len;
    uint32_t code;
    size_t misses[MOST], missed_sizes[MOST];
} floors_by_size[] = {
    {"floors by size", KEYS, SIZES, 3, {4, 1, SIZE_MAX}, 3, 3, CLRU_OK, {6, 8, 6}, {16, 22, 16}},
    {"floors by size at 0", KEYS, SIZES, 2, {9, 0}, 2, 2, CLRU_NO_CAPACITY, {0}, {0}},
    {"floors of two sizes", 2, {1, 2}, 2, {9, 9}, 2, 2, CLRU_WRONG_LENGTH, {0}, {0}},
    {"floors of the missed size too short", KEYS, SIZES, 2, {9, 9}, 2, 1, CLRU_WRONG_LENGTH, {0}, {0}},
    {"floors by a size too large", KEYS, {2, 3, 2, 4, SIZE_MAX, 2, 5, 0, 3, 1}, 2, {9, 9}, 2, 2, CLRU_TOO_LARGE, {0}, {0}},
};

static void see_floors_by_size(void) {
    for (size_t row = 0; row < sizeof floors_by_size / sizeof *floors_by_size; row++) {
        for (size_t seed = 0; seed < SEEDS; seed++) {
            Arrays wanted = before;
            if (floors_by_size[row].code == CLRU_OK) {
                size_t bytes = floors_by_size[row].rooms_len * sizeof *floors_by_size[row].misses;
                memcpy(wanted.misses, floors_by_size[row].misses, bytes);
                memcpy(wanted.missed_sizes, floors_by_size[row].missed_sizes, bytes);
            }
            uint32_t code = clru_floor_by_size(keys, KEYS, floors_by_size[row].sizes, floors_by_size[row].sizes_len,
                                               floors_by_size[row].rooms, floors_by_size[row].rooms_len, seeds[seed].low,
                                               seeds[seed].high, found.misses, floors_by_size[row].misses_len,
                                               found.missed_sizes, floors_by_size[row].missed_sizes_len);
            see(floors_by_size[row].what, seed, code, floors_by_size[row].code, &wanted);
        }
    }
}

/* Sizes of keys, the greatest of each, and the first index at which a key has another one than before. */
static const struct {
    const char *what;
    size_t sizes_len, sizes[KEYS];
    uint32_t code;
    size_t greatest[KEYS], other;
} of_sizes[] = {
    {"a size of 0 behind others", KEYS, SIZES, CLRU_OK, {2, 3, 2, 4, 3, 2, 5, 2, 3, 1}, 7},
    {"one size each", KEYS, {2, 3, 2, 4, 3, 2, 5, 2, 3, 1}, CLRU_OK, {2, 3, 2, 4, 3, 2, 5, 2, 3, 1}, KEYS},
    {"sizes that rise and fall", KEYS, {5, 0, 9, 0, 0, 7, 0, SIZE_MAX, 1, 0}, CLRU_OK,
     {SIZE_MAX, 1, SIZE_MAX, 0, 1, SIZE_MAX, 0, SIZE_MAX, 1, 0}, 2},
    {"a size too few", KEYS - 1, SIZES, CLRU_WRONG_LENGTH, {0}, 0},
};

static void see_one_size(void) {
    for (size_t row = 0; row < sizeof of_sizes / sizeof *of_sizes; row++) {
        for (size_t seed = 0; seed < SEEDS; seed++) {
            bool is_ok = of_sizes[row].code == CLRU_OK;
            size_t sizes[KEYS];
            memcpy(sizes, of_sizes[row].sizes, sizeof sizes);
            uint32_t code = clru_greatest_sizes(keys, KEYS, seeds[seed].low, seeds[seed].high, sizes, of_sizes[row].sizes_len);
            if (code != of_sizes[row].code
                || memcmp(sizes, is_ok ? of_sizes[row].greatest : of_sizes[row].sizes, sizeof sizes) != 0) {
                fprintf(stderr, "answers: the greatest of %s, seed %zu: code %u\n", of_sizes[row].what, seed, code);
                faults++;
            }
            Arrays wanted = before;
            if (is_ok) {
                wanted.number = of_sizes[row].other;
            }
            code = clru_other_size(keys, KEYS, of_sizes[row].sizes, of_sizes[row].sizes_len, seeds[seed].low, seeds[seed].high,
                                   &found.number);
            see(of_sizes[row].what, seed, code, of_sizes[row].code, &wanted);
        }
    }
}

/* The first misses nothing less below 3 units, so steps by slope would give it none; SIZE_MAX is no cache. */
static const struct {
    const char *what;
    size_t missed_len, missed[12], budget, parts_len;
    uint32_t code;
    size_t parts[MOST];
} of_parts[] = {
    {"parts", 12, {9, 9, 9, 1, 9, 8, 7, 6, 5, 5, 5, 5}, 3, 3, CLRU_OK, {3, 0, 0}},
    {"parts of 2 units", 9, {9, 9, 9, 9, 8, 7, 5, 4, 4}, 2, 3, CLRU_OK, {0, 1, 1}},
    {"parts where one is none", 6, {9, SIZE_MAX, 2, 8, 1, 0}, 2, 2, CLRU_OK, {0, 2}},
    {"a part that no cache has", 4, {9, SIZE_MAX, 9, SIZE_MAX}, 1, 2, CLRU_OK, {0, 0}},
    {"parts of nothing", 2, {9, SIZE_MAX}, 0, 2, CLRU_OK, {0, 0}},
    {"sums past 2^64", 4, {SIZE_MAX, 1, SIZE_MAX, 0}, 1, 2, CLRU_OK, {0, 1}},
    {"no parts of all", 0, {0}, SIZE_MAX, 0, CLRU_OK, {0}},
    {"rows too short", 5, {9, 9, 9, 9, 8}, 2, 2, CLRU_WRONG_LENGTH, {0}},
    {"rows of 2^64 numbers", 0, {0}, SIZE_MAX, 2, CLRU_WRONG_LENGTH, {0}},
};

static void see_parts(void) {
    for (size_t row = 0; row < sizeof of_parts / sizeof *of_parts; row++) {
        Arrays wanted = before;
        if (of_parts[row].code == CLRU_OK) {
            memcpy(wanted.misses, of_parts[row].parts, of_parts[row].parts_len * sizeof *of_parts[row].parts);
        }
        uint32_t code = clru_split(of_parts[row].missed, of_parts[row].missed_len, of_parts[row].budget, found.misses,
                                   of_parts[row].parts_len);
        see(of_parts[row].what, 0, code, of_parts[row].code, &wanted);
    }
}

int main(void) {
    found = before;
    see_hits();
    see_misses();
    see_least();
    see_floors();
    see_by_size();
    see_floors_by_size();
    see_one_size();
    see_parts();
    return faults != 0;
}
