/* Counts the memory of each call, and prints it in the words of clru.h: the least and the most bytes for each of what they are
 * given, over tables of 65 to 70,000 keys, at the time when the call holds the most. Link it with --wrap=malloc, --wrap=realloc and
 * --wrap=free. It fails where a call leaves a block behind, or asks for other memory at 70,000 keys than it needs. */
#include "clru.h"

#include <stdio.h>
#include <stdlib.h>

#define MANY 70000

/* What is given out now, the most bytes that were, and what was requested. */
static size_t blocks, bytes, most, requested, requested_bytes;

void *__real_malloc(size_t);
void *__real_realloc(void *, size_t);
void __real_free(void *);

/* Each block has its size in front of it, by as much as keeps it aligned. */
#define FRONT 16

static void *counted(size_t *front, size_t size) {
    if (!front) {
        return NULL;
    }
    *front = size;
    blocks++;
    bytes += size;
    most = bytes > most ? bytes : most;
    return (char *)front + FRONT;
}

static size_t *uncounted(void *block) {
    size_t *front = (size_t *)((char *)block - FRONT);
    blocks--;
    bytes -= *front;
    return front;
}

static void note(size_t size) {
    requested++;
    requested_bytes += size;
}

void *__wrap_malloc(size_t size) {
    note(size);
    return counted(__real_malloc(size + FRONT), size);
}

void __wrap_free(void *block) {
    if (block) {
        __real_free(uncounted(block));
    }
}

/* Where it moves, both blocks are there for a while. */
void *__wrap_realloc(void *block, size_t size) {
    if (!block) {
        return __wrap_malloc(size);
    }
    note(size);
    most = bytes + size > most ? bytes + size : most;
    return counted(__real_realloc(uncounted(block), size + FRONT), size);
}

static uint64_t keys[MANY];
static bool hits[MANY];
static size_t sizes[MANY], misses[100], missed_sizes[1], number;

/* Bytes for each of some, at least and at most. */
typedef struct {
    double least, most;
} Range;

static Range nothing(void) { return (Range){1e9, 0}; }

static void take(Range *range, double each) {
    range->least = each < range->least ? each : range->least;
    range->most = each > range->most ? each : range->most;
}

/* Rounded to whole bytes, the least down and the most up. */
static void print(const char *before, Range range, const char *behind) {
    size_t least = (size_t)range.least, greatest = (size_t)range.most + (range.most > (size_t)range.most);
    printf("%s%zu to %zu %s\n", before, least, greatest, behind);
}

static int faults;

static size_t held_by(uint32_t code) {
    if (code != CLRU_OK || blocks != 0) {
        fprintf(stderr, "memory: code %u, and %zu blocks are left\n", code, blocks);
        faults++;
    }
    size_t held = most;
    most = bytes;
    return held;
}

/* So many requests of so many keys in turn. */
static void fill(size_t count, size_t distinct) {
    for (size_t i = 0; i < count; i++) {
        keys[i] = i % distinct;
        sizes[i] = 1 + i % distinct % 3;
    }
}

static size_t next(size_t count) { return count + 1 + count / 97; }

static Range of_hits(void) {
    Range range = nothing();
    for (size_t count = 65; count <= MANY; count = next(count)) {
        fill(count, count);
        size_t entries = count % 2 ? count : (count + 65) / 2;
        size_t held = held_by(clru_hits_at(keys, count, entries, 0, 0, hits, count, &number));
        take(&range, (double)(held - count) / entries);
    }
    return range;
}

static size_t curve(size_t count) {
    return held_by(clru_misses_by_capacity(keys, count, 0, 0, misses, 1, &number));
}

static size_t curve_by_size(size_t count) {
    size_t capacity = 3;
    return held_by(clru_misses_by_size(keys, count, sizes, count, &capacity, 1, 0, 0, misses, 1, missed_sizes, 1, &number));
}

/* For each distinct key, where each is requested once; for each 64 requests, where one is the latest of its key; and by size for each
 * request, where all are of one key. */
static void of_curves(Range *distinct, Range *request, Range *object, Range *sized) {
    for (size_t count = 65; count <= MANY; count = next(count)) {
        fill(count, count);
        take(distinct, (double)curve(count) / count);
        take(object, (double)curve_by_size(count) / count);
    }
    for (size_t count = 4096; count <= MANY; count = next(count)) {
        fill(count, 1);
        take(sized, (double)curve_by_size(count) / count);
        size_t rare = count / 64, often = rare * 64;
        fill(rare + 1, rare + 1);
        size_t of_keys = curve(rare + 1);
        for (size_t i = 0; i < often; i++) keys[i] = i % 64 ? 0 : 1 + i / 64;
        take(request, ((double)curve(often) - of_keys) / rare);
    }
}

/* Where keys are requested twice or more, what is more than the most for each request counts as that of the keys. */
static void of_mixed(Range *distinct, Range request, Range *object, Range sized) {
    for (size_t each = 2; each <= 5; each++) {
        for (size_t count = 65; count <= MANY / each; count = next(count)) {
            size_t all = each * count;
            fill(all, count);
            double for_key = (curve(all) - request.most * all / 64) / count;
            double for_object = (curve_by_size(all) - sized.most * (all - count)) / count;
            distinct->most = for_key > distinct->most ? for_key : distinct->most;
            object->most = for_object > object->most ? for_object : object->most;
        }
    }
}

static Range of_least(void) {
    Range range = nothing();
    size_t room = 3, least;
    for (size_t count = 65; count <= MANY; count = next(count)) {
        for (size_t distinct = 1; distinct <= count; distinct += count - 1) {
            fill(count, distinct);
            take(&range, (double)held_by(clru_least_by_room(keys, count, &room, 1, 0, 0, &least, 1)) / count);
        }
    }
    return range;
}

/* Those by size take the objects too. */
static Range of_floors(int are_by_size) {
    Range range = nothing();
    size_t room = 3;
    for (size_t count = 65; count <= MANY; count = next(count)) {
        for (size_t distinct = 1; distinct <= count; distinct += count - 1) {
            fill(count, distinct);
            uint32_t code = are_by_size
                ? clru_floor_by_size(keys, count, sizes, count, &room, 1, 0, 0, misses, 1, missed_sizes, 1)
                : clru_floor_by_room(keys, count, &room, 1, 0, 0, misses, 1);
            take(&range, (double)held_by(code) / count);
        }
    }
    return range;
}

/* For each distinct key, whose sizes alone are looked at. */
static Range of_one_size(void) {
    Range range = nothing();
    for (size_t count = 65; count <= MANY; count = next(count)) {
        fill(count, count);
        take(&range, (double)held_by(clru_greatest_sizes(keys, count, 0, 0, sizes, count)) / count);
        take(&range, (double)held_by(clru_other_size(keys, count, sizes, count, 0, 0, &number)) / count);
    }
    return range;
}

/* Numbers that fall to 0, of 2 to 100 caches. */
static Range of_parts(void) {
    Range range = nothing();
    for (size_t caches = 2; caches <= 100; caches *= 7) {
        for (size_t budget = 64; budget <= 699; budget = next(budget)) {
            size_t count = caches * (budget + 1);
            for (size_t i = 0; i < count; i++) sizes[i] = budget - i % (budget + 1);
            take(&range, (double)held_by(clru_split(sizes, count, budget, misses, caches)) / count);
        }
    }
    return range;
}

/* What each call asks for at 70,000 distinct keys, exactly. */
static void see_requested(const char *name, size_t requests, size_t all) {
    if (requested != requests || requested_bytes != all) {
        fprintf(stderr, "memory: %s requested %zu times for %zu bytes at %d keys\n", name, requested, requested_bytes, MANY);
        faults++;
    }
    requested = requested_bytes = 0;
}

static void see_many(void) {
    size_t room = 3, least;
    fill(MANY, MANY);
    requested = requested_bytes = 0;
    held_by(clru_hits_at(keys, MANY, MANY, 0, 0, hits, MANY, &number));
    see_requested("hits", 3, 3882864);
    curve(MANY);
    see_requested("misses", 63, 13727536);
    curve_by_size(MANY);
    see_requested("misses by size", 70, 17632464);
    held_by(clru_least_by_room(keys, MANY, &room, 1, 0, 0, &least, 1));
    see_requested("least", 4, 420352);
}

int main(void) {
    Range distinct = nothing(), request = nothing(), object = nothing(), sized = nothing();
    see_many();
    print("hits: ", of_hits(), "bytes each");
    of_curves(&distinct, &request, &object, &sized);
    of_mixed(&distinct, request, &object, sized);
    print("curve: ", distinct, "bytes for each distinct key");
    print("curve: ", request, "bytes for each 64 requests with the latest of a key");
    print("by size: ", object, "bytes for each request of another object");
    print("by size: ", sized, "bytes for each of one that was requested before");
    print("least: ", of_least(), "bytes for each request");
    print("floors: ", of_floors(0), "bytes for each request of a floor in keys");
    print("floors: ", of_floors(1), "bytes for each request of floors by size");
    print("one size: ", of_one_size(), "bytes for each distinct key with a size");
    print("parts: ", of_parts(), "bytes for each of the numbers");
    return faults != 0;
}
