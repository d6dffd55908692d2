/* Prints a small table of the keys in its input, one number of 64 bits a line: at the capacities 1, 2, 4 and so on. */
#include "clru.h"

#include <errno.h>
#include <inttypes.h>
#include <stdio.h>
#include <stdlib.h>

#define ROWS 64

static int refused(uint32_t code) {
    fprintf(stderr, "curve: code %" PRIu32 "\n", code);
    return 1;
}

/* Whether the word is a number below 2^64, in digits alone. */
static bool is_number(const char *word, uint64_t *number) {
    char *end;
    errno = 0;
    *number = strtoull(word, &end, 10);
    return errno == 0 && *end == '\0' && word[0] >= '0' && word[0] <= '9';
}

int main(void) {
    size_t count = 0, places = 1024;
    uint64_t *keys = malloc(places * sizeof *keys);
    char word[32];
    while (keys && scanf("%31s", word) == 1) {
        if (!is_number(word, &keys[count])) {
            fprintf(stderr, "curve: no number below 2^64: %s\n", word);
            return 1;
        }
        if (++count == places) {
            keys = realloc(keys, (places *= 2) * sizeof *keys);
        }
    }
    if (!keys) {
        return refused(CLRU_NO_MEMORY);
    }

    /* As many places as there are keys, so that the array reaches the number of distinct keys. */
    size_t distinct, *misses = calloc(count ? count : 1, sizeof *misses);
    if (!misses) {
        return refused(CLRU_NO_MEMORY);
    }
    uint32_t code = clru_misses_by_capacity(keys, count, 0, 0, misses, count, &distinct);
    if (code != CLRU_OK) {
        return refused(code);
    }
    size_t rooms[ROWS], least[ROWS], rows = 0;
    for (size_t room = 1; rows < ROWS && room <= distinct; room *= 2) {
        rooms[rows++] = room;
    }
    code = clru_least_by_room(keys, count, rooms, rows, 0, 0, least, rows);
    if (code != CLRU_OK) {
        return refused(code);
    }
    puts("capacity,misses,least_misses");
    for (size_t row = 0; row < rows; row++) {
        printf("%zu,%zu,%zu\n", rooms[row], misses[rooms[row] - 1], least[row]);
    }
    free(misses);
    free(keys);
    return 0;
}
