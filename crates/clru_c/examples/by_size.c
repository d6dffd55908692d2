/* Prints the misses by size of the requests in its input, a key and a size a line, both numbers of 64 bits: at the greatest size,
 * at two times that, four times and so on, until all fits. */
#include "clru.h"

#include <errno.h>
#include <inttypes.h>
#include <stdio.h>
#include <stdlib.h>

#define ROWS 64

/* Whether the word is a number below 2^64, in digits alone. */
static bool is_number(const char *word, uint64_t *number) {
    char *end;
    errno = 0;
    *number = strtoull(word, &end, 10);
    return errno == 0 && *end == '\0' && word[0] >= '0' && word[0] <= '9';
}

int main(void) {
    size_t count = 0, places = 1024, greatest = 1;
    uint64_t *keys = malloc(places * sizeof *keys), size;
    size_t *sizes = malloc(places * sizeof *sizes);
    char word[32], size_word[32];
    int found = EOF;
    while (keys && sizes && (found = scanf("%31s %31s", word, size_word)) == 2 && is_number(word, &keys[count])
           && is_number(size_word, &size)) {
        sizes[count] = size;
        greatest = size > greatest ? size : greatest;
        if (++count == places) {
            places *= 2;
            keys = realloc(keys, places * sizeof *keys);
            sizes = realloc(sizes, places * sizeof *sizes);
        }
    }
    if (!keys || !sizes || found != EOF || ferror(stdin)) {
        fprintf(stderr, "by_size: want of memory, or no key and size below 2^64 in line %zu\n", count + 1);
        return 1;
    }

    size_t capacities[ROWS], misses[ROWS], missed_sizes[ROWS], rows = 0, distinct_size;
    for (size_t capacity = greatest; rows < ROWS && capacity >= greatest; capacity *= 2) {
        capacities[rows++] = capacity;
    }
    uint32_t code = clru_misses_by_size(keys, count, sizes, count, capacities, rows, 0, 0, misses, rows, missed_sizes, rows,
                                        &distinct_size);
    if (code != CLRU_OK) {
        fprintf(stderr, "by_size: code %" PRIu32 "\n", code);
        return 1;
    }
    puts("capacity,misses,missed_size");
    for (size_t row = 0; row < rows && (row == 0 || capacities[row - 1] < distinct_size); row++) {
        printf("%zu,%zu,%zu\n", capacities[row], misses[row], missed_sizes[row]);
    }
    free(sizes);
    free(keys);
    return 0;
}
