// Calls each function from C++, so that their names are those of C there too.
#include "clru.h"

#include <cstdio>
#include <vector>

int main() {
    const std::vector<uint64_t> keys{1, 2, 1, 3, 2, 1, 4, 1, 2, 5};
    const std::vector<size_t> sizes(keys.size(), 2), rooms{3};
    std::vector<size_t> cut_short{4, 5, 1, 6, 2, 3, 7, 4, 5, 8};
    bool hits[10] = {};
    std::vector<size_t> misses(6), missed_sizes(1), least(1);
    size_t missed = 0, distinct = 0, size = 0;
    const bool answered =
        clru_hits_at(keys.data(), keys.size(), 3, 1, 2, hits, 10, &missed) == CLRU_OK
        && clru_misses_by_capacity(keys.data(), keys.size(), 1, 2, misses.data(), misses.size(), &distinct) == CLRU_OK
        && clru_least_by_room(keys.data(), keys.size(), rooms.data(), 1, 1, 2, least.data(), 1) == CLRU_OK
        && misses[2] == missed && missed == 5 && distinct == 5 && least[0] == 5 && hits[2] && !hits[3]
        && clru_misses_by_size(keys.data(), keys.size(), sizes.data(), sizes.size(), &rooms[0], 1, 1, 2, misses.data(), 1,
                               missed_sizes.data(), 1, &size) == CLRU_OK
        && size == 10 && misses[0] == 10 && missed_sizes[0] == 20
        && clru_floor_by_room(keys.data(), keys.size(), rooms.data(), 1, 1, 2, least.data(), 1) == CLRU_OK && least[0] == 5
        && clru_floor_by_size(keys.data(), keys.size(), sizes.data(), sizes.size(), &rooms[0], 1, 1, 2, misses.data(), 1,
                              missed_sizes.data(), 1) == CLRU_OK
        && misses[0] == 5 && missed_sizes[0] == 10
        && clru_greatest_sizes(keys.data(), keys.size(), 1, 2, cut_short.data(), cut_short.size()) == CLRU_OK && cut_short[2] == 4
        && clru_other_size(keys.data(), keys.size(), cut_short.data(), cut_short.size(), 1, 2, &size) == CLRU_OK && size == 10
        && clru_split(std::vector<size_t>{9, 9, 1, 9, 8, 8}.data(), 6, 2, misses.data(), 2) == CLRU_OK && misses[0] == 2 && misses[1] == 0;
    if (!answered) {
        std::fputs("called: a number from C++ is not as it has to be\n", stderr);
    }
    return answered ? 0 : 1;
}
