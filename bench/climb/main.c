/* Climbs to tables whose search visits many sets: changes a table by chance, and keeps what visits no fewer. Writes the image
 * of the worst table to standard output, and on standard error a table of what each start came to: climb MILLIONS, where each
 * start ends once its searches have visited so many million sets in all. */
#include <stdio.h>
#include <stdlib.h>

#include "../plain.h"
#include "change.h"

enum { STARTS = 6 };

static const char *const start_names[STARTS] = {
    "each task may meet every other but for 256 pairs",
    "the same, drawn again",
    "full: 64 tasks, 16 transactions, 256 pairs",
    "64 tasks, 16 transactions, priorities to 32",
    "64 tasks, 4 transactions, priorities to 255",
    "64 tasks, 16 transactions, priorities to 255",
};

/* A table and the sets that its search visits. */
struct climbed {
    struct table table;
    uint64_t sets;
};

/* The table that a climb starts from. */
static struct table start_table(size_t start)
{
    if (start < 2)
        return dense_table();
    if (start == 2)
        return full_table();
    if (start == 3)
        return random_table(64, 16, 32, BASE_LOAD_PERCENT);
    return start == 4 ? random_table(64, 4, 255, BASE_LOAD_PERCENT) : random_table(64, 16, 255, BASE_LOAD_PERCENT);
}

/* The sets that the search over a table's own map visits. */
static uint64_t sets_of(const struct table *table)
{
    static uint8_t image[MOST_BYTES];
    uint64_t map[64];
    uint16_t ids[64];
    size_t bytes = make_table(table, image);
    if (plain_map(image, bytes, map, 64).number != 0) {
        fprintf(stderr, "climb: a table is refused\n");
        exit(1);
    }
    plain_sets_visited = 0;
    plain_bounds(image, bytes, map, 64, ids, 64);
    return plain_sets_visited;
}

/* Climbs from one start, and answers the worst table found. */
static struct climbed climb(size_t start, uint64_t budget)
{
    struct climbed best = {.table = start_table(start)};
    uint64_t first = sets_of(&best.table), spent = first;
    size_t steps = 0;
    best.sets = first;
    for (; spent < budget; steps++) {
        struct climbed next = best;
        change(&next.table);
        next.sets = sets_of(&next.table);
        spent += next.sets;
        if (next.sets >= best.sets)
            best = next;
    }
    fprintf(stderr, "| %s | %llu | %llu | %zu |\n", start_names[start], (unsigned long long)first,
            (unsigned long long)best.sets, steps);
    return best;
}

/* Climbs from every start. */
int main(int argc, char **argv)
{
    static struct climbed worst;
    static uint8_t image[MOST_BYTES];
    uint64_t budget = argc == 2 ? strtoull(argv[1], NULL, 10) * 1000000 : 0;
    if (budget == 0) {
        fprintf(stderr, "usage: climb MILLIONS\n");
        return 2;
    }
    fprintf(stderr, "| Start | Sets visited there | at the end | Changes tried |\n|---|---|---|---|\n");
    start_random(1);
    for (size_t start = 0; start < STARTS; start++) {
        struct climbed found = climb(start, budget);
        worst = found.sets > worst.sets ? found : worst;
    }
    size_t bytes = make_table(&worst.table, image);
    return fwrite(image, 1, bytes, stdout) == bytes ? 0 : 1;
}
