/* Tables, maps and patches as the generator makes them, and how they are written. */
#ifndef TABLE_H
#define TABLE_H

#include <stdbool.h>
#include <stddef.h>
#include <stdint.h>

enum { MOST_TRANSACTIONS = 16, MOST_TASKS = 64, MOST_PAIRS = 256, MOST_RECORDS = 672, RECORD_BYTES = 32 };
enum { BLOCK_BYTES = 512, MOST_BYTES = 45 * BLOCK_BYTES };

struct transaction {
    uint32_t number, period;
};

struct task {
    uint32_t id, transaction, priority, offset, jitter, response, size;
};

struct pair {
    uint32_t first, second, sort;
};

/* Records of the three kinds, each by rising number, id or ids. */
struct table {
    size_t transactions, tasks, pairs;
    struct transaction transaction[MOST_TRANSACTIONS];
    struct task task[MOST_TASKS];
    struct pair pair[MOST_PAIRS];
};

void start_random(uint64_t seed);
uint32_t random_below(uint32_t limit);
uint32_t random_from(uint32_t least, uint32_t most);

/* The load that the paper's tables have if nothing else is said. */
enum { BASE_LOAD_PERCENT = 40 };

struct table figure2(void);
struct table random_table(size_t tasks, size_t transactions, uint32_t most_urgent, uint32_t load_percent);
bool is_before(const struct table *table, size_t a, size_t b);
void put_pair(struct table *table, struct pair pair);
struct table full_table(void);
struct table paths_table(void);
void random_map(uint32_t percent, uint64_t rows[64]);
void triples_map(size_t tasks, uint64_t rows[64]);

struct table with_task(const struct table *base);
void change_tasks(const struct table *base, size_t every, struct table *out, struct table *in);
void change_pairs(const struct table *base, size_t every, struct table *out, struct table *in);

size_t make_table(const struct table *table, uint8_t image[MOST_BYTES]);
void write_only_first(void);
void write_table_case(const char *class, const struct table *table, const uint64_t *rows);
void write_patch_case(const char *class, const struct table *base, const struct table *out, const struct table *in);

#endif
