/* Figure 2, full tables, long paths, and maps that are lent: random ones, and triples of which no two nest. */
#include "table.h"

#include <string.h>

/* The six tasks of the paper's figure 2. */
struct table figure2(void)
{
    struct table table = {
        .transactions = 2,
        .tasks = 6,
        .transaction = {{1, 10000}, {2, 10000}},
        .task = {{11, 1, 1, 0, 0, 3854, 4}, {12, 1, 2, 1697, 0, 3837, 1}, {13, 1, 4, 4635, 0, 4781, 2},
                 {21, 2, 3, 0, 0, 393, 2}, {22, 2, 1, 617, 0, 3854, 1}, {23, 2, 3, 2588, 0, 3699, 3}},
    };
    return table;
}

/* The place of this rank among all places but the own one. */
static size_t other_place(size_t own, size_t rank)
{
    return rank < own ? rank : rank + 1;
}

/* A table with as much of everything as it may have: four random pairs for each first task, and of those along the order about
 * every other one a precedence. */
struct table full_table(void)
{
    struct table table = random_table(MOST_TASKS, MOST_TRANSACTIONS, 255, BASE_LOAD_PERCENT);
    table.pairs = 0;
    for (size_t i = 0; i < MOST_TASKS; i++)
        for (size_t k = 0; k < MOST_PAIRS / MOST_TASKS; k++) {
            size_t second = other_place(i, 15 * k + random_below(15));
            bool is_precedence = random_below(2) == 1 && is_before(&table, i, second);
            table.pair[table.pairs++] = (struct pair){table.task[i].id, table.task[second].id, is_precedence};
        }
    return table;
}

/* A table whose precedences make long paths: half of its pairs, each to a task that is near in the order, its offset at most a
 * sixteenth of the period further on. The other half are one-way pairs. */
struct table paths_table(void)
{
    struct table table = random_table(MOST_TASKS, MOST_TRANSACTIONS, 255, BASE_LOAD_PERCENT);
    uint32_t reach = table.transaction[0].period / 16;
    table.pairs = 0;
    while (table.pairs < MOST_PAIRS) {
        size_t first = random_below(MOST_TASKS), second = random_below(MOST_TASKS);
        const struct task *one = &table.task[first], *other = &table.task[second];
        bool is_precedence = table.pairs < MOST_PAIRS / 2;
        if (!is_precedence || (is_before(&table, first, second) && other->offset - one->offset <= reach))
            put_pair(&table, (struct pair){one->id, other->id, is_precedence});
    }
    return table;
}

/* A map of which about this part of the cells is set. */
void random_map(uint32_t percent, uint64_t rows[64])
{
    for (size_t i = 0; i < 64; i++) {
        rows[i] = 0;
        for (size_t j = 0; j < 64; j++)
            if (random_below(100) < percent)
                rows[i] |= (uint64_t)1 << j;
    }
}

/* A map in which the tasks fall into triples by chance, and all cells but those inside a triple are set. */
void triples_map(size_t tasks, uint64_t rows[64])
{
    size_t triple[64];
    for (size_t i = 0; i < tasks; i++) {
        size_t other = random_below((uint32_t)i + 1);
        triple[i] = triple[other];
        triple[other] = i / 3;
    }
    memset(rows, 0, 64 * sizeof rows[0]);
    for (size_t i = 0; i < tasks; i++)
        for (size_t j = 0; j < tasks; j++)
            if (triple[i] != triple[j])
                rows[i] |= (uint64_t)1 << j;
}
