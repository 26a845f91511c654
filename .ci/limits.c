/*
 * Sees how many chains the search opens for figure 2 and what a limit on them answers, against what is worked out by hand:
 *
 *     limits TABLE
 *
 * It prints nothing, and ends with an error at the first answer that is another.
 */
#include <stdio.h>
#include <stdlib.h>
#include <string.h>

#include "siodlomil.h"

enum { LENT = 70, KEPT = 7 };

static uint8_t table[SIODLOMIL_TABLE_BYTES];
static size_t table_bytes;
static uint16_t ids[LENT];

/* What figure 2 has over a map, and how many chains are opened. */
typedef struct {
    const uint64_t *map;
    siodlomil_bounds_answer found;
    uint16_t chain[3];
    uint32_t opened;
} known;

static void see(int holds, const char *what)
{
    if (!holds) {
        fprintf(stderr, "limits: %s\n", what);
        exit(EXIT_FAILURE);
    }
}

/* The call with so many rows and entries, in a room for ids that holds what has to be kept. */
static siodlomil_bounds_within_answer ask(const uint64_t *map, size_t rows, size_t entries, uint32_t limit)
{
    for (int k = 0; k < LENT; k++) {
        ids[k] = KEPT;
    }
    return siodlomil_bounds_within(table, table_bytes, map, rows, ids, entries, limit);
}

/* All entries from this one on are as they were. */
static void see_kept(uint32_t from)
{
    for (uint32_t k = from; k < LENT; k++) {
        see(ids[k] == KEPT, "an entry behind the chain is written");
    }
}

/* A limit that is enough. */
static void see_found(const known *of, uint32_t limit)
{
    siodlomil_bounds_within_answer answer = ask(of->map, SIODLOMIL_MAP_ROWS, LENT, limit);
    siodlomil_bounds_answer bounds = {answer.number, answer.place, answer.tasks, answer.chain, answer.path,
                                      answer.transactions, answer.levels, answer.length};
    see(memcmp(&bounds, &of->found, sizeof bounds) == 0, "a bound is another");
    see(answer.opened == of->opened, "the number of opened chains is another");
    see(memcmp(ids, of->chain, 2 * of->found.length) == 0, "the ids of the chain are others");
    see_kept(of->found.length);
}

/* A limit that is not. */
static void see_given_up(const known *of, uint32_t limit)
{
    siodlomil_bounds_within_answer told = {13, 0, 0, 0, of->found.path, of->found.transactions, 0, 0, 0};
    siodlomil_bounds_within_answer answer = ask(of->map, SIODLOMIL_MAP_ROWS, LENT, limit);
    see(memcmp(&answer, &told, sizeof answer) == 0, "a limit that is not enough is answered otherwise");
    see_kept(0);
}

/* A call that is refused before the limit is looked at. */
static void see_refused(uint32_t number, const uint64_t *map, size_t rows, size_t entries)
{
    siodlomil_bounds_within_answer told = {number, 0, 0, 0, 0, 0, 0, 0, 0};
    for (uint32_t limit = 0; limit < 2; limit++) {
        siodlomil_bounds_within_answer answer = ask(map, rows, entries, limit);
        see(memcmp(&answer, &told, sizeof answer) == 0, "a refused call is answered otherwise");
        see_kept(0);
    }
}

static void see_limits(const known *of)
{
    see_given_up(of, 0);
    see_given_up(of, of->opened - 1);
    see_found(of, of->opened);
    see_found(of, of->opened + 1);
    see_found(of, 4294967295);
}

int main(int count, char **words)
{
    static uint64_t own[SIODLOMIL_MAP_ROWS], none[SIODLOMIL_MAP_ROWS];
    FILE *file = count == 2 ? fopen(words[1], "rb") : NULL;
    see(file != NULL, "usage: limits TABLE");
    table_bytes = fread(table, 1, sizeof table, file);
    fclose(file);
    see(siodlomil_map(table, table_bytes, own, SIODLOMIL_MAP_ROWS).number == 0, "the table is refused");
    /* no task, 11, 11 12, 11 12 21, 11 12 23, 11 21, 11 23, and the other five tasks, each alone */
    known nested = {own, {0, 0, 6, 8, 10, 9, 10, 3}, {11, 12, 23}, 12};
    /* no task, and each of the six alone */
    known apart = {none, {0, 0, 6, 4, 4, 7, 10, 1}, {11}, 7};
    see_limits(&nested);
    see_limits(&apart);
    see_refused(11, own, SIODLOMIL_MAP_ROWS - 1, SIODLOMIL_CHAIN_IDS);
    see_refused(11, own, SIODLOMIL_MAP_ROWS, SIODLOMIL_CHAIN_IDS - 1);
    table_bytes = 0;
    see_refused(1, own, SIODLOMIL_MAP_ROWS, SIODLOMIL_CHAIN_IDS);
    return EXIT_SUCCESS;
}
