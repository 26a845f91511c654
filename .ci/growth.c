/*
 * Sees what the tasks of figure 2 may grow, and the heaviest chain through each, against what is worked out by hand:
 *
 *     growth TABLE
 *
 * It prints nothing, and ends with an error at the first answer that is another.
 */
#include <stdio.h>
#include <stdlib.h>
#include <string.h>

#include "siodlomil.h"

enum { TASKS = 6, LENT = 70, KEPT = 7 };

static uint8_t table[SIODLOMIL_TABLE_BYTES];
static size_t table_bytes;
static uint64_t map[SIODLOMIL_MAP_ROWS];

/* A task of figure 2, the weight of the heaviest chain through it, and that chain, which has three ids each time. */
typedef struct {
    uint16_t id;
    uint32_t weight;
    uint16_t chain[3];
} known;

static const known TASKS_OF_FIGURE_2[TASKS] = {
    {11, 8, {11, 12, 23}}, {12, 8, {11, 12, 23}}, {13, 6, {22, 23, 13}},
    {21, 7, {11, 12, 21}}, {22, 6, {22, 23, 13}}, {23, 8, {11, 12, 23}},
};

static void see(int holds, const char *what)
{
    if (!holds) {
        fprintf(stderr, "growth: %s\n", what);
        exit(EXIT_FAILURE);
    }
}

/* The room call with this reserve: a figure for each task, and all other entries as they were. */
static void see_room(uint32_t reserve)
{
    int64_t room[LENT];
    for (int k = 0; k < LENT; k++) {
        room[k] = -5000000000 - k;
    }
    siodlomil_room_left_answer answer =
        siodlomil_room_left(table, table_bytes, map, SIODLOMIL_MAP_ROWS, reserve, room, LENT);
    see(answer.number == 0 && answer.place == 0, "the room call is refused");
    for (int k = 0; k < LENT; k++) {
        int64_t figure = k < TASKS ? (int64_t)reserve - TASKS_OF_FIGURE_2[k].weight : -5000000000 - k;
        see(room[k] == figure, "a figure is another");
    }
}

/* The chain call for one task: its chain, and all other entries as they were. */
static void see_chain(const known *of)
{
    uint16_t ids[LENT];
    for (int k = 0; k < LENT; k++) {
        ids[k] = KEPT;
    }
    siodlomil_chain_through_answer answer =
        siodlomil_chain_through(table, table_bytes, map, SIODLOMIL_MAP_ROWS, of->id, ids, LENT);
    see(answer.number == 0 && answer.place == 0, "the chain call is refused");
    see(answer.weight == of->weight && answer.length == 3, "weight or length of a chain is another");
    see(memcmp(ids, of->chain, sizeof of->chain) == 0, "the ids of a chain are others");
    for (int k = 3; k < LENT; k++) {
        see(ids[k] == KEPT, "an entry behind the chain is written");
    }
}

/* The chain call that is refused with this number, for this id and so many rows and entries. */
static void see_refused(uint32_t number, uint32_t id, size_t rows, size_t entries)
{
    uint16_t ids[SIODLOMIL_CHAIN_IDS] = {KEPT};
    siodlomil_chain_through_answer answer = siodlomil_chain_through(table, table_bytes, map, rows, id, ids, entries);
    see(answer.number == number && answer.place == 0, "a chain call is answered otherwise");
    see(answer.weight == 0 && answer.length == 0 && ids[0] == KEPT, "a refused chain call is not empty");
}

/* The room call that is refused for so many rows and entries. */
static void see_short_room(size_t rows, size_t entries)
{
    int64_t room[SIODLOMIL_ROOM_FIGURES] = {KEPT};
    siodlomil_room_left_answer answer = siodlomil_room_left(table, table_bytes, map, rows, 8, room, entries);
    see(answer.number == 11 && answer.place == 0 && room[0] == KEPT, "a short room is answered otherwise");
}

int main(int count, char **words)
{
    FILE *file = count == 2 ? fopen(words[1], "rb") : NULL;
    see(file != NULL, "usage: growth TABLE");
    table_bytes = fread(table, 1, sizeof table, file);
    fclose(file);
    see(siodlomil_map(table, table_bytes, map, SIODLOMIL_MAP_ROWS).number == 0, "the table is refused");
    see_room(0);
    see_room(8);
    see_room(4294967295);
    for (int k = 0; k < TASKS; k++) {
        see_chain(&TASKS_OF_FIGURE_2[k]);
    }
    see_refused(15, 0, SIODLOMIL_MAP_ROWS, SIODLOMIL_CHAIN_IDS);
    see_refused(15, 65536 + 11, 0, 0);
    see_refused(11, 11, SIODLOMIL_MAP_ROWS - 1, SIODLOMIL_CHAIN_IDS);
    see_refused(11, 11, SIODLOMIL_MAP_ROWS, SIODLOMIL_CHAIN_IDS - 1);
    see_short_room(SIODLOMIL_MAP_ROWS - 1, SIODLOMIL_ROOM_FIGURES);
    see_short_room(SIODLOMIL_MAP_ROWS, SIODLOMIL_ROOM_FIGURES - 1);
    return EXIT_SUCCESS;
}
