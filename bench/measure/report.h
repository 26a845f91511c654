/* What was measured of a class of inputs, and the tables that show it. */
#ifndef REPORT_H
#define REPORT_H

#include "calls.h"

enum { MOST_INPUTS = 64, MOST_CLASSES = 64 };

/* A row of figures, one for each input. */
struct figures {
    size_t count;
    double figure[MOST_INPUTS];
};

/* The figures of a class: seconds of each call on each side and the library's by each other's, the instructions on its first
 * input where they were counted, sets visited, the chain beside Cliquer's, and where the room call was timed too the seconds of
 * the library's bound call and its room call by that. Of a bound call within a limit: the chains that the rule opens, and the
 * library's seconds of each, and of a call that gives up. */
struct class {
    char name[MOST_CLASS_BYTES];
    size_t tables, left_out, rooms_left_out, cliques_left_out;
    uint64_t sets_left;
    struct figures seconds[CALLS][MOST_SIDES], ratio[CALLS][MOST_SIDES];
    double instructions[CALLS][MOST_SIDES];
    struct figures sets, chain_seconds, clique_seconds, clique_ratio, bounds_beside_room, room_by_bounds;
    struct figures opened, seconds_of_chain, seconds_to_give_up;
};

void add(struct figures *figures, double figure);

void read_instructions(FILE *file, struct class *classes, size_t count);

void print_summary(const struct class *classes, size_t count);

void print_calls(const struct class *classes, size_t count);

void print_opened(const struct class *classes, size_t count, uint64_t most_counted);

void print_within(const struct class *classes, size_t count);

void print_room_left(const struct class *classes, size_t count);

void print_chains(const struct class *classes, size_t count, uint64_t limit, bool has_clique);

#endif
