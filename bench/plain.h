/* The calls of the library in plain C: the yardstick that bench/run measures the library by. */
#ifndef PLAIN_H
#define PLAIN_H

#include <stddef.h>
#include <stdint.h>

/* What a map call and a room call answer: refusal number and place, or 0 and 0. */
struct plain_verdict {
    uint32_t number, place;
};

/* What a bound call answers. */
struct plain_bounds {
    uint32_t number, place, tasks, chain, path, transactions, levels, length;
};

/* What a bound call with a limit answers: where it gives up, 13 with the path and transactions bounds. */
struct plain_bounds_within {
    struct plain_bounds bounds;
    uint32_t opened;
};

/* What a chain call for one task answers. */
struct plain_shown {
    uint32_t number, place, weight, length;
};

/* What a reason call answers: the reason, 1 to 6, or 0 where the call is refused. */
struct plain_reasoned {
    uint32_t number, place, reason;
};

/* What a patch call answers. */
struct plain_patched {
    uint32_t number, place, touched, length;
};

/* What a reverse call answers. */
struct plain_reversed {
    uint32_t number, place, length;
};

/* The sets that the ceilings have visited, and how many they may visit: a search past it ends early with a wrong answer. */
extern uint64_t plain_sets_visited, plain_sets_allowed;

struct plain_verdict plain_map(const uint8_t *image, size_t bytes, uint64_t *rows, size_t row_count);

struct plain_bounds plain_bounds(const uint8_t *image, size_t bytes, const uint64_t *map, size_t row_count,
                                 uint16_t *ids, size_t id_count);

struct plain_bounds_within plain_bounds_within(const uint8_t *image, size_t bytes, const uint64_t *map, size_t row_count,
                                               uint16_t *ids, size_t id_count, uint32_t limit);

struct plain_verdict plain_room_left(const uint8_t *image, size_t bytes, const uint64_t *map, size_t row_count,
                                     uint32_t reserve, int64_t *room, size_t room_count);

struct plain_shown plain_chain_through(const uint8_t *image, size_t bytes, const uint64_t *map, size_t row_count,
                                       uint32_t id, uint16_t *ids, size_t id_count);

struct plain_reasoned plain_reason(const uint8_t *image, size_t bytes, uint32_t low, uint32_t high);

struct plain_patched plain_patch(const uint8_t *base, size_t base_bytes, const uint8_t *patch, size_t patch_bytes,
                                 const uint64_t *map, size_t row_count, uint8_t *room, size_t room_bytes,
                                 uint64_t *carried, size_t carried_count);

struct plain_reversed plain_reverse(const uint8_t *patch, size_t patch_bytes, uint8_t *room, size_t room_bytes);

#endif
