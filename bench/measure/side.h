/* The sides that are compared: the library, and the plain rendering as two compilers make it. */
#ifndef SIDE_H
#define SIDE_H

#include "input.h"

/* All that a call can write: its answer's numbers and the lent buffers. */
struct answer {
    uint32_t numbers[9];
    uint64_t rows[64];
    uint16_t ids[64];
    int64_t figures[64];
    uint8_t room[MOST_IMAGE_BYTES];
};

/* An image and its length. */
struct image {
    const uint8_t *bytes;
    size_t length;
};

/* The calls of one side. The plain rendering also counts the sets that its ceilings visit, and ends a search past a limit. */
struct side {
    const char *name;
    void (*map)(struct image image, size_t row_count, struct answer *answer);
    void (*bounds)(struct image image, const uint64_t *map, struct answer *answer);
    void (*bounds_within)(struct image image, const uint64_t *map, uint32_t limit, struct answer *answer);
    void (*room_left)(struct image image, const uint64_t *map, uint32_t reserve, struct answer *answer);
    void (*chain_through)(struct image image, const uint64_t *map, uint32_t id, struct answer *answer);
    void (*reason)(struct image image, uint32_t low, uint32_t high, struct answer *answer);
    void (*patch)(struct image base, struct image patch, const uint64_t *map, struct answer *answer);
    void (*reverse)(struct image patch, struct answer *answer);
    uint64_t *sets_visited, *sets_allowed;
};

enum { LIBRARY, GCC, CLANG, MOST_SIDES };

/* The library first, then the plain rendering; the last is missing where there is no clang. */
extern const struct side *const sides[MOST_SIDES];
extern const size_t side_count;

#endif
