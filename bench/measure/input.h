/* One input: an image with the map that is lent for its bounds and the ids asked about, and for calls on a patch the patch. */
#ifndef INPUT_H
#define INPUT_H

#include <stdbool.h>
#include <stddef.h>
#include <stdint.h>
#include <stdio.h>

enum { MOST_IMAGE_BYTES = 45 * 512, MOST_CLASS_BYTES = 80 };

struct input {
    char kind, class[MOST_CLASS_BYTES];
    size_t bytes, patch_bytes;
    uint8_t image[MOST_IMAGE_BYTES], patch[MOST_IMAGE_BYTES];
    uint32_t lowest_id, highest_id;
    bool is_map_lent;
    uint64_t map[64];
};

bool read_input(FILE *file, struct input *input);

bool takes_out(const struct input *input);

#endif
