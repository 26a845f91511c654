/* Reads inputs from the file that the generator wrote. */
#include "input.h"

#include <stdlib.h>
#include <string.h>

/* Ends the program at a file that is none of the generator's. */
static void end_unless(bool right)
{
    if (right)
        return;
    fprintf(stderr, "bench: the file of inputs is broken\n");
    exit(1);
}

/* Reads so many bytes. */
static void read_bytes(FILE *file, uint8_t *room, size_t bytes)
{
    end_unless(fread(room, 1, bytes, file) == bytes);
}

/* Reads a lent map. */
static void read_map(FILE *file, uint64_t map[64])
{
    uint8_t rows[64][8];
    read_bytes(file, rows[0], sizeof rows);
    for (size_t i = 0; i < 64; i++) {
        map[i] = 0;
        for (size_t k = 0; k < 8; k++)
            map[i] |= (uint64_t)rows[i][k] << (8 * k);
    }
}

/* Finds the ids of the first and the last task of the input's table, which rise; 0 where it has no task. */
static void find_ids(struct input *input)
{
    input->lowest_id = input->highest_id = 0;
    for (size_t k = 0; k < 15 * (input->bytes / 512); k++) {
        const uint8_t *fields = input->image + 512 * (k / 15) + 8 + 32 * (k % 15);
        if (fields[0] != 2)
            continue;
        input->highest_id = fields[2] + 256u * fields[3];
        if (input->lowest_id == 0)
            input->lowest_id = input->highest_id;
    }
}

/* Reads the next input, or says that there is none. A file that breaks off ends the program. */
bool read_input(FILE *file, struct input *input)
{
    char line[128];
    size_t second = 0;
    int name = 0;
    if (fgets(line, sizeof line, file) == NULL)
        return false;
    line[strcspn(line, "\n")] = 0;
    end_unless(sscanf(line, "%c %zu %zu %n", &input->kind, &input->bytes, &second, &name) == 3);
    end_unless(input->bytes <= MOST_IMAGE_BYTES && second <= MOST_IMAGE_BYTES);
    end_unless(strlen(line + name) < MOST_CLASS_BYTES);
    strcpy(input->class, line + name);
    read_bytes(file, input->image, input->bytes);
    find_ids(input);
    input->patch_bytes = input->kind == 'P' ? second : 0;
    read_bytes(file, input->patch, input->patch_bytes);
    input->is_map_lent = input->kind == 'T' && second > 0;
    if (input->is_map_lent)
        read_map(file, input->map);
    return true;
}

/* Whether the input's patch takes a record out. */
bool takes_out(const struct input *input)
{
    return input->kind == 'P' && input->patch[4] > 0 && input->patch[8 + 31] == 0;
}
