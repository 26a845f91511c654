/*
 * The stack reserve of task tables with a limit on the chains that the paper's Algorithm 1 opens:
 *
 *     within TABLE...
 *
 * reads table images. For each it asks within many chains, and where they suffice within one less than were opened, and prints
 * what the call answers.
 */
#include <inttypes.h>
#include <stdio.h>
#include <stdlib.h>

#include "siodlomil.h"

/* A table image with its map. */
typedef struct {
    uint8_t image[SIODLOMIL_TABLE_BYTES];
    size_t bytes;
    uint64_t map[SIODLOMIL_MAP_ROWS];
} table;

/* More chains than figure 2 opens, and the refusal where a limit does not suffice. */
enum { MANY_CHAINS = 1000, GAVE_UP = 13 };

/* Ends the program with a message about a file. */
static void fail(const char *path, const char *what)
{
    fprintf(stderr, "within: %s: %s\n", path, what);
    exit(EXIT_FAILURE);
}

/* Reads a whole file of at most `most` bytes and returns its length. */
static size_t read_file(const char *path, uint8_t *bytes, size_t most)
{
    FILE *file = fopen(path, "rb");
    if (file == NULL) {
        fail(path, "cannot be opened");
    }
    size_t length = fread(bytes, 1, most, file);
    int more = fgetc(file);
    if (ferror(file)) {
        fail(path, "cannot be read");
    }
    if (more != EOF) {
        fail(path, "is longer than any image of its kind");
    }
    fclose(file);
    return length;
}

/* Prints the reserve that is found within so many opened chains and returns how many were opened; where they do not suffice,
 * prints the bounds that are known all the same, and returns 0. */
static uint32_t print_within(const table *of, uint32_t limit)
{
    uint16_t ids[SIODLOMIL_CHAIN_IDS];
    siodlomil_bounds_within_answer answer = siodlomil_bounds_within(of->image, of->bytes, of->map, SIODLOMIL_MAP_ROWS, ids,
                                                                    SIODLOMIL_CHAIN_IDS, limit);
    if (answer.number == 0) {
        printf("within %" PRIu32 " chains: reserve %" PRIu32 ", opened %" PRIu32 "\n", limit, answer.chain, answer.opened);
    } else if (answer.number == GAVE_UP) {
        printf("within %" PRIu32 " chains: refused %" PRIu32 " at %" PRIu32 ", path %" PRIu32 ", transactions %" PRIu32
               "\n", limit, answer.number, answer.place, answer.path, answer.transactions);
    }
    return answer.opened;
}

int main(int count, char **words)
{
    static table of;
    if (count < 2) {
        fprintf(stderr, "usage: within TABLE...\n");
        return EXIT_FAILURE;
    }
    for (int k = 1; k < count; k++) {
        of.bytes = read_file(words[k], of.image, sizeof of.image);
        siodlomil_map_answer map = siodlomil_map(of.image, of.bytes, of.map, SIODLOMIL_MAP_ROWS);
        if (map.number != 0) {
            printf("map: refused %" PRIu32 " at %" PRIu32 "\n", map.number, map.place);
            return EXIT_FAILURE;
        }
        uint32_t opened = print_within(&of, MANY_CHAINS);
        if (0 < opened) {
            print_within(&of, opened - 1);
        }
    }
    return EXIT_SUCCESS;
}
