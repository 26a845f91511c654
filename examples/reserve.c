/*
 * The stack reserve of a task table before a patch, after it, and with it taken off again; and what refusals look like:
 *
 *     reserve TABLE PATCH OTHER
 *
 * reads a table image and two patch images. It applies PATCH to the table, then PATCH once more to the outcome, and then
 * the reverse of PATCH, which gives the table back. It applies OTHER to the table, asks for the reason of a task that no
 * table lists and for the heaviest chain through it, and prints what each call answers.
 */
#include <inttypes.h>
#include <stdio.h>
#include <stdlib.h>
#include <string.h>

#include "siodlomil.h"

/* A table image with its map. */
typedef struct {
    uint8_t image[SIODLOMIL_TABLE_BYTES];
    size_t bytes;
    uint64_t map[SIODLOMIL_MAP_ROWS];
} table;

/* A patch image. */
typedef struct {
    uint8_t image[SIODLOMIL_PATCH_BYTES];
    size_t bytes;
} patch;

/* Ends the program with a message about a file. */
static void fail(const char *path, const char *what)
{
    fprintf(stderr, "reserve: %s: %s\n", path, what);
    exit(EXIT_FAILURE);
}

/* Reads a whole file of at most `most` bytes and returns its length. */
static size_t read_file(const char *path, uint8_t *bytes, size_t most)
{
    FILE *file = fopen(path, "rb");
    if (file == NULL) {
        fail(path, "cannot be opened");
    }
    size_t length = fread(bytes, 1, most, file);
    int more = fgetc(file);
    if (ferror(file)) {
        fail(path, "cannot be read");
    }
    if (more != EOF) {
        fail(path, "is longer than any image of its kind");
    }
    fclose(file);
    return length;
}

/* Prints how a call ended, and returns whether it was accepted. */
static int is_accepted(const char *call, uint32_t number, uint32_t place)
{
    if (number == 0) {
        printf("%s: accepted\n", call);
        return 1;
    }
    printf("%s: refused %" PRIu32 " at %" PRIu32 "\n", call, number, place);
    return 0;
}

/* Prints why two neighbours of a chain nest. */
static void print_reason(const table *of, uint16_t low, uint16_t high)
{
    static const char *const words[] = {
        [SIODLOMIL_REASON_TRANSACTION] = "transaction", [SIODLOMIL_REASON_JITTER] = "jitter",
        [SIODLOMIL_REASON_RESPONSE] = "response",       [SIODLOMIL_REASON_PRIORITY] = "priority",
        [SIODLOMIL_REASON_PAIR] = "pair",               [SIODLOMIL_REASON_TIMING] = "timing",
    };
    siodlomil_reason_answer answer = siodlomil_reason(of->image, of->bytes, low, high);
    if (answer.number == 0) {
        printf("  %u %u %s\n", (unsigned)low, (unsigned)high, words[answer.reason]);
    }
}

/* A task of figure 2 outside the chain that reaches its reserve. */
enum { ASKED = 21 };

/* Prints how many bytes each of the first tasks may grow until a chain through it weighs this much; less than 0 where one
 * weighs more already. */
static void print_room(const table *of, uint32_t reserve, const char *whom, uint32_t tasks)
{
    int64_t room[SIODLOMIL_ROOM_FIGURES];
    siodlomil_room_left_answer answer = siodlomil_room_left(of->image, of->bytes, of->map, SIODLOMIL_MAP_ROWS, reserve,
                                                            room, SIODLOMIL_ROOM_FIGURES);
    if (answer.number == 0) {
        printf("  room left of %" PRIu32 "%s:", reserve, whom);
        for (uint32_t i = 0; i < tasks; i++) {
            printf(" %" PRId64, room[i]);
        }
        printf("\n");
    }
}

/* Prints what the heaviest chain through a task weighs, and its tasks. */
static void print_through(const table *of, uint16_t id)
{
    uint16_t ids[SIODLOMIL_CHAIN_IDS];
    siodlomil_chain_through_answer answer =
        siodlomil_chain_through(of->image, of->bytes, of->map, SIODLOMIL_MAP_ROWS, id, ids, SIODLOMIL_CHAIN_IDS);
    if (answer.number == 0) {
        printf("  the heaviest chain through %u weighs %" PRIu32 ":", (unsigned)id, answer.weight);
        for (uint32_t i = 0; i < answer.length; i++) {
            printf(" %u", (unsigned)ids[i]);
        }
        printf("\n");
    }
}

/* Prints the reserve of a table, the chain of tasks that reaches it with the reasons, the other bounds, what room is left of
 * that reserve, of one byte less and of the largest there is, and a chain through another task. */
static void print_reserve(const table *of)
{
    uint16_t ids[SIODLOMIL_CHAIN_IDS];
    siodlomil_bounds_answer answer =
        siodlomil_bounds(of->image, of->bytes, of->map, SIODLOMIL_MAP_ROWS, ids, SIODLOMIL_CHAIN_IDS);
    if (!is_accepted("bounds", answer.number, answer.place)) {
        return;
    }
    printf("  reserve %" PRIu32 ", chain", answer.chain);
    for (uint32_t i = 0; i < answer.length; i++) {
        printf(" %u", (unsigned)ids[i]);
    }
    printf("\n  tasks %" PRIu32 ", path %" PRIu32 ", transactions %" PRIu32 ", levels %" PRIu32 "\n", answer.tasks,
           answer.path, answer.transactions, answer.levels);
    for (uint32_t i = 0; i + 1 < answer.length; i++) {
        print_reason(of, ids[i], ids[i + 1]);
    }
    print_room(of, answer.chain, "", answer.tasks);
    if (0 < answer.chain) {
        print_room(of, answer.chain - 1, "", answer.tasks);
        print_room(of, UINT32_MAX, " to the first task", 1);
    }
    print_through(of, ASKED);
}

/* Applies a patch to a base and returns whether the outcome is a table. */
static int apply(const char *call, const table *base, const patch *with, table *outcome)
{
    siodlomil_patch_answer answer =
        siodlomil_patch(base->image, base->bytes, with->image, with->bytes, base->map, SIODLOMIL_MAP_ROWS,
                        outcome->image, SIODLOMIL_TABLE_BYTES, outcome->map, SIODLOMIL_MAP_ROWS);
    if (!is_accepted(call, answer.number, answer.place)) {
        return 0;
    }
    outcome->bytes = answer.length;
    printf("  touched %" PRIu32 ", %" PRIu32 " bytes\n", answer.touched, answer.length);
    return 1;
}

/* Writes the reverse of a patch and returns whether there is one. */
static int reverse(const patch *of, patch *back)
{
    siodlomil_reverse_answer answer = siodlomil_reverse(of->image, of->bytes, back->image, SIODLOMIL_PATCH_BYTES);
    if (!is_accepted("reverse", answer.number, answer.place)) {
        return 0;
    }
    back->bytes = answer.length;
    printf("  %" PRIu32 " bytes\n", answer.length);
    return 1;
}

/* Whether two tables have the same bytes and the same map. */
static int is_same(const table *one, const table *other)
{
    return one->bytes == other->bytes && memcmp(one->image, other->image, one->bytes) == 0 &&
           memcmp(one->map, other->map, sizeof one->map) == 0;
}

/* Takes a patch off again, prints the reserve then, and returns whether all is as it was before the patch. */
static int take_off(const table *before, const table *after, const patch *of)
{
    static patch back;
    static table restored;
    if (!reverse(of, &back) || !apply("the reverse on the outcome", after, &back, &restored)) {
        return 0;
    }
    print_reserve(&restored);
    return is_same(before, &restored);
}

/* Prints the record of a patch that is to be taken out though the base lacks it, if there is one. */
static void print_offending(const table *base, const patch *with)
{
    siodlomil_offending_answer answer = siodlomil_offending(base->image, base->bytes, with->image, with->bytes);
    printf("  offending %" PRIu64 " bytes at %" PRIu64 "\n", answer.length, answer.at);
    for (uint64_t i = 0; i < answer.length; i++) {
        printf("%s%02x%s", i % 16 == 0 ? "    " : " ", (unsigned)with->image[answer.at + i], i % 16 == 15 ? "\n" : "");
    }
}

int main(int count, char **words)
{
    static table before, after, again;
    static patch first, other;
    uint16_t ids[SIODLOMIL_CHAIN_IDS];
    if (count != 4) {
        fprintf(stderr, "usage: reserve TABLE PATCH OTHER\n");
        return EXIT_FAILURE;
    }
    before.bytes = read_file(words[1], before.image, sizeof before.image);
    first.bytes = read_file(words[2], first.image, sizeof first.image);
    other.bytes = read_file(words[3], other.image, sizeof other.image);

    siodlomil_map_answer map = siodlomil_map(before.image, before.bytes, before.map, SIODLOMIL_MAP_ROWS);
    if (!is_accepted("map", map.number, map.place)) {
        return EXIT_FAILURE;
    }
    print_reserve(&before);
    if (!apply("patch", &before, &first, &after)) {
        return EXIT_FAILURE;
    }
    print_reserve(&after);
    apply("the same patch on its outcome", &after, &first, &again);
    if (!take_off(&before, &after, &first)) {
        return EXIT_FAILURE;
    }
    printf("  table and map are as they were before the patch, byte for byte\n");
    if (!apply("the other patch", &before, &other, &again)) {
        print_offending(&before, &other);
    }
    siodlomil_reason_answer reason = siodlomil_reason(before.image, before.bytes, 0, 0);
    is_accepted("the reason of a task that is not listed", reason.number, reason.place);
    siodlomil_chain_through_answer through =
        siodlomil_chain_through(before.image, before.bytes, before.map, SIODLOMIL_MAP_ROWS, 0, ids, SIODLOMIL_CHAIN_IDS);
    is_accepted("the chain through a task that is not listed", through.number, through.place);
    return EXIT_SUCCESS;
}
