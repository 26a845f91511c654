/*
 * Answers a stream of cases (docs/STREAM.md) as the test program `answers` does, but through the C functions of the archive.
 * It is linked with an archive for the machine that it runs on, and is no example: examples/reserve.c is.
 */
#include <inttypes.h>
#include <stdio.h>
#include <stdlib.h>
#include <string.h>

#include "siodlomil.h"

/* The limits of the stream. */
enum { MOST_BYTES = 24576, MOST_ROWS = 80, MOST_IDS = 96, MOST_ROOM = 12800, MOST_STEPS = 32 };

/* A table image and its map. */
typedef struct {
    uint8_t image[MOST_BYTES];
    size_t bytes;
    uint64_t map[MOST_ROWS];
    size_t rows;
} table;

/* A patch image. */
typedef struct {
    uint8_t image[MOST_BYTES];
    size_t bytes;
} patch;

/* How much of everything a case lends. */
typedef struct {
    size_t image, patch, base_rows, new_rows, ids, room, steps;
} lengths;

/* The lines that are answered whole; a broken stream ends them. */
static void broken(void)
{
    fflush(stdout);
    exit(EXIT_SUCCESS);
}

static void read_bytes(void *to, size_t count, size_t most)
{
    if (most < count || fread(to, 1, count, stdin) != count) {
        broken();
    }
}

/* Both machines are little-endian, as the stream is. */
static void read_rows(uint64_t *to, size_t count)
{
    if (MOST_ROWS < count) {
        broken();
    }
    read_bytes(to, 8 * count, 8 * count);
}

static uint32_t four_bytes(const uint8_t *bytes, size_t at)
{
    return bytes[at] | (uint32_t)bytes[at + 1] << 8 | (uint32_t)bytes[at + 2] << 16 | (uint32_t)bytes[at + 3] << 24;
}

static void print(uint64_t number) { printf(" %" PRIu64, number); }

static void print_digest(const void *of, size_t count)
{
    const uint8_t *bytes = of;
    uint64_t digest = 1;
    for (size_t k = 0; k < count; k++) {
        digest = (digest * 65599 + bytes[k] + 1) % UINT64_C(4294967291);
    }
    print(digest);
}

/* A map of no rows is too short for every table, so what comes before 11 is the verdict on the image. */
static siodlomil_map_answer table_verdict(const uint8_t *image, size_t bytes)
{
    uint64_t none;
    siodlomil_map_answer answer = siodlomil_map(image, bytes, &none, 0);
    return answer.number == 11 ? (siodlomil_map_answer){0, 0} : answer;
}

static void answer_table(lengths lent)
{
    static uint8_t image[MOST_BYTES];
    read_bytes(image, lent.image, sizeof image);
    siodlomil_map_answer verdict = table_verdict(image, lent.image);
    printf("T %" PRIu32 " %" PRIu32 "\n", verdict.number, verdict.place);
}

/* A room of no bytes is too short for every patch. */
static void answer_patch_verdict(lengths lent)
{
    static uint8_t image[MOST_BYTES];
    uint8_t none;
    read_bytes(image, lent.image, sizeof image);
    siodlomil_reverse_answer answer = siodlomil_reverse(image, lent.image, &none, 0);
    int accepted = answer.number == 11;
    printf("P %" PRIu32 " %" PRIu32 "\n", accepted ? 0 : answer.number, accepted ? 0 : answer.place);
}

static void answer_map(lengths lent)
{
    static table of;
    read_bytes(of.image, lent.image, sizeof of.image);
    read_rows(of.map, lent.new_rows);
    siodlomil_map_answer answer = siodlomil_map(of.image, lent.image, of.map, lent.new_rows);
    printf("M %" PRIu32 " %" PRIu32, answer.number, answer.place);
    print_digest(of.map, 8 * lent.new_rows);
    putchar('\n');
}

static void print_bounds(siodlomil_bounds_answer of)
{
    printf(" %" PRIu32 " %" PRIu32 " %" PRIu32 " %" PRIu32 " %" PRIu32 " %" PRIu32 " %" PRIu32 " %" PRIu32, of.number,
           of.place, of.tasks, of.chain, of.path, of.transactions, of.levels, of.length);
}

static void answer_bounds(lengths lent)
{
    static table of;
    uint16_t ids[MOST_IDS];
    read_bytes(of.image, lent.image, sizeof of.image);
    read_rows(of.map, lent.base_rows);
    read_bytes(ids, 2 * lent.ids, sizeof ids);
    putchar('B');
    print_bounds(siodlomil_bounds(of.image, lent.image, of.map, lent.base_rows, ids, lent.ids));
    print_digest(ids, 2 * lent.ids);
    putchar('\n');
}

static void print_within(siodlomil_bounds_within_answer of)
{
    printf(" %" PRIu32 " %" PRIu32 " %" PRIu32 " %" PRIu32 " %" PRIu32 " %" PRIu32 " %" PRIu32 " %" PRIu32 " %" PRIu32,
           of.number, of.place, of.tasks, of.chain, of.path, of.transactions, of.levels, of.length, of.opened);
}

/* The bound call with a limit; the limit stands where others have the bytes of the room. */
static void answer_within(lengths lent)
{
    static table of;
    uint16_t ids[MOST_IDS];
    read_bytes(of.image, lent.image, sizeof of.image);
    read_rows(of.map, lent.base_rows);
    read_bytes(ids, 2 * lent.ids, sizeof ids);
    putchar('H');
    print_within(siodlomil_bounds_within(of.image, lent.image, of.map, lent.base_rows, ids, lent.ids, (uint32_t)lent.room));
    print_digest(ids, 2 * lent.ids);
    putchar('\n');
}

/* The numbers of a patch call, and where its offending part stands. */
static siodlomil_offending_answer print_patched(siodlomil_patch_answer of, const table *base, const patch *with)
{
    siodlomil_offending_answer part = siodlomil_offending(base->image, base->bytes, with->image, with->bytes);
    printf(" %" PRIu32 " %" PRIu32 " %" PRIu32 " %" PRIu32 " %" PRIu64, of.number, of.place, of.touched, of.length,
           part.length);
    return part;
}

static void answer_patch(lengths lent)
{
    static table base, outcome;
    static patch with;
    base.bytes = lent.image;
    with.bytes = lent.patch;
    read_bytes(base.image, lent.image, sizeof base.image);
    read_bytes(with.image, lent.patch, sizeof with.image);
    read_rows(base.map, lent.base_rows);
    read_rows(outcome.map, lent.new_rows);
    read_bytes(outcome.image, lent.room, MOST_ROOM);
    siodlomil_patch_answer answer =
        siodlomil_patch(base.image, base.bytes, with.image, with.bytes, base.map, lent.base_rows, outcome.image, lent.room,
                        outcome.map, lent.new_rows);
    putchar('A');
    siodlomil_offending_answer part = print_patched(answer, &base, &with);
    print_digest(with.image + part.at, part.length);
    print_digest(outcome.image, lent.room);
    print_digest(outcome.map, 8 * lent.new_rows);
    putchar('\n');
}

/* The room call, and the chain call for one task; reserve and id stand where the last two lengths of others do. */
static void answer_growth(lengths lent)
{
    static table of;
    uint64_t bits[MOST_ROWS];
    int64_t figures[MOST_ROWS];
    uint16_t ids[MOST_IDS];
    read_bytes(of.image, lent.image, sizeof of.image);
    read_rows(of.map, lent.base_rows);
    read_rows(bits, lent.new_rows);
    read_bytes(ids, 2 * lent.ids, sizeof ids);
    memcpy(figures, bits, 8 * lent.new_rows);
    siodlomil_room_left_answer room =
        siodlomil_room_left(of.image, lent.image, of.map, lent.base_rows, (uint32_t)lent.room, figures, lent.new_rows);
    printf("G %" PRIu32 " %" PRIu32, room.number, room.place);
    print_digest(figures, 8 * lent.new_rows);
    siodlomil_chain_through_answer shown =
        siodlomil_chain_through(of.image, lent.image, of.map, lent.base_rows, (uint32_t)lent.steps, ids, lent.ids);
    printf(" | %" PRIu32 " %" PRIu32 " %" PRIu32 " %" PRIu32, shown.number, shown.place, shown.weight, shown.length);
    print_digest(ids, 2 * lent.ids);
    putchar('\n');
}

static void answer_reverse(lengths lent)
{
    static uint8_t image[MOST_BYTES], room[MOST_BYTES];
    read_bytes(image, lent.image, sizeof image);
    read_bytes(room, lent.room, sizeof room);
    siodlomil_reverse_answer answer = siodlomil_reverse(image, lent.image, room, lent.room);
    printf("V %" PRIu32 " %" PRIu32 " %" PRIu32, answer.number, answer.place, answer.length);
    print_digest(room, lent.room);
    putchar('\n');
}

/* The ids of an accepted table's tasks, in the order of its records, and how many there are. */
static size_t task_ids(const uint8_t *image, size_t bytes, uint16_t *ids)
{
    size_t count = 0;
    for (size_t at = 0; at < bytes; at += SIODLOMIL_BLOCK_BYTES) {
        for (size_t record = at + 8; record < at + 8 + SIODLOMIL_RECORD_BYTES * image[at + 4];
             record += SIODLOMIL_RECORD_BYTES) {
            if (image[record] == 2) {
                ids[count++] = (uint16_t)(image[record + 2] | image[record + 3] << 8);
            }
        }
    }
    return count;
}

/* The reasons of all pairs of places, by the ids that stand there, and how many there are of each. */
static void print_reasons(const uint8_t *image, size_t bytes, size_t tasks, const uint16_t *ids)
{
    static uint8_t reasons[64 * 64];
    unsigned counts[7] = {0};
    memset(reasons, 0, sizeof reasons);
    for (size_t i = 0; i < tasks; i++) {
        for (size_t j = 0; j < tasks; j++) {
            uint32_t reason = siodlomil_reason(image, bytes, ids[i], ids[j]).reason;
            reasons[64 * i + j] = (uint8_t)reason;
            counts[reason]++;
        }
    }
    print_digest(reasons, sizeof reasons);
    for (unsigned reason = 1; reason <= 6; reason++) {
        print(counts[reason]);
    }
}

static void answer_reasons(lengths lent)
{
    static uint8_t image[MOST_BYTES];
    uint64_t questions[MOST_ROWS];
    uint16_t ids[64];
    read_bytes(image, lent.image, sizeof image);
    read_rows(questions, lent.base_rows);
    siodlomil_map_answer verdict = table_verdict(image, lent.image);
    size_t tasks = verdict.number == 0 ? task_ids(image, lent.image, ids) : 0;
    printf("W %" PRIu32 " %" PRIu32, verdict.number, verdict.place);
    print_reasons(image, lent.image, tasks, ids);
    for (size_t k = 0; k < lent.base_rows; k++) {
        siodlomil_reason_answer answer =
            siodlomil_reason(image, lent.image, (uint32_t)questions[k], (uint32_t)(questions[k] >> 32));
        printf(" | %" PRIu32 " %" PRIu32 " %" PRIu32, answer.number, answer.place, answer.reason);
    }
    putchar('\n');
}

/* What stands: the digests of table and map, the bounds over that map with the chain's ids, and the tasks' rows. */
static void print_standing(const table *of)
{
    uint16_t ids[SIODLOMIL_CHAIN_IDS];
    siodlomil_bounds_answer found =
        siodlomil_bounds(of->image, of->bytes, of->map, of->rows, ids, SIODLOMIL_CHAIN_IDS);
    print_digest(of->image, of->bytes);
    print_digest(of->map, 8 * of->rows);
    print_bounds(found);
    for (uint32_t k = 0; k < found.length; k++) {
        print(ids[k]);
    }
    for (uint32_t k = 0; k < found.tasks; k++) {
        print(of->map[k]);
    }
}

/* Puts a patch to what stands, with so much lent, every byte 255; what stands then is what an accepted one leaves. */
static void take_step(table *standing, const patch *with, size_t room_bytes, size_t new_rows)
{
    static table outcome;
    if (MOST_ROOM < room_bytes || MOST_ROWS < new_rows) {
        broken();
    }
    memset(outcome.image, 255, room_bytes);
    memset(outcome.map, 255, 8 * new_rows);
    siodlomil_patch_answer answer =
        siodlomil_patch(standing->image, standing->bytes, with->image, with->bytes, standing->map, standing->rows,
                        outcome.image, room_bytes, outcome.map, new_rows);
    printf(" |");
    siodlomil_offending_answer part = print_patched(answer, standing, with);
    for (uint64_t k = 0; k < part.length; k++) {
        print(with->image[part.at + k]);
    }
    if (answer.number == 0) {
        outcome.bytes = answer.length;
        outcome.rows = new_rows;
        *standing = outcome;
    }
    print_standing(standing);
}

static void answer_run(lengths lent)
{
    static table standing;
    static patch with;
    if (MOST_STEPS < lent.steps) {
        broken();
    }
    standing.bytes = lent.image;
    standing.rows = lent.base_rows;
    read_bytes(standing.image, lent.image, sizeof standing.image);
    read_rows(standing.map, lent.base_rows);
    putchar('R');
    print_standing(&standing);
    for (size_t step = 0; step < lent.steps; step++) {
        uint8_t header[12];
        read_bytes(header, sizeof header, sizeof header);
        with.bytes = four_bytes(header, 0);
        read_bytes(with.image, with.bytes, sizeof with.image);
        take_step(&standing, &with, four_bytes(header, 8), four_bytes(header, 4));
    }
    putchar('\n');
}

/* A patch, its reverse and the patch again. */
static void answer_trip(lengths lent)
{
    static table standing;
    static patch with, back;
    standing.bytes = lent.image;
    standing.rows = lent.base_rows;
    with.bytes = lent.patch;
    read_bytes(standing.image, lent.image, sizeof standing.image);
    read_bytes(with.image, lent.patch, sizeof with.image);
    read_rows(standing.map, lent.base_rows);
    siodlomil_reverse_answer made = siodlomil_reverse(with.image, with.bytes, back.image, sizeof back.image);
    back.bytes = made.length;
    putchar('U');
    print_standing(&standing);
    take_step(&standing, &with, lent.room, lent.new_rows);
    printf(" | %" PRIu32 " %" PRIu32 " %" PRIu32, made.number, made.place, made.length);
    print_digest(back.image, back.bytes);
    take_step(&standing, &back, lent.room, lent.new_rows);
    take_step(&standing, &with, lent.room, lent.new_rows);
    putchar('\n');
}

static void answer(int call, lengths lent)
{
    switch (call) {
    case 'T': answer_table(lent); break;
    case 'P': answer_patch_verdict(lent); break;
    case 'M': answer_map(lent); break;
    case 'B': answer_bounds(lent); break;
    case 'A': answer_patch(lent); break;
    case 'V': answer_reverse(lent); break;
    case 'U': answer_trip(lent); break;
    case 'G': answer_growth(lent); break;
    case 'H': answer_within(lent); break;
    case 'W': answer_reasons(lent); break;
    case 'R': answer_run(lent); break;
    default: broken();
    }
}

int main(void)
{
    uint8_t header[32];
    while (fread(header, 1, sizeof header, stdin) == sizeof header) {
        lengths lent = {four_bytes(header, 4),  four_bytes(header, 8),  four_bytes(header, 12), four_bytes(header, 16),
                        four_bytes(header, 20), four_bytes(header, 24), four_bytes(header, 28)};
        answer(header[0], lent);
    }
    return EXIT_SUCCESS;
}
