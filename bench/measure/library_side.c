/* The calls of libsiodlomil.a. */
#include <string.h>

#include "side.h"
#include "siodlomil.h"

/* Fills the answer's rows. */
static void map(struct image image, size_t row_count, struct answer *answer)
{
    siodlomil_map_answer verdict = siodlomil_map(image.bytes, image.length, answer->rows, row_count);
    memcpy(answer->numbers, &verdict, sizeof verdict);
}

/* Finds the bounds over a map, with the chain in the answer's ids. */
static void bounds(struct image image, const uint64_t *rows, struct answer *answer)
{
    siodlomil_bounds_answer found = siodlomil_bounds(image.bytes, image.length, rows, 64, answer->ids, 64);
    memcpy(answer->numbers, &found, sizeof found);
}

/* Finds the bounds over a map within a limit on chains, with the chain in the answer's ids. */
static void bounds_within(struct image image, const uint64_t *rows, uint32_t limit, struct answer *answer)
{
    siodlomil_bounds_within_answer found =
        siodlomil_bounds_within(image.bytes, image.length, rows, 64, answer->ids, 64, limit);
    memcpy(answer->numbers, &found, sizeof found);
}

/* Finds what room a reserve leaves over a map, in the answer's figures. */
static void room_left(struct image image, const uint64_t *rows, uint32_t reserve, struct answer *answer)
{
    siodlomil_room_left_answer verdict =
        siodlomil_room_left(image.bytes, image.length, rows, 64, reserve, answer->figures, 64);
    memcpy(answer->numbers, &verdict, sizeof verdict);
}

/* Shows the heaviest chain through a task over a map, in the answer's ids. */
static void chain_through(struct image image, const uint64_t *rows, uint32_t id, struct answer *answer)
{
    siodlomil_chain_through_answer shown =
        siodlomil_chain_through(image.bytes, image.length, rows, 64, id, answer->ids, 64);
    memcpy(answer->numbers, &shown, sizeof shown);
}

/* Says why the task low may be preempted by the task high, or why not. */
static void reason(struct image image, uint32_t low, uint32_t high, struct answer *answer)
{
    siodlomil_reason_answer reasoned = siodlomil_reason(image.bytes, image.length, low, high);
    memcpy(answer->numbers, &reasoned, sizeof reasoned);
}

/* Applies a patch, with the outcome in the answer's room and rows. */
static void patch(struct image base, struct image patch, const uint64_t *rows, struct answer *answer)
{
    siodlomil_patch_answer patched = siodlomil_patch(base.bytes, base.length, patch.bytes, patch.length, rows, 64,
                                                     answer->room, sizeof answer->room, answer->rows, 64);
    memcpy(answer->numbers, &patched, sizeof patched);
}

/* Reverses a patch, with as much of the answer's room lent as the patch is long. */
static void reverse(struct image patch, struct answer *answer)
{
    siodlomil_reverse_answer reversed = siodlomil_reverse(patch.bytes, patch.length, answer->room, patch.length);
    memcpy(answer->numbers, &reversed, sizeof reversed);
}

const struct side library_side = {.name = "library",
                                  .map = map,
                                  .bounds = bounds,
                                  .bounds_within = bounds_within,
                                  .room_left = room_left,
                                  .chain_through = chain_through,
                                  .reason = reason,
                                  .patch = patch,
                                  .reverse = reverse};
