/* The calls that are measured. */
#include "calls.h"

#include <string.h>

call *const calls[CALLS] = {call_verdict, call_map, call_bounds, call_bounds_within, call_room_left, call_chain_through,
                            call_reason, call_patch_verdict, call_patch, call_reverse};
const char *const call_names[CALLS] = {"verdict", "map", "bounds", "bounds within", "room left", "chain through",
                                       "reason", "patch verdict", "patch", "reverse"};

/* The reserve that room is asked of; heaviest chains of the inputs weigh less and more than it: figures have both signs. */
enum { RESERVE = 16384 };

/* The input's table. */
static struct image table_of(const struct input *input)
{
    return (struct image){input->image, input->bytes};
}

/* The input's patch. */
static struct image patch_of(const struct input *input)
{
    return (struct image){input->patch, input->patch_bytes};
}

/* The verdict on a table: a map call with no room for the map, which ends in 11 after the verdict. */
void call_verdict(const struct side *side, const struct input *input, struct answer *answer)
{
    side->map(table_of(input), 0, answer);
}

/* The map of a table. */
void call_map(const struct side *side, const struct input *input, struct answer *answer)
{
    side->map(table_of(input), 64, answer);
}

/* The bounds of a table over the input's map. */
void call_bounds(const struct side *side, const struct input *input, struct answer *answer)
{
    side->bounds(table_of(input), input->map, answer);
}

/* The bounds of a table over a map with no cell set: the bound call less what the map makes it cost. */
void call_bare_bounds(const struct side *side, const struct input *input, struct answer *answer)
{
    static const uint64_t none[64];
    side->bounds(table_of(input), none, answer);
}

/* The bounds of a table over the input's map, within the limit on chains. */
void call_bounds_within(const struct side *side, const struct input *input, struct answer *answer)
{
    side->bounds_within(table_of(input), input->map, LIMIT, answer);
}

/* The room that a reserve leaves to each task of a table over the input's map. */
void call_room_left(const struct side *side, const struct input *input, struct answer *answer)
{
    side->room_left(table_of(input), input->map, RESERVE, answer);
}

/* The heaviest chain through the task with the lowest id of a table, over the input's map. */
void call_chain_through(const struct side *side, const struct input *input, struct answer *answer)
{
    side->chain_through(table_of(input), input->map, input->lowest_id, answer);
}

/* Why the task with the lowest id of a table may be preempted by the one with the highest, or why not. */
void call_reason(const struct side *side, const struct input *input, struct answer *answer)
{
    side->reason(table_of(input), input->lowest_id, input->highest_id, answer);
}

/* The verdict on a patch that takes a record out: a patch call on the empty table, which ends in 9 after the verdict. */
void call_patch_verdict(const struct side *side, const struct input *input, struct answer *answer)
{
    static const uint8_t empty[512] = {[0] = 'T', [1] = 'B', [3] = 1, [510] = 220};
    side->patch((struct image){empty, sizeof empty}, patch_of(input), input->map, answer);
}

/* The patch applied. */
void call_patch(const struct side *side, const struct input *input, struct answer *answer)
{
    side->patch(table_of(input), patch_of(input), input->map, answer);
}

/* The reverse of the patch, which needs no table. */
void call_reverse(const struct side *side, const struct input *input, struct answer *answer)
{
    side->reverse(patch_of(input), answer);
}

/* Gives an input that no map is lent for the map of its own table. */
void lend_own_map(struct input *input)
{
    static struct answer answer;
    if (input->is_map_lent)
        return;
    call_map(sides[GCC], input, &answer);
    memcpy(input->map, answer.rows, sizeof input->map);
}

/* The sets that a call visits, or more than are allowed. */
uint64_t sets_visited(call *made, const struct input *input, uint64_t allowed)
{
    static struct answer answer;
    *sides[GCC]->sets_visited = 0;
    *sides[GCC]->sets_allowed = allowed;
    made(sides[GCC], input, &answer);
    *sides[GCC]->sets_allowed = UINT64_MAX;
    return *sides[GCC]->sets_visited;
}

/* The chains that an answer within a limit says are opened, or one more than the limit where the call gave up. */
uint64_t opened_by_answer(const struct answer *answer, uint32_t limit)
{
    return answer->numbers[0] == GAVE_UP ? (uint64_t)limit + 1 : answer->numbers[8];
}

/* The chains that the rule opens on an input, or one more than the limit where they are more. */
uint64_t chains_opened(const struct input *input, uint32_t limit)
{
    static struct answer answer;
    sides[GCC]->bounds_within(table_of(input), input->map, limit, &answer);
    return opened_by_answer(&answer, limit);
}
