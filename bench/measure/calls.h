/* The calls that are measured. */
#ifndef CALLS_H
#define CALLS_H

#include "side.h"

typedef void call(const struct side *side, const struct input *input, struct answer *answer);

call call_verdict;
call call_map;
call call_bounds;
call call_bare_bounds;
call call_bounds_within;
call call_room_left;
call call_chain_through;
call call_reason;
call call_patch_verdict;
call call_patch;
call call_reverse;

void lend_own_map(struct input *input);
uint64_t sets_visited(call *made, const struct input *input, uint64_t allowed);
uint64_t opened_by_answer(const struct answer *answer, uint32_t limit);
uint64_t chains_opened(const struct input *input, uint32_t limit);

enum { VERDICT, MAP, BOUNDS, BOUNDS_WITHIN, ROOM_LEFT, CHAIN_THROUGH, REASON, PATCH_VERDICT, PATCH, REVERSE, CALLS };

/* The limit on chains that the bounds are asked within, and the refusal of a call that gives up. */
enum { LIMIT = 1000000, GAVE_UP = 13 };

extern call *const calls[CALLS];
extern const char *const call_names[CALLS];

#endif
