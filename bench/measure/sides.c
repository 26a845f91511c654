/* Which sides this program was built with: SIDES says how many. */
#include "side.h"

extern const struct side library_side, gcc_side;
#if SIDES == 3
extern const struct side clang_side;
const struct side *const sides[MOST_SIDES] = {&library_side, &gcc_side, &clang_side};
#else
const struct side *const sides[MOST_SIDES] = {&library_side, &gcc_side};
#endif
const size_t side_count = SIDES;
