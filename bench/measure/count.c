/* Makes each call once on each input, for every side, under valgrind's callgrind, which dumps the instructions of each call
 * under the class, the call and the side with tabs between: count INPUTS. */
#include <valgrind/callgrind.h>

#include "calls.h"

/* A call that visits more sets than this is left out, and so is one that opens more chains. */
enum { MOST_SETS = 3000, MOST_CHAINS = 50000 };

/* Makes a call for every side. */
static void count(size_t made, const struct input *input)
{
    static struct answer answer;
    char label[MOST_CLASS_BYTES + 64];
    for (size_t side = 0; side < side_count; side++) {
        snprintf(label, sizeof label, "%s\t%s\t%s", input->class, call_names[made], sides[side]->name);
        CALLGRIND_ZERO_STATS;
        calls[made](sides[side], input, &answer);
        CALLGRIND_DUMP_STATS_AT(label);
    }
}

/* Whether a call that searches is short enough to be counted. */
static bool is_short(size_t made, const struct input *input)
{
    if (made == BOUNDS_WITHIN && chains_opened(input, MOST_CHAINS) > MOST_CHAINS)
        return false;
    return sets_visited(calls[made], input, MOST_SETS) <= MOST_SETS;
}

/* Makes all calls on one input. */
static void count_calls(struct input *input)
{
    lend_own_map(input);
    if (input->kind == 'P') {
        if (takes_out(input))
            count(PATCH_VERDICT, input);
        count(PATCH, input);
        count(REVERSE, input);
        return;
    }
    count(VERDICT, input);
    count(MAP, input);
    for (size_t made = BOUNDS; made <= CHAIN_THROUGH; made++)
        if (is_short(made, input))
            count(made, input);
    count(REASON, input);
}

/* Makes the calls on every input of a file. */
int main(int argc, char **argv)
{
    static struct input input;
    FILE *file = argc == 2 ? fopen(argv[1], "rb") : NULL;
    if (file == NULL) {
        fprintf(stderr, "usage: count INPUTS\n");
        return 2;
    }
    while (read_input(file, &input))
        count_calls(&input);
    fclose(file);
    return 0;
}
