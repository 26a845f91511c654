/* Times the library beside the plain rendering, and its chain beside Cliquer's, on the inputs of a file. */
#include <stdlib.h>
#include <string.h>

#include "clique.h"
#include "report.h"
#include "timing.h"

/* A search that visits more sets than this is left out, and so is one past what is visited in its class; a room call, which
 * asks a ceiling for most tasks, may visit more. */
enum { SETS_OF_INPUT = 2000000, SETS_OF_ROOM = 20000000, SETS_OF_CLASS = 5000000, MOST_LEFT_OUT = 2 };

/* The chains that the rule opens are counted up to this. */
enum { MOST_COUNTED = 10000000 };

static struct class classes[MOST_CLASSES];
static size_t class_count;

/* Ends the run where the sides differ. */
static void end_unless(bool right, const char *what, const struct input *input)
{
    if (right)
        return;
    fprintf(stderr, "bench: %s on an input of '%s'\n", what, input->class);
    exit(1);
}

/* The class of an input, which is the last one or a new one. */
static struct class *class_of(const struct input *input)
{
    if (class_count > 0 && strcmp(classes[class_count - 1].name, input->class) == 0)
        return &classes[class_count - 1];
    end_unless(class_count < MOST_CLASSES, "too many classes", input);
    fprintf(stderr, "bench: %s\n", input->class);
    strcpy(classes[class_count].name, input->class);
    classes[class_count].sets_left = SETS_OF_CLASS;
    return &classes[class_count++];
}

/* Times a call and keeps its figures; the answer is the library's. */
static void keep(struct class *class, size_t made, const struct input *input, struct answer *answer)
{
    double seconds[MOST_SIDES];
    end_unless(time_call(calls[made], input, seconds, answer), "the answers differ", input);
    for (size_t side = 0; side < side_count; side++) {
        add(&class->seconds[made][side], seconds[side]);
        add(&class->ratio[made][side], seconds[LIBRARY] / seconds[side]);
    }
}

/* The library's seconds of a call on the last input that it was timed on. */
static double last_seconds(const struct class *class, size_t made)
{
    const struct figures *seconds = &class->seconds[made][LIBRARY];
    return seconds->figure[seconds->count - 1];
}

/* Times the chain beside Cliquer's: what the library takes longer over this map than over one with no cell set. */
static void keep_clique(struct class *class, const struct input *input, uint32_t chain)
{
    static struct answer answer;
    double bare[MOST_SIDES], seconds;
    uint32_t weight;
    end_unless(time_call(call_bare_bounds, input, bare, &answer), "the answers differ", input);
    double own = last_seconds(class, BOUNDS) - bare[LIBRARY];
    add(&class->chain_seconds, own > 0 ? own : 0);
    if (class->cliques_left_out >= MOST_LEFT_OUT || !time_clique(input, &seconds, &weight)) {
        class->cliques_left_out++;
        return;
    }
    end_unless(weight == chain, "Cliquer's weight differs", input);
    add(&class->clique_seconds, seconds);
    add(&class->clique_ratio, own > 0 ? own / seconds : 0);
}

/* Times the room call and the chain call for one task beside the bounds, unless the room call visits too many sets. */
static void keep_growth(struct class *class, const struct input *input)
{
    static struct answer answer;
    if (class->rooms_left_out >= MOST_LEFT_OUT)
        return;
    if (sets_visited(call_room_left, input, SETS_OF_ROOM) > SETS_OF_ROOM) {
        class->rooms_left_out++;
        return;
    }
    keep(class, ROOM_LEFT, input, &answer);
    end_unless(answer.numbers[0] == 0, "a room call is refused", input);
    add(&class->bounds_beside_room, last_seconds(class, BOUNDS));
    add(&class->room_by_bounds, last_seconds(class, ROOM_LEFT) / last_seconds(class, BOUNDS));
    keep(class, CHAIN_THROUGH, input, &answer);
    end_unless(answer.numbers[0] == 0, "a chain call is refused", input);
}

/* Times the bounds within a limit on chains, which are the bounds where it is not passed. The chains take what the library
 * takes longer than for the bounds; where it gives up, all that it takes. */
static void keep_within(struct class *class, const struct input *input, const struct answer *bounds)
{
    static struct answer answer;
    keep(class, BOUNDS_WITHIN, input, &answer);
    bool gave_up = answer.numbers[0] == GAVE_UP;
    end_unless(gave_up || memcmp(answer.numbers, bounds->numbers, 8 * sizeof answer.numbers[0]) == 0,
               "the bounds within a limit differ", input);
    uint64_t opened = opened_by_answer(&answer, LIMIT);
    double seconds = last_seconds(class, BOUNDS_WITHIN);
    if (gave_up)
        add(&class->seconds_to_give_up, seconds);
    else
        seconds -= last_seconds(class, BOUNDS);
    add(&class->seconds_of_chain, seconds > 0 ? seconds / (double)opened : 0);
    add(&class->opened, (double)(gave_up ? chains_opened(input, MOST_COUNTED) : opened));
}

/* Times the bounds, without a limit and within one, and then what is asked of one task and of each, unless the search visits
 * too many sets. */
static void keep_bounds(struct class *class, const struct input *input, struct answer *answer)
{
    uint64_t allowed = class->sets_left < SETS_OF_INPUT ? class->sets_left : SETS_OF_INPUT;
    if (class->left_out >= MOST_LEFT_OUT)
        return;
    uint64_t visited = sets_visited(call_bounds, input, allowed);
    if (visited > allowed) {
        class->left_out++;
        return;
    }
    class->sets_left -= visited;
    add(&class->sets, (double)visited);
    keep(class, BOUNDS, input, answer);
    keep_clique(class, input, answer->numbers[3]);
    keep_within(class, input, answer);
    keep_growth(class, input);
}

/* Measures all calls on one input. */
static void measure(struct input *input)
{
    static struct answer answer;
    struct class *class = class_of(input);
    lend_own_map(input);
    if (input->kind == 'T') {
        class->tables++;
        keep(class, VERDICT, input, &answer);
        keep(class, MAP, input, &answer);
        keep_bounds(class, input, &answer);
        keep(class, REASON, input, &answer);
        end_unless(answer.numbers[0] == 0, "a reason is refused", input);
        return;
    }
    if (takes_out(input))
        keep(class, PATCH_VERDICT, input, &answer);
    keep(class, PATCH, input, &answer);
    end_unless(answer.numbers[0] == 0, "a patch is refused", input);
    keep(class, REVERSE, input, &answer);
    end_unless(answer.numbers[0] == 0, "a reverse is refused", input);
}

/* Measures the inputs of a file and prints the tables, with the instructions that another file holds. */
int main(int argc, char **argv)
{
    static struct input input;
    FILE *inputs = argc == 3 ? fopen(argv[1], "rb") : NULL, *instructions = argc == 3 ? fopen(argv[2], "r") : NULL;
    if (inputs == NULL || instructions == NULL) {
        fprintf(stderr, "usage: measure INPUTS INSTRUCTIONS\n");
        return 2;
    }
    while (read_input(inputs, &input))
        measure(&input);
    read_instructions(instructions, classes, class_count);
    fclose(inputs);
    fclose(instructions);
    printf("## The calls in short, library by plain C\n\n");
    print_summary(classes, class_count);
    printf("\n## The calls, library by plain C\n\n");
    print_calls(classes, class_count);
    printf("\n## Chains opened by the rule, beside sets visited by the library's search\n\n");
    print_opened(classes, class_count, MOST_COUNTED);
    printf("\n## Bounds within a limit of %d chains\n\n", LIMIT);
    print_within(classes, class_count);
    printf("\n## Room left by bounds\n\n");
    print_room_left(classes, class_count);
    printf("\n## The chain\n\n");
    print_chains(classes, class_count, SETS_OF_INPUT, has_cliquer);
    return 0;
}
