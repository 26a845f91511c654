/* The tables of the report. */
#include "report.h"

#include <stdlib.h>
#include <string.h>

/* Adds the figure of one more input. */
void add(struct figures *figures, double figure)
{
    if (figures->count < MOST_INPUTS)
        figures->figure[figures->count++] = figure;
}

/* Keeps the instructions of one call, where the class, the call and the side are there. */
static void keep_instructions(const char *name, const char *call_name, const char *side_name, double number,
                              struct class *classes, size_t count)
{
    for (size_t c = 0; c < count; c++)
        for (size_t made = 0; made < CALLS; made++)
            for (size_t side = 0; side < side_count; side++)
                if (strcmp(classes[c].name, name) == 0 && strcmp(call_names[made], call_name) == 0 &&
                    strcmp(sides[side]->name, side_name) == 0)
                    classes[c].instructions[made][side] = number;
}

/* Reads the instructions of the calls, a line for each: class, call, side and number with tabs between. */
void read_instructions(FILE *file, struct class *classes, size_t count)
{
    char line[256];
    while (fgets(line, sizeof line, file) != NULL) {
        const char *name = strtok(line, "\t"), *call_name = strtok(NULL, "\t"), *side_name = strtok(NULL, "\t");
        const char *number = strtok(NULL, "\n");
        if (number != NULL)
            keep_instructions(name, call_name, side_name, atof(number), classes, count);
    }
}

/* Which of two figures is larger, as sorting asks it. */
static int compare(const void *a, const void *b)
{
    double x = *(const double *)a, y = *(const double *)b;
    return (x > y) - (x < y);
}

/* The figure with so many others below it, or 0 where there are not so many. */
static double at_rank(const struct figures *figures, size_t rank)
{
    struct figures sorted = *figures;
    qsort(sorted.figure, sorted.count, sizeof sorted.figure[0], compare);
    return rank < sorted.count ? sorted.figure[rank] : 0;
}

/* The middle figure, or halfway between the two in the middle. */
static double median(const struct figures *figures)
{
    return (at_rank(figures, (figures->count - 1) / 2) + at_rank(figures, figures->count / 2)) / 2;
}

/* The largest figure. */
static double worst(const struct figures *figures)
{
    return at_rank(figures, figures->count - 1);
}

/* Prints the ratios of one call on a class by one side: time, median and worst, and instructions. */
static void print_ratios(const struct class *class, size_t made, size_t side)
{
    const double *instructions = class->instructions[made];
    if (side >= side_count) {
        printf("| skipped | skipped | skipped ");
        return;
    }
    printf("| %.2f | %.2f ", median(&class->ratio[made][side]), worst(&class->ratio[made][side]));
    if (instructions[side] > 0)
        printf("| %.2f ", instructions[LIBRARY] / instructions[side]);
    else
        printf("| - ");
}

/* Prints the figures of one call on a class. */
static void print_call(const struct class *class, size_t made)
{
    printf("| %s | %s | %zu ", class->name, call_names[made], class->seconds[made][LIBRARY].count);
    printf("| %.2f ", 1e6 * median(&class->seconds[made][LIBRARY]));
    print_ratios(class, made, GCC);
    print_ratios(class, made, CLANG);
    printf("|\n");
}

/* Prints the least, the middle and the largest figure. */
static void print_range(const struct figures *figures)
{
    if (figures->count == 0)
        printf("| - ");
    else
        printf("| %.2f, %.2f, %.2f ", at_rank(figures, 0), median(figures), worst(figures));
}

/* Prints the ratios of one call by one side over all classes: the medians of time, the worst time, and instructions. */
static void print_ranges(const struct class *classes, size_t count, size_t made, size_t side)
{
    struct figures medians = {.count = 0}, worsts = {.count = 0}, instructions = {.count = 0};
    if (side >= side_count) {
        printf("| skipped | skipped | skipped ");
        return;
    }
    for (size_t c = 0; c < count; c++) {
        const double *counted = classes[c].instructions[made];
        if (classes[c].ratio[made][side].count == 0)
            continue;
        add(&medians, median(&classes[c].ratio[made][side]));
        add(&worsts, worst(&classes[c].ratio[made][side]));
        if (counted[side] > 0)
            add(&instructions, counted[LIBRARY] / counted[side]);
    }
    print_range(&medians);
    printf("| %.2f ", worst(&worsts));
    print_range(&instructions);
}

/* Prints a row for each call, over all classes. */
void print_summary(const struct class *classes, size_t count)
{
    printf("The least, the middle and the largest of the classes' medians, and of their instructions.\n\n");
    printf("| Call | By gcc: medians | worst | instructions | By clang: medians | worst | instructions |\n");
    printf("|---|---|---|---|---|---|---|\n");
    for (size_t made = 0; made < CALLS; made++) {
        printf("| %s ", call_names[made]);
        print_ranges(classes, count, made, GCC);
        print_ranges(classes, count, made, CLANG);
        printf("|\n");
    }
}

/* Prints a row for each class and call. */
void print_calls(const struct class *classes, size_t count)
{
    printf("| Inputs | Call | Number | Microseconds | By gcc: median | worst | instructions "
           "| By clang: median | worst | instructions |\n");
    printf("|---|---|---|---|---|---|---|---|---|---|\n");
    for (size_t c = 0; c < count; c++)
        for (size_t made = 0; made < CALLS; made++)
            if (classes[c].seconds[made][LIBRARY].count > 0)
                print_call(&classes[c], made);
}

/* Prints a number of chains by so many, or that it is over what is counted by as many. */
static void print_number(double chains, double by, int decimals, uint64_t most_counted)
{
    if (chains <= (double)most_counted)
        printf("| %.*f ", decimals, chains / by);
    else
        printf("| over %.*f ", decimals, (double)most_counted / by);
}

/* How many figures are above this one. */
static size_t number_above(const struct figures *figures, double figure)
{
    size_t above = 0;
    for (size_t k = 0; k < figures->count; k++)
        above += figure < figures->figure[k];
    return above;
}

/* Prints the chains that the rule opens on the inputs of one class, beside the sets. Of two in the middle the larger counts,
 * as there is nothing halfway to one that was not counted to its end. */
static void print_chains_and_sets(const struct class *class, uint64_t most_counted)
{
    const struct figures *opened = &class->opened;
    double middle = at_rank(opened, opened->count / 2);
    printf("| %s | %zu of %zu ", class->name, opened->count, class->tables);
    if (opened->count == 0) {
        printf("| - | - | - | - | - | - |\n");
        return;
    }
    print_number(middle, 1, 0, most_counted);
    print_number(worst(opened), 1, 0, most_counted);
    printf("| %zu | %.0f | %.0f ", number_above(opened, (double)most_counted), median(&class->sets), worst(&class->sets));
    print_number(middle, median(&class->sets), 1, most_counted);
    printf("|\n");
}

/* Prints a row for each class of tables: the chains that the rule opens, and the sets that the library's search visits. */
void print_opened(const struct class *classes, size_t count, uint64_t most_counted)
{
    printf("| Inputs | Counted | Chains opened: median | worst | Inputs that open over %llu "
           "| Sets visited: median | worst | Chains by sets, of the medians |\n",
           (unsigned long long)most_counted);
    printf("|---|---|---|---|---|---|---|---|\n");
    for (size_t c = 0; c < count; c++)
        if (classes[c].tables > 0)
            print_chains_and_sets(&classes[c], most_counted);
}

/* Prints the bounds within the limit of one class: what gives up, and what an opened chain and giving up take. */
static void print_limited(const struct class *class)
{
    const struct figures *each = &class->seconds_of_chain, *whole = &class->seconds_to_give_up;
    printf("| %s | %zu of %zu | %zu ", class->name, each->count - whole->count, each->count, whole->count);
    if (each->count == 0)
        printf("| - | - ");
    else
        printf("| %.1f | %.1f ", 1e9 * median(each), 1e9 * worst(each));
    if (whole->count == 0)
        printf("| - | - |\n");
    else
        printf("| %.1f | %.1f |\n", 1e3 * median(whole), 1e3 * worst(whole));
}

/* Says what an opened chain takes by the medians of all classes. */
static void print_chain_medians(const struct class *classes, size_t count)
{
    struct figures medians = {.count = 0};
    for (size_t c = 0; c < count; c++)
        if (classes[c].seconds_of_chain.count > 0)
            add(&medians, 1e9 * median(&classes[c].seconds_of_chain));
    if (medians.count > 0)
        printf("\nThe least of these medians of nanoseconds is %.1f, the middle one %.1f and the largest %.1f.\n",
               at_rank(&medians, 0), median(&medians), worst(&medians));
}

/* Prints a row for each class of tables: the library's bounds within the limit, and what an opened chain takes. */
void print_within(const struct class *classes, size_t count)
{
    printf("| Inputs | Accepted | Gave up | Nanoseconds for an opened chain: median | worst "
           "| To give up, ms: median | worst |\n");
    printf("|---|---|---|---|---|---|---|\n");
    for (size_t c = 0; c < count; c++)
        if (classes[c].tables > 0)
            print_limited(&classes[c]);
    print_chain_medians(classes, count);
}

/* Prints the room call of one class by its bound call, both on the inputs that the room call was timed on. */
static void print_room(const struct class *class)
{
    const struct figures *ratio = &class->room_by_bounds;
    printf("| %s | %zu of %zu ", class->name, ratio->count, class->tables);
    if (ratio->count == 0)
        printf("| - | - | - | - |\n");
    else
        printf("| %.2f | %.2f | %.2f | %.2f |\n", 1e6 * median(&class->bounds_beside_room),
               1e6 * median(&class->seconds[ROOM_LEFT][LIBRARY]), median(ratio), worst(ratio));
}

/* Says what the medians of all classes reach at most, and what they are to stay below. */
static void print_largest_median(const struct class *classes, size_t count)
{
    struct figures medians = {.count = 0};
    for (size_t c = 0; c < count; c++)
        if (classes[c].room_by_bounds.count > 0)
            add(&medians, median(&classes[c].room_by_bounds));
    if (medians.count > 0)
        printf("\nThe largest of these medians is %.2f; they are to be under 20.\n", worst(&medians));
}

/* Prints a row for each class of tables: the library's room call by its bound call on the same input. */
void print_room_left(const struct class *classes, size_t count)
{
    printf("| Inputs | Calls timed | Bounds, microseconds | Room left, microseconds "
           "| Room left by bounds: median | worst |\n");
    printf("|---|---|---|---|---|---|\n");
    for (size_t c = 0; c < count; c++)
        if (classes[c].tables > 0)
            print_room(&classes[c]);
    print_largest_median(classes, count);
}

/* Prints the chain of one class beside Cliquer's. */
static void print_clique(const struct class *class)
{
    printf("| %.4f ", 1e3 * median(&class->chain_seconds));
    if (class->clique_ratio.count == 0)
        printf("| over 2 s | - | - |\n");
    else
        printf("| %.4f | %.2f | %.2f |\n", 1e3 * median(&class->clique_seconds), median(&class->clique_ratio),
               worst(&class->clique_ratio));
}

/* Prints the searches of one class. */
static void print_chain(const struct class *class, uint64_t limit, bool has_clique)
{
    printf("| %s | %zu of %zu ", class->name, class->sets.count, class->tables);
    if (class->sets.count == 0) {
        printf("| over %llu | - | - | - | - | - |\n", (unsigned long long)limit);
        return;
    }
    printf("| %.0f | %.0f ", median(&class->sets), worst(&class->sets));
    if (has_clique)
        print_clique(class);
    else
        printf("| %.4f | skipped | skipped | skipped |\n", 1e3 * median(&class->chain_seconds));
}

/* Says in how many classes the chain takes at most half as long as Cliquer's, at most as long, and longer. */
static void print_shares(const struct class *classes, size_t count)
{
    size_t half = 0, as_long = 0, longer = 0;
    for (size_t c = 0; c < count; c++) {
        double ratio = median(&classes[c].clique_ratio);
        if (classes[c].clique_ratio.count == 0)
            continue;
        half += ratio <= 0.5;
        as_long += 0.5 < ratio && ratio <= 1;
        longer += 1 < ratio;
    }
    printf("\nBy medians the library takes at most half of Cliquer's time in %zu classes, ", half);
    printf("more than half and at most all of it in %zu, and longer in %zu.\n", as_long, longer);
}

/* Prints the sets that the searches visited, of those that did not pass the limit, and the chain beside Cliquer's. */
void print_chains(const struct class *classes, size_t count, uint64_t limit, bool has_clique)
{
    printf("| Inputs | Searches timed | Sets visited: median | worst | Chain, ms | Cliquer, ms "
           "| Library by Cliquer: median | worst |\n");
    printf("|---|---|---|---|---|---|---|---|\n");
    for (size_t c = 0; c < count; c++)
        if (classes[c].tables > 0)
            print_chain(&classes[c], limit, has_clique);
    if (has_clique)
        print_shares(classes, count);
}
