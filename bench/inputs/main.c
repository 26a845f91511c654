/* The inputs of the measurement, always the same. */
#include <stdio.h>
#include <string.h>

#include "table.h"

enum { INPUTS_OF_CLASS = 11 };

/* A class of random tables: tasks, transactions, priorities and load. */
struct random_class {
    const char *name;
    size_t tasks, transactions;
    uint32_t most_urgent, load_percent;
};

/* In one transaction a load of 40 % lets no task meet another, so its tables have 90 %. */
static const struct random_class random_classes[] = {
    {"10 tasks, 1 transaction, load 90 %, priorities to 32", 10, 1, 32, 90},
    {"20 tasks, 4 transactions, priorities to 32", 20, 4, 32, BASE_LOAD_PERCENT},
    {"40 tasks, 5 transactions, priorities to 32", 40, 5, 32, BASE_LOAD_PERCENT},
    {"60 tasks, 5 transactions, priorities to 32", 60, 5, 32, BASE_LOAD_PERCENT},
    {"40 tasks, 16 transactions, priorities to 32", 40, 16, 32, BASE_LOAD_PERCENT},
    {"64 tasks, 16 transactions, priorities to 32", 64, 16, 32, BASE_LOAD_PERCENT},
    {"64 tasks, 1 transaction, load 90 %, priorities to 255", 64, 1, 255, 90},
    {"40 tasks, 4 transactions, priorities to 255", 40, 4, 255, BASE_LOAD_PERCENT},
    {"64 tasks, 4 transactions, priorities to 255", 64, 4, 255, BASE_LOAD_PERCENT},
    {"30 tasks, 16 transactions, priorities to 255", 30, 16, 255, BASE_LOAD_PERCENT},
    {"64 tasks, 16 transactions, priorities to 255", 64, 16, 255, BASE_LOAD_PERCENT},
};

/* The same as the last with fewer tasks, to see how the cost grows. */
static const struct random_class growing_classes[] = {
    {"10 tasks, 16 transactions, priorities to 255", 10, 16, 255, BASE_LOAD_PERCENT},
    {"20 tasks, 16 transactions, priorities to 255", 20, 16, 255, BASE_LOAD_PERCENT},
    {"40 tasks, 16 transactions, priorities to 255", 40, 16, 255, BASE_LOAD_PERCENT},
    {"50 tasks, 16 transactions, priorities to 255", 50, 16, 255, BASE_LOAD_PERCENT},
};

/* Writes classes of random tables. */
static void write_random_tables(const struct random_class *classes, size_t count)
{
    for (size_t c = 0; c < count; c++) {
        const struct random_class *class = &classes[c];
        for (size_t k = 0; k < INPUTS_OF_CLASS; k++) {
            struct table table =
                random_table(class->tasks, class->transactions, class->most_urgent, class->load_percent);
            write_table_case(class->name, &table, NULL);
        }
    }
}

/* Writes tables with as much of everything as they may have. */
static void write_full_tables(void)
{
    for (size_t k = 0; k < INPUTS_OF_CLASS; k++) {
        struct table table = full_table();
        write_table_case("full: 64 tasks, 16 transactions, 256 pairs", &table, NULL);
    }
}

/* Writes tables with lent maps of which so much is set; 0 stands for triples of which no two nest. */
static void write_lent_maps(size_t tasks, uint32_t percent)
{
    char name[64];
    uint64_t rows[64];
    if (percent == 0)
        snprintf(name, sizeof name, "%zu tasks in triples of which no two nest", tasks);
    else
        snprintf(name, sizeof name, "%zu tasks, random map, %u %% set", tasks, percent);
    for (size_t k = 0; k < INPUTS_OF_CLASS; k++) {
        struct table table = random_table(tasks, 4, 255, BASE_LOAD_PERCENT);
        if (percent == 0)
            triples_map(tasks, rows);
        else
            random_map(percent, rows);
        write_table_case(name, &table, rows);
    }
}

/* Writes the patches: one task put in, an eighth of the records changed, and a full table replaced. */
static void write_patches(void)
{
    static struct table base, out, in;
    const struct table none = {.tasks = 0};
    for (size_t k = 0; k < INPUTS_OF_CLASS; k++) {
        base = random_table(60, 5, 32, BASE_LOAD_PERCENT);
        in = with_task(&base);
        write_patch_case("patch: 60 tasks, one put in", &base, &none, &in);
    }
    for (size_t k = 0; k < INPUTS_OF_CLASS; k++) {
        base = random_table(60, 5, 32, BASE_LOAD_PERCENT);
        out = in = none;
        change_tasks(&base, 8, &out, &in);
        change_pairs(&base, 8, &out, &in);
        write_patch_case("patch: 60 tasks, an eighth of tasks and pairs changed", &base, &out, &in);
    }
    for (size_t k = 0; k < INPUTS_OF_CLASS; k++) {
        base = full_table();
        in = full_table();
        write_patch_case("patch: a full table replaced", &base, &base, &in);
    }
}

/* Writes tables with long paths of precedences, and patches that change pairs of such tables. */
static void write_paths(void)
{
    static struct table base, out, in;
    const struct table none = {.tasks = 0};
    for (size_t k = 0; k < INPUTS_OF_CLASS; k++) {
        base = paths_table();
        write_table_case("64 tasks, 16 transactions, 256 pairs, half of them in long paths", &base, NULL);
    }
    for (size_t k = 0; k < INPUTS_OF_CLASS; k++) {
        base = paths_table();
        out = in = none;
        change_pairs(&base, 8, &out, &in);
        write_patch_case("patch: 64 tasks in long paths, pairs changed", &base, &out, &in);
    }
}

/* Writes all inputs to standard output; with the word `first` only the first of each class. */
int main(int argc, char **argv)
{
    struct table table = figure2();
    if (argc == 2 && strcmp(argv[1], "first") == 0)
        write_only_first();
    start_random(1);
    write_table_case("figure 2", &table, NULL);
    write_random_tables(random_classes, sizeof random_classes / sizeof random_classes[0]);
    write_full_tables();
    for (size_t tasks = 30; tasks <= 64; tasks += 34) {
        write_lent_maps(tasks, 50);
        write_lent_maps(tasks, 80);
        write_lent_maps(tasks, 90);
        write_lent_maps(tasks / 3 * 3, 0);
    }
    write_lent_maps(64, 95);
    write_lent_maps(64, 98);
    write_random_tables(growing_classes, sizeof growing_classes / sizeof growing_classes[0]);
    write_patches();
    write_paths();
    return 0;
}
