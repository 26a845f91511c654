/* What patches take out and put in, each as a table of its records. */
#include "table.h"

/* One task to put into a base: a new id, and otherwise like one of the base's tasks. */
struct table with_task(const struct table *base)
{
    struct table in = {.tasks = 1};
    in.task[0] = base->task[random_below((uint32_t)base->tasks)];
    in.task[0].id += 1;
    return in;
}

/* The place of the task with an id. */
static size_t place_of(const struct table *table, uint32_t id)
{
    size_t i = 0;
    while (table->task[i].id != id)
        i++;
    return i;
}

/* Takes every so many of the base's tasks out besides, and puts them back with another size. */
void change_tasks(const struct table *base, size_t every, struct table *out, struct table *in)
{
    for (size_t i = random_below((uint32_t)every); i < base->tasks; i += every) {
        out->task[out->tasks++] = base->task[i];
        in->task[in->tasks] = base->task[i];
        in->task[in->tasks++].size = random_from(1, 65535);
    }
}

/* Takes every so many of the base's pairs out besides, and puts them back as the other sort; those against the order stay, as
 * with them as precedences a task could come before itself. */
void change_pairs(const struct table *base, size_t every, struct table *out, struct table *in)
{
    for (size_t k = random_below((uint32_t)every); k < base->pairs; k += every) {
        if (!is_before(base, place_of(base, base->pair[k].first), place_of(base, base->pair[k].second)))
            continue;
        out->pair[out->pairs++] = base->pair[k];
        in->pair[in->pairs] = base->pair[k];
        in->pair[in->pairs++].sort = 1 - base->pair[k].sort;
    }
}
