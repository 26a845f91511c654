/* Random changes to a table that is accepted, which keep it so. */
#include "change.h"

/* A task by chance. */
static struct task *any_task(struct table *table)
{
    return &table->task[random_below((uint32_t)table->tasks)];
}

/* Gives a task another size: any, a small one, or about that of another task. */
static void change_size(struct table *table)
{
    uint32_t limits[] = {65535, 1000, 10};
    struct task *task = any_task(table);
    if (random_below(2) == 0)
        task->size = random_from(1, limits[random_below(3)]);
    else
        task->size = any_task(table)->size;
}

/* Gives a task another priority, or two tasks each other's. */
static void change_priority(struct table *table)
{
    struct task *one = any_task(table), *other = any_task(table);
    uint32_t priority = one->priority;
    if (random_below(2) == 0) {
        one->priority = other->priority;
        other->priority = priority;
    } else {
        one->priority = random_from(1, 255);
    }
}

/* Gives a task another time to be there, which decides whom of its transaction it meets. */
static void change_times(struct table *table)
{
    struct task *task = any_task(table);
    uint32_t period = table->transaction[0].period;
    task->offset = random_below(period);
    task->response = task->offset + random_below(period);
    task->jitter = random_below(4) == 0 ? random_below(period) : 0;
}

/* Puts a task into another transaction. */
static void change_transaction(struct table *table)
{
    any_task(table)->transaction = table->transaction[random_below((uint32_t)table->transactions)].number;
}

/* Takes a pair out. */
static void drop_pair(struct table *table, size_t at)
{
    table->pairs--;
    for (size_t k = at; k < table->pairs; k++)
        table->pair[k] = table->pair[k + 1];
}

/* Puts in a one-way pair of tasks by chance, which keeps the less urgent one from being preempted by the other. No precedence
 * is ever put in, so that no task comes before itself. */
static void put_any_pair(struct table *table)
{
    const struct task *one = any_task(table), *other = any_task(table);
    bool is_one_less_urgent = one->priority < other->priority;
    uint32_t low = is_one_less_urgent ? one->id : other->id, high = is_one_less_urgent ? other->id : one->id;
    put_pair(table, (struct pair){low, high, 0});
}

/* Takes a pair out, puts one in, or both. */
static void change_pair(struct table *table)
{
    uint32_t way = random_below(4);
    if (way != 0 && table->pairs > 0)
        drop_pair(table, random_below((uint32_t)table->pairs));
    if (way != 1)
        put_any_pair(table);
}

/* A table in which each task may meet every other but for the pairs: one priority each, 256 one-way pairs by chance. */
struct table dense_table(void)
{
    struct table table = random_table(MOST_TASKS, MOST_TRANSACTIONS, 255, BASE_LOAD_PERCENT);
    for (size_t i = 0; i < MOST_TASKS; i++) {
        table.task[i].priority = (uint32_t)i + 1;
        table.task[i].jitter = table.transaction[0].period;
    }
    table.pairs = 0;
    while (table.pairs < MOST_PAIRS)
        put_any_pair(&table);
    return table;
}

/* Makes one to four changes. */
void change(struct table *table)
{
    static void (*const changes[])(struct table *) = {change_size, change_size, change_priority, change_times,
                                                      change_transaction, change_pair, change_pair, change_pair};
    size_t times = random_from(1, 4);
    for (size_t k = 0; k < times; k++)
        changes[random_below(sizeof changes / sizeof changes[0])](table);
}
