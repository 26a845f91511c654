/* Random tables by section 6 of the paper: periods 10,000, offsets to half of that, one in ten precedences. */
#include "response.h"
#include "table.h"

enum { PERIOD = 10000, LEAST_SIZE = 128, MOST_SIZE = 2048 };

/* Whether task a is before task b in the order that precedences follow: by offset, then by place. */
bool is_before(const struct table *table, size_t a, size_t b)
{
    if (table->task[a].offset != table->task[b].offset)
        return table->task[a].offset < table->task[b].offset;
    return a < b;
}

/* The time from a task's offset to that of the next task of its transaction, or to half the period. */
static uint32_t gap_after(const struct table *table, size_t i)
{
    uint32_t next = PERIOD / 2 + 1;
    for (size_t j = 0; j < table->tasks; j++)
        if (table->task[j].transaction == table->task[i].transaction && j != i && is_before(table, i, j) &&
            table->task[j].offset < next)
            next = table->task[j].offset;
    return next - table->task[i].offset;
}

/* Sets execution times that keep the tasks of a transaction apart and give each transaction the same load. */
static void set_times(const struct table *table, uint32_t load_percent, uint32_t *times)
{
    for (size_t t = 0; t < table->transactions; t++) {
        uint32_t sum = 0, load = PERIOD * load_percent / 100 / (uint32_t)table->transactions;
        for (size_t i = 0; i < table->tasks; i++)
            if (table->task[i].transaction == table->transaction[t].number)
                sum += gap_after(table, i);
        for (size_t i = 0; i < table->tasks; i++)
            if (table->task[i].transaction == table->transaction[t].number)
                times[i] = 1 + gap_after(table, i) * load / (sum + 1);
    }
}

/* Sets transactions and tasks: ids rise with places, and the tasks are dealt to the transactions in turn, shuffled. */
static void set_tasks(struct table *table, uint32_t most_urgent)
{
    uint32_t id = 0, dealt[MOST_TASKS];
    for (size_t t = 0; t < table->transactions; t++)
        table->transaction[t] = (struct transaction){(uint32_t)t + 1, PERIOD};
    for (size_t i = 0; i < table->tasks; i++) {
        size_t other = random_below((uint32_t)i + 1);
        dealt[i] = dealt[other];
        dealt[other] = (uint32_t)(i % table->transactions) + 1;
    }
    for (size_t i = 0; i < table->tasks; i++) {
        id += 2 * random_from(1, 100);
        table->task[i] = (struct task){.id = id, .transaction = dealt[i], .priority = random_from(1, most_urgent),
                                       .offset = random_below(PERIOD / 2 + 1), .size = random_from(LEAST_SIZE, MOST_SIZE)};
    }
}

/* Draws precedences within transactions, and closes them: before[i][j] where task i comes before task j. Answers how many. */
static size_t draw_precedences(const struct table *table, uint32_t per_thousand, bool before[MOST_TASKS][MOST_TASKS])
{
    size_t n = table->tasks, count = 0;
    for (size_t i = 0; i < n; i++)
        for (size_t j = 0; j < n; j++)
            before[i][j] = table->task[i].transaction == table->task[j].transaction && i != j &&
                           is_before(table, i, j) && random_below(1000) < per_thousand;
    for (size_t k = 0; k < n; k++)
        for (size_t i = 0; i < n; i++)
            for (size_t j = 0; j < n; j++)
                before[i][j] = before[i][j] || (before[i][k] && before[k][j]);
    for (size_t i = 0; i < n; i++)
        for (size_t j = 0; j < n; j++)
            count += before[i][j];
    return count;
}

/* Sets the precedence pairs. Where they are more than a table may have, they are drawn again half as often. */
static void set_pairs(struct table *table)
{
    bool before[MOST_TASKS][MOST_TASKS];
    uint32_t per_thousand = 100;
    while (draw_precedences(table, per_thousand, before) > MOST_PAIRS)
        per_thousand /= 2;
    table->pairs = 0;
    for (size_t i = 0; i < table->tasks; i++)
        for (size_t j = 0; j < table->tasks; j++)
            if (before[i][j])
                table->pair[table->pairs++] = (struct pair){table->task[i].id, table->task[j].id, 1};
}

/* A random table whose tasks all end within their periods. */
struct table random_table(size_t tasks, size_t transactions, uint32_t most_urgent, uint32_t load_percent)
{
    struct table table = {.transactions = transactions, .tasks = tasks};
    uint32_t times[MOST_TASKS];
    do {
        set_tasks(&table, most_urgent);
        set_times(&table, load_percent, times);
    } while (!set_responses(&table, times));
    set_pairs(&table);
    return table;
}
