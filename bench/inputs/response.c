/* Response times of a random table, by the approximate analysis of tasks with offsets: no jitter, no blocking. */
#include "response.h"

enum { PERIOD = 10000 };

/* The tasks of one transaction that delay the task in question, by their places. */
struct group {
    size_t count, place[MOST_TASKS];
};

/* What the analysis of one table looks up: execution times, and from each task's release the time to each other's. */
struct analysis {
    const struct table *table;
    const uint32_t *times;
    uint32_t phase[MOST_TASKS][MOST_TASKS];
    struct group delaying[MOST_TRANSACTIONS];
};

/* Gathers the tasks that delay task i: those of its own priority or a higher one. */
static void gather_delaying(struct analysis *analysis, size_t i)
{
    const struct table *table = analysis->table;
    for (size_t t = 0; t < table->transactions; t++) {
        struct group *group = &analysis->delaying[t];
        group->count = 0;
        for (size_t j = 0; j < table->tasks; j++)
            if (j != i && table->task[j].transaction == table->transaction[t].number &&
                table->task[j].priority >= table->task[i].priority)
                group->place[group->count++] = j;
    }
}

/* How long a group delays within w, where its transaction's task c is released as the busy time starts. */
static uint32_t delay_from(const struct analysis *analysis, const struct group *group, size_t c, uint32_t w)
{
    uint32_t sum = 0;
    for (size_t k = 0; k < group->count; k++)
        if (analysis->phase[c][group->place[k]] < w)
            sum += analysis->times[group->place[k]];
    return sum;
}

/* The most that a group delays within w, over the tasks that may be released as the busy time starts. */
static uint32_t most_delay(const struct analysis *analysis, const struct group *group, uint32_t w)
{
    uint32_t most = 0;
    for (size_t k = 0; k < group->count; k++) {
        uint32_t sum = delay_from(analysis, group, group->place[k], w);
        most = sum > most ? sum : most;
    }
    return most;
}

/* The end of the busy time of task i in which task c of its transaction is released first, followed for two periods at most. */
static uint32_t busy_time(const struct analysis *analysis, size_t i, size_t c)
{
    const struct table *table = analysis->table;
    uint32_t own = table->task[i].transaction, w = analysis->times[i], before = 0;
    while (w != before && w <= 2 * PERIOD) {
        before = w;
        w = analysis->times[i];
        for (size_t t = 0; t < table->transactions; t++) {
            const struct group *group = &analysis->delaying[t];
            w += table->transaction[t].number == own ? delay_from(analysis, group, c, before)
                                                     : most_delay(analysis, group, before);
        }
    }
    return w;
}

/* The response time of task i from its transaction's activation. */
static uint32_t response(struct analysis *analysis, size_t i)
{
    const struct task *task = &analysis->table->task[i];
    gather_delaying(analysis, i);
    uint32_t longest = busy_time(analysis, i, i);
    for (size_t t = 0; t < analysis->table->transactions; t++) {
        const struct group *group = &analysis->delaying[t];
        for (size_t k = 0; analysis->table->transaction[t].number == task->transaction && k < group->count; k++) {
            uint32_t w = busy_time(analysis, i, group->place[k]), start = analysis->phase[group->place[k]][i];
            if (w > start && w - start > longest)
                longest = w - start;
        }
    }
    return task->offset + longest;
}

/* Sets the response times of all tasks from their execution times, and says whether each ends within its period. */
bool set_responses(struct table *table, const uint32_t *times)
{
    static struct analysis analysis;
    analysis.table = table;
    analysis.times = times;
    for (size_t c = 0; c < table->tasks; c++)
        for (size_t j = 0; j < table->tasks; j++)
            analysis.phase[c][j] = (table->task[j].offset + PERIOD - table->task[c].offset) % PERIOD;
    for (size_t i = 0; i < table->tasks; i++) {
        table->task[i].response = response(&analysis, i);
        if (table->task[i].response > PERIOD)
            return false;
    }
    return true;
}
