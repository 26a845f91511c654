/* Who may preempt whom: the tasks read once, the forbidden pairs, the decision for two tasks, and the map call. */

/* Why a task may be preempted by another, the first three, or why not: as the reason call answers them. */
enum reason { TRANSACTION = 1, JITTER, RESPONSE, PRIORITY, PAIR, TIMING };

/* Each field of the tasks by their places, and the period of each task's transaction. */
struct tasks {
    size_t count;
    uint32_t ids[64], transactions[64], priorities[64], offsets[64], jitters[64], responses[64], sizes[64], thresholds[64],
        periods[64];
};

/* The period of the transaction with this number, or 0 where it is not listed. */
static uint32_t period_in(const uint8_t *image, size_t count, uint32_t number)
{
    size_t place = place_from(image, 0, count, number);
    return place == count ? 0 : four_bytes(record_at(image, place) + 8);
}

/* Reads what a task record says to place i, with the period of its transaction; a jitter that is missing is that period, and
 * a threshold of 0 is the priority. */
static void read_task(const uint8_t *fields, uint32_t period, struct tasks *tasks, size_t i)
{
    uint32_t priority = two_bytes(fields + 6), jitter = four_bytes(fields + 12);
    tasks->ids[i] = two_bytes(fields + 2);
    tasks->transactions[i] = two_bytes(fields + 4);
    tasks->priorities[i] = priority;
    tasks->offsets[i] = four_bytes(fields + 8);
    tasks->jitters[i] = jitter == 4294967295 ? period : jitter;
    tasks->responses[i] = four_bytes(fields + 16);
    tasks->sizes[i] = two_bytes(fields + 20);
    tasks->thresholds[i] = fields[22] == 0 ? priority : fields[22];
    tasks->periods[i] = period;
}

/* Reads the tasks of an accepted table. */
static void read_tasks(const uint8_t *image, const struct judged *table, struct tasks *tasks)
{
    tasks->count = table->tasks;
    for (size_t i = 0; i < table->tasks; i++) {
        const uint8_t *fields = record_at(image, table->transactions + i);
        read_task(fields, period_in(image, table->transactions, two_bytes(fields + 4)), tasks, i);
    }
}

/* Sets cell j of row i where the task at place i is kept from being preempted by the one at place j: where one of them comes
 * before the other, or a one-way pair says so. */
static void read_barred(const uint8_t *image, const struct judged *table, const struct tasks *tasks, uint64_t rows[64])
{
    set_both_ways(table->before, table->tasks, rows);
    for (size_t k = 0; k < table->pairs; k++) {
        const uint8_t *fields = record_at(image, table->transactions + table->tasks + k);
        if (fields[1] == 0) {
            size_t first = place_of(tasks->ids, tasks->count, two_bytes(fields + 2));
            rows[first] |= (uint64_t)1 << place_of(tasks->ids, tasks->count, two_bytes(fields + 4));
        }
    }
}

/* The difference of two numbers, or 0 where the second is larger. */
static uint32_t excess(uint32_t a, uint32_t b)
{
    return a < b ? 0 : a - b;
}

/* The distance from the more urgent task's offset to the less urgent one's, by equation (7), of offsets below the period. */
static uint32_t distance(uint32_t period, uint32_t lower, uint32_t upper)
{
    return lower < upper ? period + lower - upper : lower - upper;
}

/* Why the task at place i may be preempted by the one at place j, or why not, by equation (8); the bits of barred say which
 * tasks are barred. Each cell of a map asks it, so it is to be inlined. */
static inline enum reason decide(const struct tasks *tasks, uint64_t barred, size_t i, size_t j)
{
    if (tasks->priorities[j] <= tasks->thresholds[i])
        return PRIORITY;
    if (is_set(barred, j))
        return PAIR;
    if (tasks->transactions[i] != tasks->transactions[j])
        return TRANSACTION;
    uint32_t period = tasks->periods[i];
    uint32_t apart = distance(period, tasks->offsets[i], tasks->offsets[j]);
    if (apart < tasks->jitters[j])
        return JITTER;
    return excess(period, apart) < excess(tasks->responses[i], tasks->offsets[i]) ? RESPONSE : TIMING;
}

/* Whether it may: the reason is one of the first three. */
static bool may_preempt(const struct tasks *tasks, const uint64_t barred[64], size_t i, size_t j)
{
    return decide(tasks, barred[i], i, j) <= RESPONSE;
}

/* Row i of the map: a bit for each task that may preempt the one at place i. */
static uint64_t row(const struct tasks *tasks, const uint64_t barred[64], size_t i)
{
    uint64_t row = 0;
    for (size_t j = 0; j < tasks->count; j++)
        if (may_preempt(tasks, barred, i, j))
            row += (uint64_t)1 << j;
    return row;
}

/* Fills a lent map from a table image. A refusal writes nothing. */
struct plain_verdict plain_map(const uint8_t *image, size_t bytes, uint64_t *rows, size_t row_count)
{
    struct judged table;
    struct tasks tasks;
    uint64_t barred[64];
    struct plain_verdict verdict = table_verdict(image, bytes, &table);
    if (verdict.number != 0)
        return verdict;
    if (row_count < 64)
        return refusal(TABLE, 11, 0);
    read_tasks(image, &table, &tasks);
    read_barred(image, &table, &tasks, barred);
    for (size_t i = 0; i < tasks.count; i++)
        rows[i] = row(&tasks, barred, i);
    for (size_t i = tasks.count; i < 64; i++)
        rows[i] = 0;
    return verdict;
}
