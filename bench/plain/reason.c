/* The reason call: why the task with one id may be preempted by the task with another, or why not. */

/* Whether a pair of an accepted table names these two ids, in this order; of either sort, as a precedence pair bars them too. */
static bool is_named(const uint8_t *image, const struct judged *table, uint32_t first, uint32_t second)
{
    for (size_t k = 0; k < table->pairs; k++) {
        const uint8_t *fields = record_at(image, table->transactions + table->tasks + k);
        if (two_bytes(fields + 2) == first && two_bytes(fields + 4) == second)
            return true;
    }
    return false;
}

/* Whether one of the tasks at two places comes before the other. */
static bool is_either_before(const struct judged *table, size_t i, size_t j)
{
    return is_set(table->before[i], j) || is_set(table->before[j], i);
}

/* Why the task at place i of an accepted table may be preempted by the one at place j, or why not: only the two are read,
 * both with the first one's period, as no period is asked where they are in different transactions. */
static enum reason reason_at(const uint8_t *image, const struct judged *table, size_t i, size_t j)
{
    struct tasks two;
    const uint8_t *low = record_at(image, table->transactions + i);
    uint32_t period = period_in(image, table->transactions, two_bytes(low + 4));
    read_task(low, period, &two, 0);
    read_task(record_at(image, table->transactions + j), period, &two, 1);
    bool is_barred = is_either_before(table, i, j) || is_named(image, table, two.ids[0], two.ids[1]);
    return decide(&two, (uint64_t)is_barred << 1, 0, 1);
}

/* The reason for two ids of a table image. */
struct plain_reasoned plain_reason(const uint8_t *image, size_t bytes, uint32_t low, uint32_t high)
{
    struct judged table;
    struct plain_verdict verdict = table_verdict(image, bytes, &table);
    if (verdict.number != 0)
        return (struct plain_reasoned){.number = verdict.number, .place = verdict.place};
    size_t i = place_from(image, table.transactions, table.tasks, low);
    size_t j = place_from(image, table.transactions, table.tasks, high);
    if (i == table.tasks || j == table.tasks)
        return (struct plain_reasoned){.number = 15};
    return (struct plain_reasoned){.reason = reason_at(image, &table, i, j)};
}
