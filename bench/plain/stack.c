/* The bound call: the chain, and the path, transactions and levels bounds. */

/* Keeps only those set cells that count: both places hold tasks, and the first's threshold is below the second's priority. */
static void relate_rows(const struct tasks *tasks, const uint64_t *map, uint64_t rows[64])
{
    for (size_t i = 0; i < tasks->count; i++) {
        uint64_t higher = 0;
        for (size_t j = 0; j < tasks->count; j++)
            if (tasks->thresholds[i] < tasks->priorities[j])
                higher += (uint64_t)1 << j;
        rows[i] = higher & map[i];
    }
}

/* The largest of the sums at the places of a set, or 0. */
static uint32_t largest_at(const uint32_t sums[64], uint64_t set)
{
    uint32_t largest = 0;
    while (set != 0) {
        size_t place = lowest(set);
        set -= (uint64_t)1 << place;
        if (largest < sums[place])
            largest = sums[place];
    }
    return largest;
}

/* At each place of the cover the largest sum over paths inside it that start there, by falling priority. */
static void path_sums(const struct setting *setting, uint64_t cover, uint32_t sums[64])
{
    uint64_t rest = cover;
    for (size_t k = 0; rest != 0; k++) {
        size_t place = setting->order[k];
        if (is_set(rest, place)) {
            sums[place] = setting->sizes[place] + largest_at(sums, setting->rows[place] & cover);
            rest -= (uint64_t)1 << place;
        }
    }
}

/* The largest sum over paths inside the cover. */
static uint32_t path_bound(const struct setting *setting, uint64_t cover)
{
    uint32_t sums[64];
    path_sums(setting, cover, sums);
    return largest_at(sums, cover);
}

/* For each transaction the path bound of the tasks with its number, added up. */
static uint32_t transaction_bound(const uint8_t *image, size_t transactions, const struct tasks *tasks,
                                  const struct setting *setting)
{
    uint32_t total = 0;
    for (size_t t = 0; t < transactions; t++) {
        uint32_t number = two_bytes(record_at(image, t) + 2);
        uint64_t own = 0;
        for (size_t i = 0; i < tasks->count; i++)
            if (tasks->transactions[i] == number)
                own += (uint64_t)1 << i;
        total += path_bound(setting, own);
    }
    return total;
}

/* For each priority in use the largest size, added up. */
static uint32_t level_bound(const struct tasks *tasks)
{
    uint32_t largest[256] = {0}, sum = 0;
    for (size_t i = 0; i < tasks->count; i++)
        if (largest[tasks->priorities[i]] < tasks->sizes[i])
            largest[tasks->priorities[i]] = tasks->sizes[i];
    for (size_t priority = 0; priority < 256; priority++)
        sum += largest[priority];
    return sum;
}

/* Reads the tasks of an accepted table and relates them by the map. */
static void read_related(const uint8_t *image, const struct judged *table, const uint64_t *map, struct tasks *tasks,
                         struct setting *setting)
{
    read_tasks(image, table, tasks);
    setting->sizes = tasks->sizes;
    relate_rows(tasks, map, setting->rows);
}

/* Writes the ids of the best chain. */
static void write_ids(const struct tasks *tasks, const struct chains *chains, uint16_t *ids)
{
    for (size_t k = 0; k < chains->best_length; k++)
        ids[k] = (uint16_t)tasks->ids[chains->best[k]];
}

/* Reads the tasks of an accepted table, relates them by the map, and orders their places by falling priority. */
static void prepare(const uint8_t *image, const struct judged *table, const uint64_t *map, struct tasks *tasks,
                    struct setting *setting)
{
    read_related(image, table, map, tasks, setting);
    order_by_falling(tasks->priorities, tasks->count, setting->order);
}

/* The answer of an accepted call over what was prepared, with the chain's ids written to the room. */
static struct plain_bounds find(const uint8_t *image, const struct judged *table, const struct tasks *tasks,
                                const struct setting *setting, uint16_t *ids)
{
    struct chains chains;
    find_heaviest(setting, tasks->count, &chains);
    uint32_t path = path_bound(setting, all_below(tasks->count));
    uint32_t transactions = transaction_bound(image, table->transactions, tasks, setting);
    uint32_t levels = level_bound(tasks);
    write_ids(tasks, &chains, ids);
    return (struct plain_bounds){.tasks = (uint32_t)tasks->count, .chain = chains.best_weight, .path = path,
                                 .transactions = transactions, .levels = levels,
                                 .length = (uint32_t)chains.best_length};
}

/* The chain and the four bounds of a table image over a lent map of any contents. A refusal writes nothing. */
struct plain_bounds plain_bounds(const uint8_t *image, size_t bytes, const uint64_t *map, size_t row_count,
                                 uint16_t *ids, size_t id_count)
{
    struct judged table;
    struct tasks tasks;
    struct setting setting;
    struct plain_verdict verdict = table_verdict(image, bytes, &table);
    if (verdict.number != 0)
        return (struct plain_bounds){.number = verdict.number, .place = verdict.place};
    if (row_count < 64 || id_count < 64)
        return (struct plain_bounds){.number = 11};
    prepare(image, &table, map, &tasks, &setting);
    return find(image, &table, &tasks, &setting, ids);
}
