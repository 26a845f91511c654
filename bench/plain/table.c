/* Records: form, order, ranges, counts, references and circles; the verdict on an image as a table and as a patch. */

enum { MOST_TRANSACTIONS = 16, MOST_TASKS = 64, MOST_PAIRS = 256 };

/* What the verdict tells of a table: how many records it has, of each kind and of precedences among the pairs, and in row i of
 * before the places of the tasks that the one at place i comes before. */
struct judged {
    size_t records, transactions, tasks, pairs, precedences;
    uint64_t before[64];
};

/* Whether the bytes below 31 that are said to be 0 are 0. */
static bool has_zero_bytes(const uint8_t *fields)
{
    if (fields[0] == 1)
        return is_blank(fields + 1, 1) && is_blank(fields + 4, 4) && is_blank(fields + 12, 19);
    if (fields[0] == 2)
        return is_blank(fields + 1, 1) && is_blank(fields + 23, 8);
    return is_blank(fields + 6, 25);
}

/* Whether a record has an unknown kind, or a byte said to be 0 that isn't. */
static bool is_form_wrong(enum form form, const uint8_t *fields)
{
    if (fields[0] < 1 || fields[0] > 3 || !has_zero_bytes(fields))
        return true;
    return fields[31] > (form == TABLE ? 0 : 1);
}

/* A number that rises exactly as table order does. */
static uint64_t key(const uint8_t *fields)
{
    uint64_t front = ((uint64_t)fields[0] * 65536 + two_bytes(fields + 2)) * 65536;
    return fields[0] == 3 ? front + two_bytes(fields + 4) : front;
}

/* The same with byte 31 in front. */
static uint64_t image_key(const uint8_t *fields)
{
    return (uint64_t)fields[31] * 1099511627776 + key(fields);
}

/* Whether number and period of a transaction are in range. */
static bool is_transaction_right(const uint8_t *fields)
{
    uint32_t period = four_bytes(fields + 8);
    return two_bytes(fields + 2) >= 1 && period >= 1 && period <= 1000000000;
}

/* Whether the fields of a task are in range. */
static bool is_task_right(const uint8_t *fields)
{
    uint32_t priority = two_bytes(fields + 6);
    if (two_bytes(fields + 2) < 1 || two_bytes(fields + 4) < 1 || priority < 1 || priority > 255)
        return false;
    if (fields[22] != 0 && fields[22] < priority)
        return false;
    uint32_t offset = four_bytes(fields + 8), jitter = four_bytes(fields + 12), response = four_bytes(fields + 16);
    if (offset > 999999999 || (jitter > 1000000000 && jitter != 4294967295))
        return false;
    return response >= offset && response <= 2000000000 && two_bytes(fields + 20) >= 1;
}

/* Whether the fields of a pair are in range. */
static bool is_pair_right(const uint8_t *fields)
{
    uint32_t first = two_bytes(fields + 2), second = two_bytes(fields + 4);
    return fields[1] <= 1 && first >= 1 && second >= 1 && first != second;
}

/* Whether a record has a field out of the range that needs no other record. */
static bool is_range_wrong(const uint8_t *fields)
{
    if (fields[0] == 1)
        return !is_transaction_right(fields);
    return fields[0] == 2 ? !is_task_right(fields) : !is_pair_right(fields);
}

/* The first record of a wrong form, or the number of records. */
static size_t first_wrong_form(enum form form, const uint8_t *image, size_t count)
{
    for (size_t k = 0; k < count; k++)
        if (is_form_wrong(form, record_at(image, k)))
            return k;
    return count;
}

/* The first record that is not after the one before it, or the number of records. */
static size_t first_wrong_order(const uint8_t *image, size_t count)
{
    if (count == 0)
        return 0;
    uint64_t before = image_key(record_at(image, 0));
    for (size_t k = 1; k < count; k++) {
        uint64_t here = image_key(record_at(image, k));
        if (here <= before)
            return k;
        before = here;
    }
    return count;
}

/* The first record with a field out of range, or the number of records. */
static size_t first_wrong_range(const uint8_t *image, size_t count)
{
    for (size_t k = 0; k < count; k++)
        if (is_range_wrong(record_at(image, k)))
            return k;
    return count;
}

/* Counts the records of each kind and way: of kind k and way w at k + 4 * w. */
static void tally(const uint8_t *image, size_t count, uint32_t counts[8])
{
    memset(counts, 0, 8 * sizeof counts[0]);
    for (size_t k = 0; k < count; k++) {
        const uint8_t *fields = record_at(image, k);
        counts[fields[0] + 4 * fields[31]]++;
    }
}

/* 4 to 7: form, then order, then ranges, then counts, each over the whole image before the next. */
static struct plain_verdict records_verdict(enum form form, const uint8_t *image, size_t count, uint32_t counts[8])
{
    static const uint32_t most[4] = {0, MOST_TRANSACTIONS, MOST_TASKS, MOST_PAIRS};
    size_t place = first_wrong_form(form, image, count);
    if (place < count)
        return refusal(form, 4, place);
    place = first_wrong_order(image, count);
    if (place < count)
        return refusal(form, 5, place);
    place = first_wrong_range(image, count);
    if (place < count)
        return refusal(form, 6, place);
    tally(image, count, counts);
    for (size_t kind = 1; kind <= 3; kind++)
        if (counts[kind] > most[kind] || counts[kind + 4] > most[kind])
            return refusal(form, 7, kind);
    return (struct plain_verdict){0, 0};
}

/* The place of a number among the first count, which rise, or count where it is not there. */
static size_t place_of(const uint32_t *numbers, size_t count, uint32_t number)
{
    size_t low = 0, high = count;
    while (low < high) {
        size_t middle = low + (high - low) / 2;
        if (numbers[middle] < number)
            low = middle + 1;
        else
            high = middle;
    }
    return low < count && numbers[low] == number ? low : count;
}

/* The place of a number or id among count records from the first on, or count where none has it. */
static size_t place_from(const uint8_t *image, size_t first, size_t count, uint32_t number)
{
    for (size_t k = 0; k < count; k++)
        if (two_bytes(record_at(image, first + k) + 2) == number)
            return k;
    return count;
}

/* Lists the numbers or ids of count records from the first on. */
static void list_numbers(const uint8_t *image, size_t first, size_t count, uint32_t *numbers)
{
    for (size_t k = 0; k < count; k++)
        numbers[k] = two_bytes(record_at(image, first + k) + 2);
}

/* The first record that refers to something not listed, or the number of records. The precedences that it passes are counted
 * and set in the rows, since their tasks' places are at hand here. */
static size_t first_wrong_reference(const uint8_t *image, struct judged *table)
{
    uint32_t numbers[MOST_TRANSACTIONS], ids[MOST_TASKS];
    size_t transactions = table->transactions, tasks = table->tasks;
    list_numbers(image, 0, transactions, numbers);
    list_numbers(image, transactions, tasks, ids);
    for (size_t k = 0; k < table->records; k++) {
        const uint8_t *fields = record_at(image, k);
        if (fields[0] == 2) {
            size_t place = place_of(numbers, transactions, two_bytes(fields + 4));
            if (place == transactions || four_bytes(record_at(image, place) + 8) <= four_bytes(fields + 8))
                return k;
        }
        if (fields[0] == 3) {
            size_t first = place_of(ids, tasks, two_bytes(fields + 2));
            size_t second = place_of(ids, tasks, two_bytes(fields + 4));
            if (first == tasks || second == tasks)
                return k;
            if (fields[1] == 1) {
                table->before[first] |= (uint64_t)1 << second;
                table->precedences++;
            }
        }
    }
    return table->records;
}

/* The place of the first task that comes before itself, by closed rows, or the number of tasks. */
static size_t first_in_circle(const struct judged *table)
{
    for (size_t i = 0; i < table->tasks; i++)
        if (is_set(table->before[i], i))
            return i;
    return table->tasks;
}

/* The verdict on an image as a table, and what it tells of an accepted one. The rows are closed once, here. */
static struct plain_verdict table_verdict(const uint8_t *image, size_t bytes, struct judged *table)
{
    uint32_t counts[8];
    struct plain_verdict verdict = frame_verdict(TABLE, image, bytes);
    if (verdict.number != 0)
        return verdict;
    size_t count = record_count(image, bytes);
    verdict = records_verdict(TABLE, image, count, counts);
    if (verdict.number != 0)
        return verdict;
    *table = (struct judged){.records = count, .transactions = counts[1], .tasks = counts[2], .pairs = counts[3]};
    size_t unlisted = first_wrong_reference(image, table);
    if (unlisted < count)
        return refusal(TABLE, 8, unlisted);
    if (table->precedences == 0)
        return verdict;
    close_rows(table->before, table->tasks);
    size_t place = first_in_circle(table);
    if (place < table->tasks)
        return refusal(TABLE, 14, two_bytes(record_at(image, table->transactions + place) + 2));
    return verdict;
}

/* The verdict on an image as a patch. */
static struct plain_verdict patch_verdict(const uint8_t *image, size_t bytes)
{
    uint32_t counts[8];
    struct plain_verdict verdict = frame_verdict(PATCH, image, bytes);
    if (verdict.number != 0)
        return verdict;
    return records_verdict(PATCH, image, record_count(image, bytes), counts);
}
