/* Writes cases: a line with the sizes and the class, then the bytes of the image or images and of a lent map. */
#include "table.h"

#include <stdio.h>
#include <string.h>

enum { RECORDS_PER_BLOCK = 15 };

static bool only_first;

/* The records of a table or of a patch, one after another. */
struct records {
    size_t count;
    uint8_t bytes[MOST_RECORDS][RECORD_BYTES];
};

/* Puts a little-endian number of some bytes down. */
static void put_number(uint8_t *at, uint64_t number, size_t bytes)
{
    for (size_t k = 0; k < bytes; k++)
        at[k] = (uint8_t)(number >> (8 * k));
}

/* A new record of a kind, with byte 31 as the way. */
static uint8_t *new_record(struct records *records, uint8_t kind, uint8_t way)
{
    uint8_t *fields = records->bytes[records->count++];
    memset(fields, 0, RECORD_BYTES);
    fields[0] = kind;
    fields[31] = way;
    return fields;
}

/* Adds the record of a task. */
static void add_task(struct records *records, const struct task *task, uint8_t way)
{
    uint8_t *fields = new_record(records, 2, way);
    put_number(fields + 2, task->id, 2);
    put_number(fields + 4, task->transaction, 2);
    put_number(fields + 6, task->priority, 2);
    put_number(fields + 8, task->offset, 4);
    put_number(fields + 12, task->jitter, 4);
    put_number(fields + 16, task->response, 4);
    put_number(fields + 20, task->size, 2);
}

/* Adds all records of a table. */
static void add_records(struct records *records, const struct table *table, uint8_t way)
{
    for (size_t t = 0; t < table->transactions; t++) {
        uint8_t *fields = new_record(records, 1, way);
        put_number(fields + 2, table->transaction[t].number, 2);
        put_number(fields + 8, table->transaction[t].period, 4);
    }
    for (size_t i = 0; i < table->tasks; i++)
        add_task(records, &table->task[i], way);
    for (size_t k = 0; k < table->pairs; k++) {
        uint8_t *fields = new_record(records, 3, way);
        fields[1] = (uint8_t)table->pair[k].sort;
        put_number(fields + 2, table->pair[k].first, 2);
        put_number(fields + 4, table->pair[k].second, 2);
    }
}

/* Writes the check of a block. */
static void put_check(uint8_t *block)
{
    uint32_t sum = 0;
    for (uint32_t i = 0; i < 510; i++)
        sum += (i + 1) * block[i];
    put_number(block + 510, sum % 65521, 2);
}

/* Makes the image of records, and answers its length in bytes. */
static size_t make_image(const char *mark, const struct records *records, uint8_t image[MOST_BYTES])
{
    size_t total = (records->count + RECORDS_PER_BLOCK - 1) / RECORDS_PER_BLOCK;
    total = total == 0 ? 1 : total;
    memset(image, 0, MOST_BYTES);
    for (size_t b = 0; b < total; b++) {
        uint8_t *block = image + BLOCK_BYTES * b;
        size_t from = RECORDS_PER_BLOCK * b, left = records->count - from;
        size_t held = left < RECORDS_PER_BLOCK ? left : RECORDS_PER_BLOCK;
        memcpy(block, mark, 2);
        block[2] = (uint8_t)b;
        block[3] = (uint8_t)total;
        block[4] = (uint8_t)held;
        if (held > 0)
            memcpy(block + 8, records->bytes[from], held * RECORD_BYTES);
        put_check(block);
    }
    return BLOCK_BYTES * total;
}

/* Makes the image of a table, and answers its length in bytes. */
size_t make_table(const struct table *table, uint8_t image[MOST_BYTES])
{
    static struct records records;
    records.count = 0;
    add_records(&records, table, 0);
    return make_image("TB", &records, image);
}

/* Writes from now on only the first input of each class. */
void write_only_first(void)
{
    only_first = true;
}

/* Whether an input of this class is left out, since it is not the first. */
static bool is_left_out(const char *class)
{
    static char last[80];
    bool same = strcmp(class, last) == 0;
    snprintf(last, sizeof last, "%s", class);
    return same && only_first;
}

/* Writes a table with a map that is lent for its bounds; without one its own map is lent. */
void write_table_case(const char *class, const struct table *table, const uint64_t *rows)
{
    static uint8_t image[MOST_BYTES];
    if (is_left_out(class))
        return;
    size_t bytes = make_table(table, image);
    printf("T %zu %d %s\n", bytes, rows == NULL ? 0 : 512, class);
    fwrite(image, 1, bytes, stdout);
    for (size_t i = 0; rows != NULL && i < 64; i++) {
        uint8_t row[8];
        put_number(row, rows[i], 8);
        fwrite(row, 1, 8, stdout);
    }
}

/* Writes a base and a patch. */
void write_patch_case(const char *class, const struct table *base, const struct table *out, const struct table *in)
{
    static struct records records;
    static uint8_t table[MOST_BYTES], patch[MOST_BYTES];
    if (is_left_out(class))
        return;
    size_t table_bytes = make_table(base, table);
    records.count = 0;
    add_records(&records, out, 0);
    add_records(&records, in, 1);
    size_t patch_bytes = make_image("PA", &records, patch);
    printf("P %zu %zu %s\n", table_bytes, patch_bytes, class);
    fwrite(table, 1, table_bytes, stdout);
    fwrite(patch, 1, patch_bytes, stdout);
}
