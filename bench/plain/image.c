/* Blocks: length, check, header and fill; where records stand; writing an image of records. */

enum { BLOCK_BYTES = 512, RECORD_BYTES = 32, RECORDS_PER_BLOCK = 15, PLACES_BYTES = 480 };
enum { TABLE_BLOCKS = 23, PATCH_BLOCKS = 45 };

enum form { TABLE, PATCH };

/* The two letters that the blocks of a form begin with. */
static const char *mark_of(enum form form)
{
    return form == TABLE ? "TB" : "PA";
}

/* The most blocks that an image of a form has. */
static size_t most_blocks(enum form form)
{
    return form == TABLE ? TABLE_BLOCKS : PATCH_BLOCKS;
}

/* The little-endian number of two bytes. */
static uint32_t two_bytes(const uint8_t *at)
{
    return at[0] + 256u * at[1];
}

/* The little-endian number of four bytes. */
static uint32_t four_bytes(const uint8_t *at)
{
    return two_bytes(at) + 65536u * two_bytes(at + 2);
}

/* Whether the count bytes from here on are zero. */
static bool is_blank(const uint8_t *at, size_t count)
{
    for (size_t k = 0; k < count; k++)
        if (at[k] != 0)
            return false;
    return true;
}

/* How many records an image holds, by the count of its last block. */
static size_t record_count(const uint8_t *image, size_t bytes)
{
    size_t full = bytes / BLOCK_BYTES - 1;
    return RECORDS_PER_BLOCK * full + image[BLOCK_BYTES * full + 4];
}

/* The 32 bytes of record k. */
static const uint8_t *record_at(const uint8_t *image, size_t k)
{
    return image + BLOCK_BYTES * (k / RECORDS_PER_BLOCK) + 8 + RECORD_BYTES * (k % RECORDS_PER_BLOCK);
}

/* A refusal by its table number and place: a patch's numbers are 20 higher. */
static struct plain_verdict refusal(enum form form, uint32_t number, size_t place)
{
    struct plain_verdict verdict = {form == TABLE ? number : 20 + number, (uint32_t)place};
    return verdict;
}

/* The check that the first 510 bytes of a block call for: 511 times the last sum less all sums has byte i as often as i + 1. */
static uint32_t check_of(const uint8_t *block)
{
    uint32_t sum = 0, sums = 0;
    for (size_t i = 0; i < 510; i++) {
        sum += block[i];
        sums += sum;
    }
    return (511 * sum - sums) % 65521;
}

/* Whether block b of total may hold count records. */
static bool is_count_right(size_t total, size_t b, uint32_t count)
{
    if (b + 1 != total)
        return count == RECORDS_PER_BLOCK;
    return count <= RECORDS_PER_BLOCK && (count > 0 || total == 1);
}

/* Whether the header, the count or the zero fill of block b of total is wrong. */
static bool is_header_wrong(enum form form, size_t total, size_t b, const uint8_t *block)
{
    const char *mark = mark_of(form);
    if (block[0] != mark[0] || block[1] != mark[1] || block[2] != b || block[3] != total)
        return true;
    uint32_t count = block[4];
    if (!is_count_right(total, b, count) || !is_blank(block + 5, 3))
        return true;
    return !is_blank(block + 8 + RECORD_BYTES * count, 502 - RECORD_BYTES * count);
}

/* The verdict on the blocks: length, then checks, then headers, each over the whole image before the next. */
static struct plain_verdict frame_verdict(enum form form, const uint8_t *image, size_t bytes)
{
    size_t total = bytes / BLOCK_BYTES;
    if (bytes == 0 || bytes % BLOCK_BYTES != 0 || total > most_blocks(form))
        return refusal(form, 1, 0);
    for (size_t b = 0; b < total; b++) {
        const uint8_t *block = image + BLOCK_BYTES * b;
        if (two_bytes(block + 510) != check_of(block))
            return refusal(form, 2, b);
    }
    for (size_t b = 0; b < total; b++)
        if (is_header_wrong(form, total, b, image + BLOCK_BYTES * b))
            return refusal(form, 3, b);
    return (struct plain_verdict){0, 0};
}

/* Writes the whole of block b of total. */
static void write_block(enum form form, size_t total, size_t b, const uint8_t *records, size_t bytes, uint8_t *block)
{
    memcpy(block, mark_of(form), 2);
    block[2] = (uint8_t)b;
    block[3] = (uint8_t)total;
    block[4] = (uint8_t)(bytes / RECORD_BYTES);
    memset(block + 5, 0, 3);
    memcpy(block + 8, records, bytes);
    memset(block + 8 + bytes, 0, 502 - bytes);
    uint32_t check = check_of(block);
    block[510] = (uint8_t)(check % 256);
    block[511] = (uint8_t)(check / 256);
}

/* Writes the image of records that lie one after another, and answers its length: 0 for more blocks than the form may have. */
static size_t write_image(enum form form, const uint8_t *records, size_t bytes, uint8_t *room)
{
    size_t total = (bytes / RECORD_BYTES + RECORDS_PER_BLOCK - 1) / RECORDS_PER_BLOCK;
    if (total == 0)
        total = 1;
    if (total > most_blocks(form))
        return 0;
    for (size_t b = 0; b < total; b++) {
        size_t from = PLACES_BYTES * b;
        size_t part = bytes - from < PLACES_BYTES ? bytes - from : PLACES_BYTES;
        write_block(form, total, b, records + from, part, room + BLOCK_BYTES * b);
    }
    return BLOCK_BYTES * total;
}
