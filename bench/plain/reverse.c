/* The reverse call: what a patch puts in is taken out, and what it takes out is put in. */

/* Writes the records from one number up to another, each with this way, and answers where they end. */
static uint8_t *write_part(const uint8_t *patch, size_t from, size_t to, uint8_t way, uint8_t *at)
{
    for (size_t k = from; k < to; k++) {
        write_turned(record_at(patch, k), way, at);
        at += RECORD_BYTES;
    }
    return at;
}

/* Writes the image of the reverse of an accepted patch, and answers its length. */
static size_t write_reverse(const uint8_t *patch, size_t bytes, uint8_t *room)
{
    uint8_t flat[FLAT_BYTES];
    size_t count = record_count(patch, bytes), first = first_put_in(patch, count);
    uint8_t *end = write_part(patch, first, count, 0, flat);
    end = write_part(patch, 0, first, 1, end);
    return write_image(PATCH, flat, (size_t)(end - flat), room);
}

/* Writes the reverse of a patch. A refusal writes nothing. */
struct plain_reversed plain_reverse(const uint8_t *patch, size_t patch_bytes, uint8_t *room, size_t room_bytes)
{
    struct plain_verdict verdict = patch_verdict(patch, patch_bytes);
    if (verdict.number != 0)
        return (struct plain_reversed){.number = verdict.number, .place = verdict.place};
    if (room_bytes < patch_bytes)
        return (struct plain_reversed){.number = 11};
    return (struct plain_reversed){.length = (uint32_t)write_reverse(patch, patch_bytes, room)};
}
