/* Sets of places, bit j of a number for place j, and rows of them. */

/* Whether bit j of a number is set. */
static bool is_set(uint64_t bits, size_t j)
{
    return (bits >> j) % 2 == 1;
}

/* The lowest place of a set that is not empty. */
static size_t lowest(uint64_t set)
{
    return (size_t)__builtin_ctzll(set);
}

/* The places below count. */
static uint64_t all_below(size_t count)
{
    return count == 64 ? UINT64_MAX : ((uint64_t)1 << count) - 1;
}

/* Sets every cell that is set in the first count rows both ways: cell j of row i, and cell i of row j. */
static void set_both_ways(const uint64_t rows[64], size_t count, uint64_t both[64])
{
    memset(both, 0, 64 * sizeof both[0]);
    for (size_t place = 0; place < count; place++) {
        both[place] |= rows[place];
        for (uint64_t rest = rows[place]; rest != 0; rest &= rest - 1)
            both[lowest(rest)] |= (uint64_t)1 << place;
    }
}

/* Closes the first count rows in place: cell j of row i is set where a path of set cells leads from i to j. */
static void close_rows(uint64_t rows[64], size_t count)
{
    for (size_t k = 0; k < count; k++) {
        uint64_t further = rows[k];
        if (further == 0)
            continue;
        for (size_t i = 0; i < count; i++)
            if (is_set(rows[i], k))
                rows[i] |= further;
    }
}

/* The places that lead to one of a set or that one of it leads to, by the first count rows. */
static uint64_t joined_to(const uint64_t rows[64], size_t count, uint64_t set)
{
    uint64_t joined = 0;
    for (size_t i = 0; i < count; i++) {
        if ((rows[i] & set) != 0)
            joined |= (uint64_t)1 << i;
        if (is_set(set, i))
            joined |= rows[i];
    }
    return joined;
}
