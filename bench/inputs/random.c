/* Random numbers that are the same on every machine. */
#include "table.h"

static uint64_t state;

/* Starts the row of numbers that belongs to a seed. */
void start_random(uint64_t seed)
{
    state = seed;
}

/* The next 64 random bits (splitmix64). */
static uint64_t next(void)
{
    state += 0x9e3779b97f4a7c15u;
    uint64_t z = state;
    z = (z ^ (z >> 30)) * 0xbf58476d1ce4e5b9u;
    z = (z ^ (z >> 27)) * 0x94d049bb133111ebu;
    return z ^ (z >> 31);
}

/* A number below the limit. */
uint32_t random_below(uint32_t limit)
{
    return (uint32_t)((next() >> 32) * limit >> 32);
}

/* A number from the least to the most. */
uint32_t random_from(uint32_t least, uint32_t most)
{
    return least + random_below(most - least + 1);
}
