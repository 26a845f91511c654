/* Stands in for Cliquer where it cannot be had. */
#include "clique.h"

const bool has_cliquer = false;

/* Finds nothing. */
bool time_clique(const struct input *input, double *seconds, uint32_t *weight)
{
    (void)input;
    *seconds = 0;
    *weight = 0;
    return false;
}
