/* Cliquer's heaviest clique of the tasks of an input, where an edge says that one may preempt the other. */
#ifndef CLIQUE_H
#define CLIQUE_H

#include "input.h"

/* Whether this program was built with Cliquer. */
extern const bool has_cliquer;

bool time_clique(const struct input *input, double *seconds, uint32_t *weight);

#endif
