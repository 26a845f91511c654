/* Response times of a random table. */
#ifndef RESPONSE_H
#define RESPONSE_H

#include "table.h"

bool set_responses(struct table *table, const uint32_t *times);

#endif
