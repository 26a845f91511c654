/* How long a call takes. */
#ifndef TIMING_H
#define TIMING_H

#include "calls.h"

/* Something that is done again and again, about something. */
typedef void work(void *about);

double seconds_of(work *done, void *about, size_t times);
double seconds_of_one(work *done, void *about);
bool time_call(call *made, const struct input *input, double seconds[MOST_SIDES], struct answer *answer);

#endif
