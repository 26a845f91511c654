/* Each call is repeated inside this process, the sides in turn, and the quickest of some rounds counts. */
#define _POSIX_C_SOURCE 200809L
#include "timing.h"

#include <string.h>
#include <time.h>

enum { ROUNDS = 5 };

/* A round does its work so often that it takes the first of these; what takes the second at once is not repeated. */
static const double SHORTEST_ROUND = 0.0005, LONGEST_REPEATED = 0.02;

/* A call on an input, and where its answer goes. */
struct made {
    call *made;
    const struct side *side;
    const struct input *input;
    struct answer *answer;
};

/* The processor time of this process. */
static double seconds_now(void)
{
    struct timespec now;
    clock_gettime(CLOCK_PROCESS_CPUTIME_ID, &now);
    return (double)now.tv_sec + 1e-9 * (double)now.tv_nsec;
}

/* The seconds that it takes to do some work so many times. */
double seconds_of(work *done, void *about, size_t times)
{
    double start = seconds_now();
    for (size_t k = 0; k < times; k++)
        done(about);
    return seconds_now() - start;
}

/* How often some work is done in a round. */
static size_t times_in_round(work *done, void *about)
{
    size_t times = 1;
    while (seconds_of(done, about, times) < SHORTEST_ROUND)
        times *= 2;
    return times;
}

/* The seconds of some work, by the quickest of some rounds; where it takes long it is done once. */
double seconds_of_one(work *done, void *about)
{
    double least = seconds_of(done, about, 1);
    if (least > LONGEST_REPEATED)
        return least;
    size_t times = times_in_round(done, about);
    for (size_t round = 0; round < ROUNDS; round++) {
        double each = seconds_of(done, about, times) / (double)times;
        least = each < least ? each : least;
    }
    return least;
}

/* Makes a call. */
static void make(void *about)
{
    const struct made *made = about;
    made->made(made->side, made->input, made->answer);
}

/* Makes the call once on each side, and says whether all give the same answer and leave the same in every lent buffer. */
static bool is_answered_alike(call *made, const struct input *input, double seconds[MOST_SIDES], struct answer *answer)
{
    static struct answer other;
    bool alike = true;
    for (size_t side = 0; side < side_count; side++) {
        struct made once = {made, sides[side], input, side == LIBRARY ? answer : &other};
        memset(once.answer, 0x5a, sizeof *once.answer);
        seconds[side] = seconds_of(make, &once, 1);
        alike = alike && memcmp(once.answer, answer, sizeof *answer) == 0;
    }
    return alike;
}

/* The seconds of one call for each side, and the library's answer. False where a side gives another answer than the library. */
bool time_call(call *made, const struct input *input, double seconds[MOST_SIDES], struct answer *answer)
{
    static struct answer room;
    struct made each[MOST_SIDES];
    bool alike = is_answered_alike(made, input, seconds, answer);
    if (!alike || seconds[GCC] > LONGEST_REPEATED)
        return alike;
    for (size_t side = 0; side < side_count; side++)
        each[side] = (struct made){made, sides[side], input, &room};
    size_t times = times_in_round(make, &each[GCC]);
    for (size_t round = 0; round < ROUNDS; round++)
        for (size_t side = 0; side < side_count; side++) {
            double now = seconds_of(make, &each[side], times) / (double)times;
            seconds[side] = now < seconds[side] ? now : seconds[side];
        }
    return true;
}
