/* Cliquer's search, in a process of its own that ends after a limit. */
#define _XOPEN_SOURCE 700
#include "clique.h"

#include <cliquer/cliquer.h>
#include <sys/time.h>
#include <sys/wait.h>
#include <unistd.h>

#include "timing.h"

enum { LIMIT_SECONDS = 2 };

const bool has_cliquer = true;

/* What the process of one input says. */
struct said {
    double seconds;
    uint32_t weight;
};

/* A graph, and the weight of its heaviest clique once it is found. */
struct sought {
    graph_t *graph;
    uint32_t weight;
};

/* A number of two bytes of a record. */
static int field(const uint8_t *fields, size_t at)
{
    return fields[at] + 256 * fields[at + 1];
}

/* Record k of the input's table. */
static const uint8_t *record(const struct input *input, size_t k)
{
    return input->image + 512 * (k / 15) + 8 + 32 * (k % 15);
}

/* How many records of a kind the input's table has. */
static size_t count_kind(const struct input *input, uint8_t kind)
{
    size_t last = input->bytes - 512, count = 15 * (last / 512) + input->image[last + 4], found = 0;
    for (size_t k = 0; k < count; k++)
        found += record(input, k)[0] == kind;
    return found;
}

/* The graph of the tasks with their sizes as weights. */
static graph_t *near_graph(const struct input *input)
{
    size_t first = count_kind(input, 1), tasks = count_kind(input, 2);
    graph_t *graph = graph_new((int)tasks);
    for (size_t i = 0; i < tasks; i++) {
        const uint8_t *low = record(input, first + i);
        graph->weights[i] = field(low, 20);
        for (size_t j = 0; j < tasks; j++)
            if (input->map[i] >> j & 1 && field(low, 6) < field(record(input, first + j), 6))
                GRAPH_ADD_EDGE(graph, (int)i, (int)j);
    }
    return graph;
}

/* Finds the weight. */
static void find(void *about)
{
    struct sought *sought = about;
    clique_options options = {.reorder_function = reorder_by_default};
    sought->weight = (uint32_t)clique_max_weight(sought->graph, &options);
}

/* Ends this process after so many seconds of processor time, or never with 0. */
static void end_after(time_t seconds)
{
    struct itimerval limit = {.it_value = {.tv_sec = seconds}};
    setitimer(ITIMER_PROF, &limit, NULL);
}

/* Times the search and says what it found through the pipe, unless the first search passes the limit. */
static void search_and_say(const struct input *input, int pipe_end)
{
    struct sought sought = {near_graph(input), 0};
    end_after(LIMIT_SECONDS);
    find(&sought);
    end_after(0);
    struct said said = {seconds_of_one(find, &sought), sought.weight};
    _exit(write(pipe_end, &said, sizeof said) != sizeof said);
}

/* The seconds of one search and the weight found, or false where one search takes longer than two seconds of processor time. */
bool time_clique(const struct input *input, double *seconds, uint32_t *weight)
{
    int ends[2];
    struct said said;
    if (pipe(ends) != 0)
        return false;
    pid_t child = fork();
    if (child == 0)
        search_and_say(input, ends[1]);
    close(ends[1]);
    bool answered = child > 0 && read(ends[0], &said, sizeof said) == sizeof said;
    close(ends[0]);
    if (child > 0)
        waitpid(child, NULL, 0);
    if (!answered)
        return false;
    *seconds = said.seconds;
    *weight = said.weight;
    return true;
}
