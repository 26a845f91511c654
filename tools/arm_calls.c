/*
 * What the kit's C code does for a program of this repository, for Arm, since the kit has that code for x86-64 alone: the
 * error number of the C library, and the program's arguments, which glibc hands to what it calls before main.
 */
#include <errno.h>
#include <stddef.h>
#include <stdint.h>
#include <string.h>

int32_t rattle_errno(void);
void rattle_set_errno(int32_t error);
int64_t rattle_arg(size_t which, char *room, size_t length);

static size_t count;
static char **words;

__attribute__((constructor)) static void keep(int given, char **from)
{
    count = (size_t)given;
    words = from;
}

int32_t rattle_errno(void) { return errno; }

void rattle_set_errno(int32_t error) { errno = error; }

/* The length of an argument, which is put into the room; -1 where there is none, -2 where it does not fit. */
int64_t rattle_arg(size_t which, char *room, size_t length)
{
    if (which >= count) {
        return -1;
    }
    size_t needed = strlen(words[which]);
    memcpy(room, words[which], needed < length ? needed : length);
    return needed <= length ? (int64_t)needed : -2;
}
