/*
 * Prints how many bytes of stack each call touched, on a stack that is painted before the call and looked at after it:
 *
 *     painted TABLE PATCH
 *
 * The table should nest deep. Counted from the caller's stack pointer before the call, so with what the caller puts there for
 * it: arguments that have no register, and what keeps the stack aligned.
 */
#define _DEFAULT_SOURCE
#include <stdio.h>
#include <stdlib.h>
#include <string.h>
#include <ucontext.h>

#include "siodlomil.h"

enum { STACK_BYTES = 1 << 20, PAINT = 0xa5 };

static uint8_t stack[STACK_BYTES], table[SIODLOMIL_TABLE_BYTES], patch[SIODLOMIL_PATCH_BYTES];
static uint8_t room[SIODLOMIL_PATCH_BYTES];
static uint64_t map[SIODLOMIL_MAP_ROWS], new_map[SIODLOMIL_MAP_ROWS];
static uint16_t ids[SIODLOMIL_CHAIN_IDS];
static int64_t figures[SIODLOMIL_ROOM_FIGURES];
static size_t table_bytes, patch_bytes;
static ucontext_t caller, callee;
static const uint8_t *before;

/* The stack pointer where a call is made. */
#ifdef __x86_64__
#define NOTE_STACK() __asm__ volatile("mov %%rsp, %0" : "=m"(before))
#else
#define NOTE_STACK() __asm__ volatile("mov %0, sp" : "=r"(before))
#endif

static void call_map(void)
{
    NOTE_STACK();
    siodlomil_map(table, table_bytes, map, SIODLOMIL_MAP_ROWS);
}

static void call_bounds(void)
{
    NOTE_STACK();
    siodlomil_bounds(table, table_bytes, map, SIODLOMIL_MAP_ROWS, ids, SIODLOMIL_CHAIN_IDS);
}

static void call_bounds_within(void)
{
    NOTE_STACK();
    siodlomil_bounds_within(table, table_bytes, map, SIODLOMIL_MAP_ROWS, ids, SIODLOMIL_CHAIN_IDS, UINT32_MAX);
}

static void call_room_left(void)
{
    NOTE_STACK();
    siodlomil_room_left(table, table_bytes, map, SIODLOMIL_MAP_ROWS, 0, figures, SIODLOMIL_ROOM_FIGURES);
}

static void call_chain_through(void)
{
    NOTE_STACK();
    siodlomil_chain_through(table, table_bytes, map, SIODLOMIL_MAP_ROWS, ids[0], ids, SIODLOMIL_CHAIN_IDS);
}

static void call_reason(void)
{
    NOTE_STACK();
    siodlomil_reason(table, table_bytes, ids[0], ids[1]);
}

static void call_patch(void)
{
    NOTE_STACK();
    siodlomil_patch(table, table_bytes, patch, patch_bytes, map, SIODLOMIL_MAP_ROWS, room, SIODLOMIL_TABLE_BYTES, new_map,
                    SIODLOMIL_MAP_ROWS);
}

static void call_reverse(void)
{
    NOTE_STACK();
    siodlomil_reverse(patch, patch_bytes, room, sizeof room);
}

static void call_offending(void)
{
    NOTE_STACK();
    siodlomil_offending(table, table_bytes, patch, patch_bytes);
}

/* Makes a call on the painted stack. */
static void call_painted(void (*call)(void))
{
    memset(stack, PAINT, sizeof stack);
    getcontext(&callee);
    callee.uc_stack.ss_sp = stack;
    callee.uc_stack.ss_size = sizeof stack;
    callee.uc_link = &caller;
    makecontext(&callee, call, 0);
    swapcontext(&caller, &callee);
}

/* Prints how far down a call touched the stack. */
static void measure(const char *name, void (*call)(void))
{
    size_t untouched = 0;
    call_painted(call);
    while (untouched < sizeof stack && stack[untouched] == PAINT) {
        untouched++;
    }
    printf("%s %zu\n", name, (size_t)(before - (stack + untouched)));
}

static size_t read_file(const char *path, uint8_t *to, size_t most)
{
    FILE *file = fopen(path, "rb");
    if (file == NULL) {
        perror(path);
        exit(EXIT_FAILURE);
    }
    size_t bytes = fread(to, 1, most, file);
    fclose(file);
    return bytes;
}

int main(int count, char **words)
{
    if (count != 3) {
        fprintf(stderr, "usage: painted TABLE PATCH\n");
        return EXIT_FAILURE;
    }
    table_bytes = read_file(words[1], table, sizeof table);
    patch_bytes = read_file(words[2], patch, sizeof patch);
    measure("siodlomil_map", call_map);
    measure("siodlomil_bounds", call_bounds);
    measure("siodlomil_bounds_within", call_bounds_within);
    measure("siodlomil_room_left", call_room_left);
    measure("siodlomil_chain_through", call_chain_through);
    measure("siodlomil_reason", call_reason);
    measure("siodlomil_patch", call_patch);
    measure("siodlomil_reverse", call_reverse);
    measure("siodlomil_offending", call_offending);
    return EXIT_SUCCESS;
}
