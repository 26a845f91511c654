/*
 * Siodlomil from C: who may preempt whom in a task table and why, how much stack the tasks need at most, how much each may
 * still grow, patches to a table, and taking a patch off again.
 *
 * For x86-64 and 64-bit Arm, in C99 and C++. Link with libsiodlomil.a, which `tools/archive` writes for either; it uses
 * memcpy and memset of the C library, and nothing else. Every function in it is proved to meet its promise for every
 * input; the promises stand above each function in crates/siodlomil/src/lib.rt, and below in words.
 *
 * What holds for every call:
 *
 * - All memory is the caller's. A call keeps no pointer, allocates nothing, makes no system call and has no state of its
 *   own, so calls may run at the same time, each on its own buffers.
 * - A call takes stack, at most so many bytes of it, as tools/stack-use reads off the two archives:
 *
 *                             x86-64       Arm
 *     siodlomil_map              8,096     8,752
 *     siodlomil_bounds          33,688    34,896
 *     siodlomil_bounds_within   34,232    35,488
 *     siodlomil_room_left       32,104    32,880
 *     siodlomil_chain_through   30,904    32,064
 *     siodlomil_reason           2,464     2,336
 *     siodlomil_patch           47,424    49,792
 *     siodlomil_reverse         21,808    21,744
 *     siodlomil_offending        2,544     2,480
 *
 *   To that come what memcpy and memset use and up to 160 bytes: arguments that have no register, and on Arm an inline
 *   function at the end of this header where a compiler does not put it in line.
 * - Each pointer is followed by its length, counted in elements. It points to that many elements, aligned for their type,
 *   and is not NULL even where the length is 0.
 * - A buffer that is written overlaps no other buffer of the same call. Buffers that are only read may overlap each other.
 * - Any bytes are an image to the library: whatever is wrong with them is told by a refusal.
 * - An accepted call answers number 0 and place 0. A refused one answers the number and place of its refusal, all else is
 *   0, and nothing is written: every lent buffer is as it was. (Refusal 13 answers two bounds besides; siodlomil_offending
 *   refuses nothing.)
 *
 * Records are 32 bytes each, and their numbers are little-endian. Bytes that are not named here are 0.
 *
 *   kind         bytes  field         values                                  unit
 *   every        0      kind          1 transaction, 2 task, 3 pair           -
 *   every        31     way           0; in a patch 0 or 1                    -
 *   transaction  2-3    number        1 to 65,535                             -
 *   transaction  8-11   period T      1 to 1,000,000,000                      time
 *   task         2-3    id            1 to 65,535                             -
 *   task         4-5    transaction   1 to 65,535                             -
 *   task         6-7    priority P    1 to 255                                -
 *   task         8-11   offset O      0 to 999,999,999, below T               time
 *   task         12-15  jitter J      0 to 1,000,000,000, or 4,294,967,295    time
 *   task         16-19  response R    O to 2,000,000,000                      time
 *   task         20-21  stack S       1 to 65,535                             bytes
 *   task         22     threshold     0, or P to 255                          -
 *   pair         1      sort          0 one-way, 1 precedence                 -
 *   pair         2-3    first task    1 to 65,535                             -
 *   pair         4-5    second task   1 to 65,535, not the first              -
 *
 * A time is a number of the table's own unit, whatever unit that is, the same throughout one table; stack and bounds are
 * bytes. The response is counted from the activation of the transaction, and not from the offset.
 * A jitter of 4,294,967,295 is missing, not measured, and is read as the period of the task's transaction. A threshold of 0
 * is read as the task's priority. A larger priority is more urgent; once started, a task is preempted only by tasks of a
 * priority above its threshold. The way of a patch's record is 0 where it is taken out and 1 where it is put in.
 * A one-way pair says that its first task is not preempted by its second. A precedence pair says that its first task comes
 * before its second. A task comes before another where a path of one or more precedence pairs leads from it to the other; of
 * two such tasks neither is preempted by the other, named in one pair or not. No path leads through a one-way pair.
 *
 * Refusals. Checks run in the order that each function names; each runs over the whole image before the next, and the
 * lowest place wins. Blocks and records are counted from 0 through the image.
 *
 *   number  place          given when
 *   1       0              length 0, not a multiple of 512, or above 11,776 bytes
 *   2       block          a block's check is wrong
 *   3       block          header, record count or zero fill of a block is wrong
 *   4       record         unknown kind, or a byte that has to be 0 is not
 *   5       record         not after the record before it, in the image's order
 *   6       record         a field out of range, a pair's byte 1 above 1, or a task paired with itself
 *   7       kind           too many of a kind: 16 transactions, 64 tasks, 256 pairs
 *   8       record         transaction or task not listed, or offset not below the period
 *   9       patch record   a record to take out is not in the base, byte for byte
 *   10      0              the outcome of a patch breaks order, 7, 8 or 14
 *   11      0              a lent map or room is too short
 *   13      0              the rule of siodlomil_bounds_within opens more chains than its limit
 *   14      task id        a task comes before itself; the lowest id of such a task
 *   15      0              an id that is asked for is not listed
 *   21-27   as for 1-7     1 to 7 for a patch: 23,040 bytes at most (21); byte 31 of a record neither 0 nor 1 (24); too many
 *                          taken out, or too many put in (27)
 *
 * An accepted image with one byte changed, or with two unequal neighbours among the first 510 bytes of a block changed
 * over, is refusal 2 at that block, and 22 for a patch, on an accepted base or to be reversed. Two changes in one block can
 * cancel.
 */
#ifndef SIODLOMIL_H
#define SIODLOMIL_H

#include <stddef.h>
#include <stdint.h>

#if !defined(__LP64__) || !(defined(__x86_64__) || defined(__aarch64__))
#error "siodlomil.h is for x86-64 and 64-bit Arm, with pointers of 64 bits"
#endif

#ifdef __cplusplus
extern "C" {
#endif

/* The version of the library; CHANGELOG.md says what each changed. */
#define SIODLOMIL_VERSION "0.12.1"

/* A block of an image, and a record in it. */
#define SIODLOMIL_BLOCK_BYTES 512
#define SIODLOMIL_RECORD_BYTES 32

/* The longest table, 23 blocks: a room of this length holds the outcome of every patch. */
#define SIODLOMIL_TABLE_BYTES 11776

/* The longest patch, 45 blocks: a room of this length holds the reverse of every patch. */
#define SIODLOMIL_PATCH_BYTES 23040

/* The rows of a map, a 64-bit number for each. */
#define SIODLOMIL_MAP_ROWS 64

/* The entries of a room for a chain's ids. */
#define SIODLOMIL_CHAIN_IDS 64

/* The entries of a room for what each task may still grow. */
#define SIODLOMIL_ROOM_FIGURES 64

/* Why a task may be preempted by another: the first of these rules that holds. */
#define SIODLOMIL_REASON_TRANSACTION 1 /* they are of different transactions */
#define SIODLOMIL_REASON_JITTER 2      /* the jitter of the high task is above the distance of their offsets, or missing */
#define SIODLOMIL_REASON_RESPONSE 3    /* the low task may not yet have ended when the high one is activated again */

/* Why it may not: the first of these rules that forbids it. */
#define SIODLOMIL_REASON_PRIORITY 4 /* the high task is not above the low one's threshold; so a task with itself */
#define SIODLOMIL_REASON_PAIR 5     /* a one-way pair forbids it, or one of the two comes before the other */
#define SIODLOMIL_REASON_TIMING 6   /* neither jitter nor response reaches */

/* What siodlomil_map answers. */
typedef struct siodlomil_map_answer {
    uint32_t number;
    uint32_t place;
} siodlomil_map_answer;

/* What siodlomil_bounds answers. */
typedef struct siodlomil_bounds_answer {
    uint32_t number;
    uint32_t place;
    uint32_t tasks;        /* how many tasks the table has */
    uint32_t chain;        /* the chain bound: the reserve that the shared stack needs, in bytes */
    uint32_t path;         /* the path bound */
    uint32_t transactions; /* the transactions bound */
    uint32_t levels;       /* the levels bound */
    uint32_t length;       /* how many ids of the chain are written */
} siodlomil_bounds_answer;

/* What siodlomil_bounds_within answers: what siodlomil_bounds does, and one field more. */
typedef struct siodlomil_bounds_within_answer {
    uint32_t number;
    uint32_t place;
    uint32_t tasks;
    uint32_t chain;
    uint32_t path;         /* known with refusal 13 too */
    uint32_t transactions; /* known with refusal 13 too */
    uint32_t levels;
    uint32_t length;
    uint32_t opened; /* how many chains were opened; never above the limit */
} siodlomil_bounds_within_answer;

/* What siodlomil_room_left answers. */
typedef struct siodlomil_room_left_answer {
    uint32_t number;
    uint32_t place;
} siodlomil_room_left_answer;

/* What siodlomil_chain_through answers. */
typedef struct siodlomil_chain_through_answer {
    uint32_t number;
    uint32_t place;
    uint32_t weight; /* what the chain weighs, in bytes */
    uint32_t length; /* how many ids of the chain are written */
} siodlomil_chain_through_answer;

/* What siodlomil_reason answers. */
typedef struct siodlomil_reason_answer {
    uint32_t number;
    uint32_t place;
    uint32_t reason; /* one of SIODLOMIL_REASON_..., or 0 where the call is refused */
} siodlomil_reason_answer;

/* What siodlomil_patch answers. */
typedef struct siodlomil_patch_answer {
    uint32_t number;
    uint32_t place;
    uint32_t touched; /* how many tasks of the outcome the patch touches */
    uint32_t length;  /* how many bytes of the outcome are written */
} siodlomil_patch_answer;

/* What siodlomil_reverse answers. */
typedef struct siodlomil_reverse_answer {
    uint32_t number;
    uint32_t place;
    uint32_t length; /* how many bytes of the reverse are written: as many as the patch has */
} siodlomil_reverse_answer;

/* What siodlomil_offending answers. */
typedef struct siodlomil_offending_answer {
    uint64_t at;
    uint64_t length;
} siodlomil_offending_answer;

/*
 * The archive writes an answer of more than 16 bytes through a pointer, its first argument. On x86-64 that is how C returns
 * such an answer. On Arm C hands the pointer over in another register, so there a program calls an inline function, at the
 * end of this header, which calls the archive's. Programs look the same on both. Another language, which does not read this
 * header, has to declare siodlomil_bounds on Arm as siodlomil_bounds_into is declared there, and siodlomil_bounds_within
 * likewise.
 */
#ifdef __x86_64__
#define SIODLOMIL_LONG_ANSWER
#define SIODLOMIL_LINKED_AS(name)
#else
#define SIODLOMIL_LONG_ANSWER static inline
#define SIODLOMIL_LINKED_AS(name) __asm__(name)
#endif

/*
 * Fills a map from a table image: refusals 1 to 8, 14, then 11.
 *
 * image  read: the table image.
 * map    written: at least 64 rows. Bit j of row i, counted from the lowest, is set where the task at place i may be
 *        preempted by the task at place j; a task's place is its rank among the table's tasks, from 0. Rows and bits at
 *        or beyond the number of tasks are 0. Rows beyond the 64 keep their values.
 *
 * A jitter that is missing is read as the period, which is above every distance: such a task may preempt each task of its
 * transaction that has a threshold below its priority, unless a one-way pair forbids it or one of the two comes before the
 * other.
 */
siodlomil_map_answer siodlomil_map(const uint8_t *image, size_t image_bytes, uint64_t *map, size_t map_rows);

/*
 * Finds the four bounds of a table image, and the chain that reaches the first: refusals 1 to 8, 14, then 11.
 *
 * image  read: the table image.
 * map    read: at least 64 rows, of any contents. A set bit counts only where both places hold tasks and the first one's
 *        threshold is below the second one's priority.
 * ids    written: at least 64 entries. The heaviest chain by its tasks' ids, lowest priority first; of chains that weigh
 *        the same the first, compared id by id. Entries beyond the answered length keep their values.
 *
 * Lend the map that siodlomil_map filled in for this image, or that siodlomil_patch wrote with it from such a map. The map is
 * not checked: with other contents the bounds are those of that map, with number 0, and the reserve may be too small.
 *
 * Levels go by priorities, whatever the thresholds are. Always chain <= path <= levels, and chain <= transactions; none is
 * above 4,194,240, which is 64 tasks of 65,535 bytes. A table without tasks has 0 for each, and no ids.
 */
SIODLOMIL_LONG_ANSWER siodlomil_bounds_answer
siodlomil_bounds(const uint8_t *image, size_t image_bytes, const uint64_t *map, size_t map_rows, uint16_t *ids,
                 size_t ids_entries) SIODLOMIL_LINKED_AS("siodlomil_bounds_by_value");

/*
 * The same with a limit on the chains that the rule below opens: refusals 1 to 8, 14, then 11, then 13.
 *
 * image  read: the table image.
 * map    read: at least 64 rows, of any contents, as for siodlomil_bounds.
 * ids    written: at least 64 entries, as for siodlomil_bounds. With refusal 13 every entry keeps its value.
 * limit  how many chains the rule may open, 0 to 4,294,967,295.
 *
 * Opened chains are counted by this rule. The empty chain is opened first. An opened chain that is heavier than the best so
 * far becomes the best. It is then extended by each task that may preempt all of it, in order of id, and each such chain is
 * opened in turn; but only if its weight and the path bound of those tasks, asked once before the first, are together above
 * the best.
 *
 * Where the rule opens more chains than the limit, which it always does for a limit of 0, the answer is refusal 13 at place
 * 0. Then path and transactions are the bounds of siodlomil_bounds all the same, and all else is 0; neither is below the
 * chain bound, so over the map that siodlomil_map filled in, or siodlomil_patch wrote from such a map, the smaller of them is
 * enough as a reserve. Otherwise all fields and ids are those of siodlomil_bounds, and opened is the number of chains that the
 * rule opens. That depends on image and map alone: a limit of just that number is enough, and one less is not.
 *
 * Counting ends where the limit is passed, so a call that gives up takes at most a time in proportion to the limit; an
 * accepted one takes the time of siodlomil_bounds besides, whose search has no limit.
 */
SIODLOMIL_LONG_ANSWER siodlomil_bounds_within_answer
siodlomil_bounds_within(const uint8_t *image, size_t image_bytes, const uint64_t *map, size_t map_rows, uint16_t *ids,
                        size_t ids_entries, uint32_t limit) SIODLOMIL_LINKED_AS("siodlomil_bounds_within_by_value");

/*
 * How many bytes each task of a table image may still grow within a reserve: refusals 1 to 8, 14, then 11.
 *
 * image    read: the table image.
 * map      read: at least 64 rows, of any contents, as for siodlomil_bounds.
 * reserve  the bytes that the shared stack has, 0 to 4,294,967,295.
 * room     written: at least 64 entries. For the task at each place the reserve less the weight of the heaviest chain that
 *          contains it, first, last or between. Entries of places without a task and entries beyond the 64 keep their
 *          values.
 *
 * A figure of 0 or more, added to the task's stack S, keeps every chain through the task within the reserve, and one byte
 * more does not; S itself may be 65,535 at most. Each figure is for its task alone: two tasks of one chain share what is
 * left. A negative figure says that a chain through the task is above the reserve already. The least figure is the reserve
 * less the chain bound of siodlomil_bounds; figures are from -4,194,240 to 4,294,967,294.
 */
siodlomil_room_left_answer siodlomil_room_left(const uint8_t *image, size_t image_bytes, const uint64_t *map,
                                               size_t map_rows, uint32_t reserve, int64_t *room, size_t room_entries);

/*
 * Shows the heaviest chain of a table image that contains one task: refusals 1 to 8, 14, then 15, then 11.
 *
 * image  read: the table image.
 * map    read: at least 64 rows, of any contents, as for siodlomil_bounds.
 * id     the id of the task. An id that the table does not list is refusal 15, however long map and room are; 0 and numbers
 *        above 65,535 are never listed.
 * ids    written: at least 64 entries. The heaviest chain that contains the task by its tasks' ids, lowest priority first;
 *        of such chains that weigh the same the first, compared id by id. Entries beyond the answered length keep their
 *        values.
 *
 * The reserve less the weight is the task's figure of siodlomil_room_left. For a task of the chain that siodlomil_bounds
 * shows, the chain shown here is that chain.
 */
siodlomil_chain_through_answer siodlomil_chain_through(const uint8_t *image, size_t image_bytes, const uint64_t *map,
                                                       size_t map_rows, uint32_t id, uint16_t *ids, size_t ids_entries);

/*
 * Why the task low may be preempted by the task high, or why not: refusals 1 to 8, 14, then 15.
 *
 * image  read: the table image.
 * low    the id of one task. An id that the table does not list is refusal 15; 0 and numbers above 65,535 are never listed.
 * high   the id of the other, likewise.
 *
 * The bit of the two in the table's map is set exactly where the reason is one of the first three. With low and high
 * exchanged it is another question.
 */
siodlomil_reason_answer siodlomil_reason(const uint8_t *image, size_t image_bytes, uint32_t low, uint32_t high);

/*
 * Applies a patch image to a table image: refusals 1 to 8 and 14 for the base, 21 to 27 for the patch, then 9, 10 and 11.
 *
 * base      read: the table image that is patched.
 * patch     read: the patch image.
 * base_map  read: at least 64 rows, the map of the base.
 * room      written: the outcome's table image. At least as long as that; 11,776 bytes are always enough. Bytes beyond the
 *           answered length keep their values.
 * new_map   written: at least 64 rows. A bit for two tasks that the patch does not touch is the base map's at their old
 *           places, any other is decided from the outcome. Rows beyond the 64 keep their values.
 *
 * Records are compared byte for byte: a missing jitter is not equal to a written one, even to one that is the period, nor
 * a threshold of 0 to the priority written out.
 * A task is touched where a patch record is its own record, names it in a pair, or is its transaction's record; and where
 * the record is a precedence pair and the task comes before or after one of its two, in the base or in the outcome. Where
 * base_map is what siodlomil_map fills in for the base, new_map is what it would fill in for the outcome.
 */
siodlomil_patch_answer siodlomil_patch(const uint8_t *base, size_t base_bytes, const uint8_t *patch, size_t patch_bytes,
                                       const uint64_t *base_map, size_t base_map_rows, uint8_t *room, size_t room_bytes,
                                       uint64_t *new_map, size_t new_map_rows);

/*
 * Writes the reverse of a patch image, which takes the patch off again: refusals 21 to 27 for the patch, then 11.
 *
 * patch  read: the patch image. No base is needed, and a patch that no table would accept has a reverse all the same.
 * room   written: the reverse, as a patch image. At least as long as the patch; bytes beyond that keep their values.
 *
 * What the patch puts in the reverse takes out, and what the patch takes out the reverse puts in, each part in table order;
 * a record differs from the patch's in byte 31 alone. The reverse of the reverse is the patch, byte for byte.
 * Where siodlomil_patch accepts a patch, it accepts the reverse on the outcome if the map and the rooms suffice, and the
 * base image is given back byte for byte. Where the first map is what siodlomil_map fills in for the base and the second is
 * what the first call wrote, its 64 rows are given back too; how many tasks are touched may differ on the two ways.
 */
siodlomil_reverse_answer siodlomil_reverse(const uint8_t *patch, size_t patch_bytes, uint8_t *room, size_t room_bytes);

/*
 * Where refusal 9 points: the record to take out that the base lacks, as bytes of the patch image.
 *
 * base   read: the table image that was to be patched.
 * patch  read: the patch image.
 *
 * Where siodlomil_patch answers 9 for this base and patch, length is 32 and the record is patch[at] to patch[at + 31].
 * Where it answers anything else, accepted or refused, at and length are 0.
 */
siodlomil_offending_answer siodlomil_offending(const uint8_t *base, size_t base_bytes, const uint8_t *patch,
                                               size_t patch_bytes);

#ifndef __x86_64__
/* The archive's functions with long answers, each under a name for this header alone, and then as a program calls it. */
void siodlomil_bounds_into(siodlomil_bounds_answer *answer, const uint8_t *image, size_t image_bytes,
                           const uint64_t *map, size_t map_rows, uint16_t *ids, size_t ids_entries)
    SIODLOMIL_LINKED_AS("siodlomil_bounds");

static inline siodlomil_bounds_answer siodlomil_bounds(const uint8_t *image, size_t image_bytes, const uint64_t *map,
                                                       size_t map_rows, uint16_t *ids, size_t ids_entries)
{
    siodlomil_bounds_answer answer;
    siodlomil_bounds_into(&answer, image, image_bytes, map, map_rows, ids, ids_entries);
    return answer;
}

void siodlomil_bounds_within_into(siodlomil_bounds_within_answer *answer, const uint8_t *image, size_t image_bytes,
                                  const uint64_t *map, size_t map_rows, uint16_t *ids, size_t ids_entries,
                                  uint32_t limit) SIODLOMIL_LINKED_AS("siodlomil_bounds_within");

static inline siodlomil_bounds_within_answer siodlomil_bounds_within(const uint8_t *image, size_t image_bytes,
                                                                     const uint64_t *map, size_t map_rows,
                                                                     uint16_t *ids, size_t ids_entries, uint32_t limit)
{
    siodlomil_bounds_within_answer answer;
    siodlomil_bounds_within_into(&answer, image, image_bytes, map, map_rows, ids, ids_entries, limit);
    return answer;
}
#endif

#undef SIODLOMIL_LONG_ANSWER
#undef SIODLOMIL_LINKED_AS

#ifdef __cplusplus
}
#endif

#endif
