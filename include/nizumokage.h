/*
 * Nizumokage: start-time tables of a flight computer whose cores share one round-robin bus. C11 and C++.
 *
 * Each function takes every input and ends. It reads the slices that it is given and writes only to `out`; it keeps no state,
 * allocates nothing and calls nothing but memcpy and memset, so several threads may call it at once, each with an `out` of its
 * own that overlaps no other argument. A slice is a pointer and a number of elements; the pointer may be NULL where the number
 * is 0, and must otherwise be aligned for its elements. Stack: 12 KiB are enough for nz_make, 10 KiB for nz_verify and nz_run,
 * 3 KiB for nz_read and nz_write (docs/SPEED.md).
 *
 * Each answer is `number` 0, and then `value` is the makespan where one is named; or `number` is the refusal, `side` the input
 * it speaks of and `place` a byte offset in it, or an index (NZ_WORDS_WRONG). A refusal changes nothing in `out`; a success
 * changes only its first elements, as many as are named below. n is the plan's number of tasks.
 *
 * What is said here of each function is proved of it for all inputs; the sentences stand for the definitions in
 * crates/model/specs/, which say it exactly.
 */
#ifndef NIZUMOKAGE_H
#define NIZUMOKAGE_H

#include <stddef.h>
#include <stdint.h>

#ifdef __cplusplus
extern "C" {
#endif

/* Refusals. Those from NZ_FIELD_CUT to NZ_VALUE_OUT_OF_RANGE name the side that was read; place is the field's offset. */
enum {
    NZ_GOOD = 0,
    NZ_FIELD_CUT = 1,           /* a field is cut by the end, or the plan is empty */
    NZ_TAG_UNKNOWN = 2,         /* a tag that is unknown here or out of order */
    NZ_LENGTH_WRONG = 3,        /* not the tag's length */
    NZ_VALUE_OUT_OF_RANGE = 4,  /* cores, T, D, an execute time, an edge's end or its words */
    NZ_EDGES_NOT_RISING = 5,    /* edges do not rise by (source, target) */
    NZ_TOO_MANY = 6,            /* a 65th task or a 257th edge */
    NZ_CYCLIC = 7,              /* the edges form a cycle; place is the plan's length */
    NZ_OUTPUT_SHORT = 8,        /* `out` is too short; place 0 */
    NZ_FIELD_COUNT = 9,         /* a field too few (place: the table's length) or too many (place: 20 n) */
    NZ_CORE_UNKNOWN = 10,       /* a core that is not below cores; from here to 15, place is 20 times the task */
    NZ_MARKS_FALLING = 11,      /* R, E, W, F fall */
    NZ_EXECUTE_SHORT = 12,      /* W - E is less than the execute time */
    NZ_READ_EARLY = 13,         /* a task reads before a source's F (place: the reader's) */
    NZ_SPANS_CROSS = 14,        /* two tasks of a core at one time (place: the higher one's) */
    NZ_WINDOW_SHORT = 15,       /* a window shorter than its delay */
    NZ_SERVED_UNKNOWN = 16,     /* the core served last is not below cores; place 0 */
    NZ_WORDS_WRONG = 17         /* word counts: not 2 n of them (place: how many), or one above the declared (place: its index) */
};

enum { NZ_NEITHER = 0, NZ_PLAN = 1, NZ_TABLE = 2 };

struct nz_answer {
    uint32_t number;
    uint32_t side;
    uint64_t place;
    uint64_t value;
};

/* The verifier: accepts a table exactly when it obeys every rule for the plan; value is its makespan, the greatest F. */
struct nz_answer nz_verify(const uint8_t *plan, size_t plan_length, const uint8_t *table, size_t table_length);

/* The table reader: 5 n numbers (core, R, E, W, F of each task) at the front of out. The rules are not asked. */
struct nz_answer nz_read(const uint8_t *plan, size_t plan_length, const uint8_t *table, size_t table_length, uint32_t *out,
                         size_t out_length);

/* The table writer: 5 n given numbers as 20 n bytes at the front of out. What nz_read reads, it writes back the same. */
struct nz_answer nz_write(const uint8_t *plan, size_t plan_length, const uint32_t *numbers, size_t numbers_length, uint8_t *out,
                          size_t out_length);

/* The bus run of a table that nz_verify accepts: `last` is the core served last, `words` has the 2 n actual word counts (read,
 * write of each task), none above the declared. out gets 4 n numbers: read end, read waits, write end, write waits of each
 * task. Each end is within its window; waits are at most the phase's slots times its counted rivals. */
struct nz_answer nz_run(const uint8_t *plan, size_t plan_length, const uint8_t *table, size_t table_length, uint32_t last,
                        const uint32_t *words, size_t words_length, uint32_t *out, size_t out_length);

/* The schedule maker: the list rule's table as 20 n bytes at the front of out, which nz_verify accepts with the same makespan;
 * value is that makespan. */
struct nz_answer nz_make(const uint8_t *plan, size_t plan_length, uint8_t *out, size_t out_length);

#ifdef __cplusplus
}
#endif

#endif
