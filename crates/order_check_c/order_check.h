/*
 * The order checker for C: does a small concurrent program behave on a release/acquire machine exactly as on a
 * sequentially consistent (SC) one?
 *
 * `rt lib` in crates/order_check_c proves it and makes out/liborder_check_c.a there, for x86-64 Linux and a
 * processor of level x86-64-v2:
 *
 *     cc -Icrates/order_check_c caller.c crates/order_check_c/out/liborder_check_c.a
 *
 * Installed by ./install, with PREFIX/lib/pkgconfig in PKG_CONFIG_PATH where pkg-config does not look by itself:
 *
 *     cc caller.c $(pkg-config --cflags --libs order_check)
 *
 * docs/FORMAT.md has the bytes of a program, the checks by their numbers and the bytes of a trace; docs/LAYOUT.md has
 * the bytes of a place. A whole program that checks one and prints the answer:
 *
 *     #include <stdio.h>
 *     #include <stdlib.h>
 *     #include "order_check.h"
 *
 *     int main(void)
 *     {
 *         // Store buffering: x := 1; read y || y := 1; read x, with two values.
 *         static const uint8_t program[] = {
 *             'P', 'R', 2, 2, 2,
 *             'T', 'H', 2, 'I', 'N', 5, 0, 0, 1, 0, 'I', 'N', 6, 0, 1, 0, 0,
 *             'T', 'H', 2, 'I', 'N', 5, 0, 1, 1, 0, 'I', 'N', 6, 0, 0, 0, 0};
 *         const size_t places = 100000, slots = 2 * places, table_len = places * ORDER_PLACE_SIZE(2, 2);
 *         size_t trace_len = ORDER_STEP_BYTES;
 *         uint8_t *table = malloc(table_len), *trace = malloc(trace_len);
 *         uint64_t *index = malloc(slots * sizeof *index), answer[ORDER_FIELDS];
 *         if (!table || !trace || !index)
 *             return 2;
 *         order_check_indexed(program, sizeof program, table, table_len, trace, trace_len, index, slots, answer);
 *         if (answer[ORDER_NUMBER] == ORDER_TRACE_SHORT) {
 *             // Not robust, and the trace is too short for the steps that show it: lend what they need, call again.
 *             trace_len = (size_t)answer[ORDER_STEPS];
 *             if (!(trace = realloc(trace, trace_len)))
 *                 return 2;
 *             order_check_indexed(program, sizeof program, table, table_len, trace, trace_len, index, slots, answer);
 *         }
 *         switch (answer[ORDER_VERDICT]) {
 *         case ORDER_RB:
 *             puts("robust: all accesses may be release and acquire, and fences stay");
 *             return 0;
 *         case ORDER_NR:
 *             for (size_t step = 0; step < answer[ORDER_STEPS]; step++) {
 *                 const uint8_t *at = trace + step * ORDER_STEP_BYTES;
 *                 printf("thread %d: %c of %d at location %d\n", at[ORDER_STEP_THREAD], "LRWM"[at[ORDER_STEP_KIND]],
 *                        at[ORDER_STEP_VALUE], at[ORDER_STEP_LOCATION]);
 *             }
 *             printf("not robust: then thread %d may use the old %d of location %d\n", (int)answer[ORDER_THREAD],
 *                    (int)answer[ORDER_VALUE], (int)answer[ORDER_LOCATION]);
 *             return 1;
 *         default:
 *             // ORDER_FU, bytes that are no program, and what later versions may add: not known to be robust.
 *             printf("not decided: check %d\n", (int)answer[ORDER_NUMBER]);
 *             return 2;
 *         }
 *     }
 */
#ifndef ORDER_CHECK_H
#define ORDER_CHECK_H

#include <stddef.h>
#include <stdint.h>

#ifdef __cplusplus
extern "C" {
#endif

/* Raised by every version that changes what a caller sees. 1 had a byte a step; 2 has four, with the access; 3 wants
   exactly the bytes of the steps for ORDER_TRACE_SHORT, where 2 promised two bounds; 4 writes the first slots of an
   index only, where 3 wrote all; 5 takes up to sixteen locations, and its places have T + 2L bytes more; 6 takes
   fences, op 11, which have a location of their own after the named ones, in places and in steps, and refuses a fence
   beside sixteen named ones by check 12. A caller made for 5 works: only what has an op 11, which 5 refused, is
   answered otherwise. One made for 4 works, with fewer places in its table, unless it reads the places or has names for
   eight locations only; one made for 2 or 3 likewise, unless it reads the index. */
#define ORDER_CHECK_VERSION 6

/* The bytes of a place of the table, for T threads and L locations. For a program with a fence, an op 11 in any of its
   lines, reached or not, L is one more than its header says. */
#define ORDER_PLACE_SIZE(T, L) \
    (9 + (size_t)(T) * (7 + 4 * (size_t)(L)) + (size_t)(L) * (5 + 4 * (size_t)(L)))

/* The same for a program with a fence, of T threads and L named locations, as its header says. */
#define ORDER_FENCED_PLACE_SIZE(T, L) ORDER_PLACE_SIZE(T, (size_t)(L) + 1)

/* A call uses less stack than this, in bytes, whatever it is given. This is measured, not proved: it uses 6,500 or so. */
#define ORDER_CHECK_STACK 16384

/* The numbers of an answer, by their index. Every call writes all of them; what a verdict does not use is 0. */
enum {
    /* The verdict: one of the four below. */
    ORDER_VERDICT = 0,

    /* The number of the failed check: 1 to 9 or 12 where the bytes are no program, ORDER_TRACE_SHORT, or
       ORDER_TABLE_FULL with ORDER_FU; 0 for ORDER_RB and ORDER_NR. */
    ORDER_NUMBER = 1,

    /* How many places of the table are written, for ORDER_RB, ORDER_NR and ORDER_FU; 0 for ORDER_TRACE_SHORT, though as
       many are written as for ORDER_NR. */
    ORDER_COUNT = 2,

    /* For ORDER_NR how many steps, not bytes, the run in the trace has; for ORDER_TRACE_SHORT the wanted length of the
       trace: exactly the bytes that the steps need, ORDER_STEP_BYTES for each. */
    ORDER_STEPS = 3,

    /* For ORDER_NR, as all that follows: the lowest thread, from 1, that has a witness after these steps. A witness is
       an access of the thread's next line that release/acquire allows with a write other than the newest, where the
       newest comes in SC order before some event of that thread. */
    ORDER_THREAD = 4,

    /* The kind of its access: ORDER_READ, ORDER_WRITE or ORDER_UPDATE. */
    ORDER_KIND = 5,

    /* The location of its access, from 0: a named one, never that of the fences. */
    ORDER_LOCATION = 6,

    /* The smallest stale value of a witness of that thread: that of an older write that it reads, or comes directly
       after. */
    ORDER_VALUE = 7,

    /* How many numbers an answer has. */
    ORDER_FIELDS = 8
};

/* The verdicts. */
enum {
    /* Robust: every release/acquire run of the program, of any length, ends in thread states and an execution graph
       that some SC run reaches too; and the timestamp machine, by which the board's maker documents its cores, reaches
       exactly the thread states that SC runs reach. So its accesses may be weakened; its fences stay full fences. */
    ORDER_RB = 0,

    /* Not robust: the trace has the steps of an SC run. They are a release/acquire run too, and there the named
       access, by a write that is no longer the newest, is one step more; no SC run builds the graph after it. */
    ORDER_NR = 1,

    /* Undecided: the places did not suffice. A longer table may decide. */
    ORDER_FU = 2,

    /* Refused: ORDER_NUMBER says why. */
    ORDER_REFUSED = 3
};

/* The two checks after the search. */
enum {
    /* With ORDER_REFUSED: the program is not robust, but the trace is too short for the steps that show it. In a table
       as long as this call's, a trace of as many bytes as ORDER_STEPS says, or more, gets ORDER_NR; every shorter one
       gets ORDER_TRACE_SHORT with the same number of bytes. */
    ORDER_TRACE_SHORT = 10,

    /* With ORDER_FU. */
    ORDER_TABLE_FULL = 11
};

/* The kinds of an access, and of a step. */
enum {
    ORDER_LOCAL = 0,  /* L, a local line; only in a trace */
    ORDER_READ = 1,   /* R; a CAS that fails is one */
    ORDER_WRITE = 2,  /* W */
    ORDER_UPDATE = 3  /* M, a read-modify-write; a fence is one */
};

/* The bytes of a step in the trace, by their index. */
enum {
    /* The thread that takes the step, from 1. */
    ORDER_STEP_THREAD = 0,

    /* ORDER_LOCAL, ORDER_READ, ORDER_WRITE or ORDER_UPDATE. */
    ORDER_STEP_KIND = 1,

    /* The location of its access, from 0: for a fence L, the one after the named ones; 0 for ORDER_LOCAL. */
    ORDER_STEP_LOCATION = 2,

    /* For ORDER_READ the value read, for ORDER_WRITE and ORDER_UPDATE the value written, which is 0 for a fence; 0 for
       ORDER_LOCAL. */
    ORDER_STEP_VALUE = 3,

    /* How many bytes a step has. */
    ORDER_STEP_BYTES = 4
};

/*
 * Checks a program in lent memory. Any bytes and any lengths are answered.
 *
 * program, program_len: the program bytes. They are read only.
 *
 * table, table_len: where the search writes a place for each situation that it meets. There are table_len divided by
 *     the size of a place of them, at most 1,000,000,000; for T threads and L locations a place has
 *     ORDER_PLACE_SIZE(T, L) bytes (T and L are bytes 2 and 3 of the program, from 0), and where the program has a
 *     fence ORDER_FENCED_PLACE_SIZE(T, L). Bytes past the places written stay as they are, and so do all where the
 *     bytes are no program.
 *
 * trace, trace_len: for ORDER_NR its first ORDER_STEP_BYTES * answer[ORDER_STEPS] bytes get the steps of the run, one
 *     after the other; its other bytes stay as they are, and for every other verdict all of them do. A trace of
 *     ORDER_STEP_BYTES for each place is never too short. One that is too short gets ORDER_TRACE_SHORT: lend the
 *     answer[ORDER_STEPS] bytes that it needs, with a table as long as before, and call again. The call searches anew.
 *
 * answer: gets ORDER_FIELDS numbers.
 *
 * All memory is the caller's. The function allocates nothing, keeps no pointer and no other state after it returns,
 * and may run on several threads at once, each with memory of its own. What table, trace and answer held before
 * changes no answer. It needs ORDER_CHECK_STACK bytes of stack.
 *
 * No pointer may be null, also where its length is 0, and answer is aligned as uint64_t is. The four do not overlap,
 * and nothing else writes to them, or reads table, trace or answer, before the call returns.
 */
void order_check(const uint8_t *program, size_t program_len, uint8_t *table, size_t table_len, uint8_t *trace,
                 size_t trace_len, uint64_t answer[ORDER_FIELDS]);

/*
 * The same with a lent index, for large tables: its answer, and what it leaves in table and trace, are those of
 * order_check for every index of every length, also 0.
 *
 * index, index_len: slots by which the search finds the places of a fingerprint. As many places as half of its length
 *     (rounded down) are found by it, the first ones; those after them are compared one by one, which is many times
 *     slower. With twice as many slots as there
 *     will be places the time for a place does not grow with their number, as far as their fingerprints are spread;
 *     without an index, as in order_check, it does. What the index held before changes nothing.
 *     It stays as it is where the bytes are no program. Else its first slots are used: 1,024 of them, or all where
 *     there are fewer, and four times as many, at most index_len, whenever there are more places than half of them.
 *     Those behind them stay as they are, so that a long index costs a small program next to nothing. A slot that is
 *     used has 0 where it is empty, and for a place its fingerprint times 2^32 plus its number, from 1; docs/LAYOUT.md
 *     says in which slot a place stands.
 *
 * All that is said above of whose memory it is holds for index too: it is not null, it is aligned as uint64_t is, it
 * does not overlap the others, and nothing else uses it before the call returns.
 */
void order_check_indexed(const uint8_t *program, size_t program_len, uint8_t *table, size_t table_len, uint8_t *trace,
                         size_t trace_len, uint64_t *index, size_t index_len, uint64_t answer[ORDER_FIELDS]);

#ifdef __cplusplus
}
#endif

#endif
