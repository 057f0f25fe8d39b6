/* A program in C that calls the checker through its header, prints the steps of three runs, and ends with 0 where each
   answer is the expected one. */
#include <stdio.h>
#include <string.h>

#include "order_check.h"

/* x := 1; read y || y := 1; read x, with two values. */
static const uint8_t sb[] = {
    'P', 'R', 2, 2, 2,
    'T', 'H', 2,
    'I', 'N', 5, 0, 0, 1, 0,
    'I', 'N', 6, 0, 1, 0, 0,
    'T', 'H', 2,
    'I', 'N', 5, 0, 1, 1, 0,
    'I', 'N', 6, 0, 0, 0, 0,
};

/* The same with a local line before it: r0 := 1; x := r0; read y || y := 1; read x. */
static const uint8_t local_sb[] = {
    'P', 'R', 2, 2, 2,
    'T', 'H', 3,
    'I', 'N', 1, 0, 0, 1, 0,
    'I', 'N', 5, 0, 0, 128, 0,
    'I', 'N', 6, 0, 1, 0, 0,
    'T', 'H', 2,
    'I', 'N', 5, 0, 1, 1, 0,
    'I', 'N', 6, 0, 0, 0, 0,
};

/* SB with a fence between the lines of thread 1: x := 1; fence; read y || y := 1; read x. */
static const uint8_t half_fenced_sb[] = {
    'P', 'R', 2, 2, 2,
    'T', 'H', 3,
    'I', 'N', 5, 0, 0, 1, 0,
    'I', 'N', 11, 0, 0, 0, 0,
    'I', 'N', 6, 0, 1, 0, 0,
    'T', 'H', 2,
    'I', 'N', 5, 0, 1, 1, 0,
    'I', 'N', 6, 0, 0, 0, 0,
};

/* With one in each thread. */
static const uint8_t fenced_sb[] = {
    'P', 'R', 2, 2, 2,
    'T', 'H', 3,
    'I', 'N', 5, 0, 0, 1, 0,
    'I', 'N', 11, 0, 0, 0, 0,
    'I', 'N', 6, 0, 1, 0, 0,
    'T', 'H', 3,
    'I', 'N', 5, 0, 1, 1, 0,
    'I', 'N', 11, 0, 0, 0, 0,
    'I', 'N', 6, 0, 0, 0, 0,
};

/* A fence beside sixteen locations. */
static const uint8_t no_room[] = {'P', 'R', 1, 16, 2, 'T', 'H', 1, 'I', 'N', 11, 0, 0, 0, 0};

/* One thread without lines, and one location. */
static const uint8_t empty_thread[] = {'P', 'R', 1, 1, 2, 'T', 'H', 0};

/* As many bytes as SB with fences needs, of which SB needs 455: seven places of two threads and two locations. Three
   steps have the bytes of a trace but one. */
static uint8_t table[26 * ORDER_FENCED_PLACE_SIZE(2, 2)];
static uint8_t trace[3 * ORDER_STEP_BYTES + 1];
static uint64_t slots[15];

static int failures = 0;

/* Compares an answer. */
static void compare(const char *name, const uint64_t answer[ORDER_FIELDS], const uint64_t expected[ORDER_FIELDS])
{
    for (int field = 0; field < ORDER_FIELDS; field++) {
        if (answer[field] != expected[field]) {
            failures++;
            printf("%s: field %d is %llu, expected %llu\n", name, field, (unsigned long long)answer[field],
                   (unsigned long long)expected[field]);
        }
    }
}

/* Checks a program with so much lent, with indexes of all lengths and without one, and compares the answers. */
static void expect(const char *name, const uint8_t *program, size_t length, size_t table_length, size_t trace_length,
                   const uint64_t expected[ORDER_FIELDS])
{
    uint64_t answer[ORDER_FIELDS];
    for (size_t index_length = 0; index_length <= sizeof slots / sizeof slots[0]; index_length++) {
        memset(answer, 0xff, sizeof answer);
        memset(slots, 0xff, sizeof slots);
        order_check_indexed(program, length, table, table_length, trace, trace_length, slots, index_length, answer);
        compare(name, answer, expected);
    }
    memset(answer, 0xff, sizeof answer);
    memset(trace, 9, sizeof trace);
    order_check(program, length, table, table_length, trace, trace_length, answer);
    compare(name, answer, expected);
}

/* Compares the whole trace after a call. */
static void expect_trace(const char *name, const uint8_t expected[sizeof trace])
{
    if (memcmp(trace, expected, sizeof trace) != 0) {
        failures++;
        printf("%s: the trace is", name);
        for (size_t at = 0; at < sizeof trace; at++) {
            printf(" %d", trace[at]);
        }
        printf("\n");
    }
}

/* The letter of a step's kind. */
static char letter(uint8_t kind)
{
    switch (kind) {
    case ORDER_LOCAL:
        return 'L';
    case ORDER_READ:
        return 'R';
    case ORDER_WRITE:
        return 'W';
    case ORDER_UPDATE:
        return 'M';
    default:
        return '?';
    }
}

/* Checks a program that is not robust, and prints the steps of the run, each with its access. Only for ORDER_NR are
   there steps in the trace, and ORDER_STEPS counts them. */
static void print_run(const uint8_t *program, size_t length)
{
    static uint8_t large_table[4096];
    static uint8_t large_trace[4096];
    uint64_t answer[ORDER_FIELDS];
    order_check(program, length, large_table, sizeof large_table, large_trace, sizeof large_trace, answer);
    if (answer[ORDER_VERDICT] != ORDER_NR) {
        failures++;
        printf("no run: verdict %d\n", (int)answer[ORDER_VERDICT]);
        return;
    }
    for (uint64_t at = 0; at < answer[ORDER_STEPS]; at++) {
        const uint8_t *step = large_trace + ORDER_STEP_BYTES * at;
        printf("ST %d %c %d %d\n", step[ORDER_STEP_THREAD], letter(step[ORDER_STEP_KIND]),
               step[ORDER_STEP_LOCATION], step[ORDER_STEP_VALUE]);
    }
}

int main(void)
{
    const uint64_t not_robust[] = {ORDER_NR, 0, 7, 3, 2, ORDER_READ, 0, 0};
    const uint64_t full[] = {ORDER_FU, ORDER_TABLE_FULL, 6, 0, 0, 0, 0, 0};
    const uint64_t robust[] = {ORDER_RB, 0, 1, 0, 0, 0, 0, 0};
    const uint64_t no_place[] = {ORDER_FU, ORDER_TABLE_FULL, 0, 0, 0, 0, 0, 0};
    const uint64_t no_program[] = {ORDER_REFUSED, 1, 0, 0, 0, 0, 0, 0};
    const uint64_t fenced[] = {ORDER_RB, 0, 26, 0, 0, 0, 0, 0};
    const uint64_t fenced_full[] = {ORDER_FU, ORDER_TABLE_FULL, 25, 0, 0, 0, 0, 0};
    const uint64_t no_fence[] = {ORDER_REFUSED, 12, 0, 0, 0, 0, 0, 0};
    const uint8_t steps[] = {1, ORDER_WRITE, 0, 1, 1, ORDER_READ, 1, 0, 2, ORDER_WRITE, 1, 1, 9};
    const uint8_t unchanged[] = {9, 9, 9, 9, 9, 9, 9, 9, 9, 9, 9, 9, 9};

    if (ORDER_PLACE_SIZE(1, 1) != 29 || ORDER_PLACE_SIZE(2, 1 + 1) != 65 || ORDER_PLACE_SIZE(8, 16) != 1681) {
        failures++;
        printf("ORDER_PLACE_SIZE is wrong\n");
    }
    if (ORDER_FENCED_PLACE_SIZE(1, 1) != 50 || ORDER_FENCED_PLACE_SIZE(2, 1 + 1) != 98 ||
        ORDER_FENCED_PLACE_SIZE(8, 15) != ORDER_PLACE_SIZE(8, 16)) {
        failures++;
        printf("ORDER_FENCED_PLACE_SIZE is wrong\n");
    }
    expect("SB", sb, sizeof sb, 455, sizeof trace, not_robust);
    expect_trace("SB", steps);
    expect("SB in a shorter table", sb, sizeof sb, 454, sizeof trace, full);
    expect_trace("SB in a shorter table", unchanged);
    expect("an empty thread", empty_thread, sizeof empty_thread, 29, 0, robust);
    expect("an empty thread and nothing lent", empty_thread, sizeof empty_thread, 0, 0, no_place);
    expect("no bytes", sb, 0, 0, 0, no_program);

    expect("SB with fences", fenced_sb, sizeof fenced_sb, sizeof table, 0, fenced);
    expect("SB with fences in a shorter table", fenced_sb, sizeof fenced_sb, sizeof table - 1, 0, fenced_full);
    expect("a fence beside sixteen locations", no_room, sizeof no_room, sizeof table, 0, no_fence);

    print_run(sb, sizeof sb);
    print_run(local_sb, sizeof local_sb);
    print_run(half_fenced_sb, sizeof half_fenced_sb);

    /* A trace that is too short by a byte, then one of the length that is wanted, in bytes. */
    const uint64_t short_trace[] = {ORDER_REFUSED, ORDER_TRACE_SHORT, 0, 3 * ORDER_STEP_BYTES, 0, 0, 0, 0};
    expect("SB with a short trace", sb, sizeof sb, 455, 3 * ORDER_STEP_BYTES - 1, short_trace);
    expect_trace("SB with a short trace", unchanged);
    expect("SB with the wanted trace", sb, sizeof sb, 455, (size_t)short_trace[ORDER_STEPS], not_robust);
    expect_trace("SB with the wanted trace", steps);
    return failures == 0 ? 0 : 1;
}
