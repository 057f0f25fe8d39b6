/* A program in C that calls the reader through its header, and ends with 0 where each answer is the expected one. */
#include <stdio.h>
#include <string.h>

#include "order_read.h"

/* Two threads, two locations, two values: x := 1; r1 := y || CAS r3 at y from 0 to r2; jump to the end if r0. */
static const uint8_t sample[] = {
    'P', 'R', 2, 2, 2,
    'T', 'H', 2,
    'I', 'N', 5, 0, 0, 1, 0,
    'I', 'N', 6, 1, 1, 0, 0,
    'T', 'H', 2,
    'I', 'N', 8, 3, 1, 0, 130,
    'I', 'N', 4, 0, 2, 128, 0,
};

/* One thread, fifteen locations, two values: fence; write 1 to 14. */
static const uint8_t fenced[] = {
    'P', 'R', 1, 15, 2,
    'T', 'H', 2,
    'I', 'N', 11, 0, 0, 0, 0,
    'I', 'N', 5, 0, 14, 1, 0,
};

/* The same with sixteen locations. */
static const uint8_t no_room[] = {
    'P', 'R', 1, 16, 2,
    'T', 'H', 2,
    'I', 'N', 11, 0, 0, 0, 0,
    'I', 'N', 5, 0, 14, 1, 0,
};

static int failures = 0;

static void expect_header(const char *name, const uint8_t *program, size_t length,
                          const struct order_read_header *expected)
{
    struct order_read_header header = order_read(program, length);
    if (memcmp(&header, expected, sizeof header) != 0) {
        failures++;
        printf("%s: number %zu, T %zu, L %zu, K %zu\n", name, header.number, header.threads, header.locations,
               header.values);
    }
}

static void expect_line(const char *name, const uint8_t *program, size_t length, size_t thread, size_t line,
                        const struct order_read_line *expected)
{
    struct order_read_line found = order_line(program, length, thread, line);
    if (memcmp(&found, expected, sizeof found) != 0) {
        failures++;
        printf("%s: op %zu, reg %zu, target %zu, A %zu %zu, B %zu %zu\n", name, found.op, found.reg, found.target,
               found.a.kind, found.a.number, found.b.kind, found.b.number);
    }
}

int main(void)
{
    const struct order_read_header accepted = {0, 2, 2, 2, {8, 25}, {2, 2}};
    const struct order_read_header no_header = {1, 0, 0, 0, {0}, {0}};
    const struct order_read_header no_record = {3, 0, 0, 0, {0}, {0}};
    const struct order_read_header with_fence = {0, 1, 15, 2, {8}, {2}};
    const struct order_read_header no_fence = {12, 0, 0, 0, {0}, {0}};
    const struct order_read_line fence = {ORDER_FENCE, 0, 0, {ORDER_NO_OPERAND, 0}, {ORDER_NO_OPERAND, 0}};
    const struct order_read_line last = {ORDER_STORE, 0, 14, {ORDER_CONSTANT, 1}, {ORDER_NO_OPERAND, 0}};
    const struct order_read_line store = {ORDER_STORE, 0, 0, {ORDER_CONSTANT, 1}, {ORDER_NO_OPERAND, 0}};
    const struct order_read_line load = {ORDER_LOAD, 1, 1, {ORDER_NO_OPERAND, 0}, {ORDER_NO_OPERAND, 0}};
    const struct order_read_line cas = {ORDER_CAS, 3, 1, {ORDER_CONSTANT, 0}, {ORDER_REGISTER, 2}};
    const struct order_read_line jump = {ORDER_JUMP, 0, 2, {ORDER_REGISTER, 0}, {ORDER_NO_OPERAND, 0}};
    const struct order_read_line no_line = {ORDER_NO_LINE, 0, 0, {ORDER_NO_OPERAND, 0}, {ORDER_NO_OPERAND, 0}};

    expect_header("the program", sample, sizeof sample, &accepted);
    expect_header("no bytes", sample, 0, &no_header);
    expect_header("a byte less", sample, sizeof sample - 1, &no_record);
    expect_line("thread 0, line 0", sample, sizeof sample, 0, 0, &store);
    expect_line("thread 0, line 1", sample, sizeof sample, 0, 1, &load);
    expect_line("thread 1, line 0", sample, sizeof sample, 1, 0, &cas);
    expect_line("thread 1, line 1", sample, sizeof sample, 1, 1, &jump);
    expect_line("past the last line", sample, sizeof sample, 1, 2, &no_line);
    expect_line("past the last thread", sample, sizeof sample, 2, 0, &no_line);
    expect_line("a line of no program", sample, sizeof sample - 1, 0, 0, &no_line);
    expect_header("a fence", fenced, sizeof fenced, &with_fence);
    expect_line("a fence", fenced, sizeof fenced, 0, 0, &fence);
    expect_line("the line after it", fenced, sizeof fenced, 0, 1, &last);
    expect_header("a fence beside sixteen locations", no_room, sizeof no_room, &no_fence);
    expect_line("a refused fence", no_room, sizeof no_room, 0, 0, &no_line);
    return failures == 0 ? 0 : 1;
}
