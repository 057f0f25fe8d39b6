/*
 * The reader of the order checker for C: are these bytes a program, and what are its lines?
 *
 * `rt lib` in crates/order_read_c proves it and makes out/liborder_read_c.a there, for x86-64 Linux and a
 * processor of level x86-64-v2:
 *
 *     cc -Icrates/order_read_c caller.c crates/order_read_c/out/liborder_read_c.a
 *
 * docs/FORMAT.md lists the checks by their numbers.
 */
#ifndef ORDER_READ_H
#define ORDER_READ_H

#include <stddef.h>
#include <stdint.h>

#ifdef __cplusplus
extern "C" {
#endif

/* How many threads a program can have. */
enum { ORDER_MAX_THREADS = 8 };

/* What the bytes are. All numbers but the first are 0 where they are no program. */
struct order_read_header {
    /* 0 where they are a program, else the number of the first failed check, 1 to 9 or 12. */
    size_t number;

    /* T, L and K. L is the number of named locations: that of the fences is not among them. A program has fences where
       the op of some line is ORDER_FENCE; a place of the checker's table then counts one location more. */
    size_t threads;
    size_t locations;
    size_t values;

    /* For each thread the byte at which its lines start and how many there are; 0 past the last thread. */
    size_t starts[ORDER_MAX_THREADS];
    size_t counts[ORDER_MAX_THREADS];
};

/* The ops of a line. */
enum {
    ORDER_NO_LINE = 0, /* there is no such line, or no program */
    ORDER_SUM = 1,
    ORDER_EQUAL = 2,
    ORDER_LESS = 3,
    ORDER_JUMP = 4,
    ORDER_STORE = 5,
    ORDER_LOAD = 6,
    ORDER_FADD = 7,
    ORDER_CAS = 8,
    ORDER_WAIT = 9,
    ORDER_BCAS = 10,
    ORDER_FENCE = 11 /* it uses no field */
};

/* The kinds of an operand. */
enum {
    ORDER_NO_OPERAND = 0, /* the line has none; its number is 0 */
    ORDER_CONSTANT = 1,   /* its number is the value */
    ORDER_REGISTER = 2    /* its number is that of the register, from 0 */
};

struct order_read_operand {
    size_t kind;
    size_t number;
};

/* A line: its op, and the fields that it uses; the others are 0. */
struct order_read_line {
    size_t op;
    size_t reg;

    /* A location, or for ORDER_JUMP a line, from 0. */
    size_t target;
    struct order_read_operand a;
    struct order_read_operand b;
};

/*
 * Reads program bytes. Any bytes and any length are answered.
 *
 * program, program_len: the bytes. They are read only. The pointer is not null, also where the length is 0, and
 *     nothing writes to them before the call returns.
 *
 * The function allocates nothing, keeps no pointer and no other state after it returns, and may run on several threads
 * at once. All of this holds for order_line too.
 */
struct order_read_header order_read(const uint8_t *program, size_t program_len);

/* Reads program bytes and gives a line of them; threads and lines are counted from 0. Any numbers are answered. */
struct order_read_line order_line(const uint8_t *program, size_t program_len, size_t thread, size_t line);

#ifdef __cplusplus
}
#endif

#endif
