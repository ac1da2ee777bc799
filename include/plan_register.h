/* The calls of the plan register for C and C++ programs, on x86-64 Linux.
 *
 * The calls are verified code in the static library crates/plan_register/out/libplan_register.a,
 * which `bash scripts/library` proves and writes. docs/GUIDE.md tells how to use them.
 *
 * Any numbers and any bytes may be sent. What does not pass a call's questions is refused by the
 * number of the first question that gets a no; a refusal changes no byte of any slice. A call keeps
 * no pointer and has no state of its own.
 *
 * A slice is passed as its pointer and then its length. The caller sees to three things:
 *
 *   - no pointer is null, also where the length is 0;
 *   - each slice has as many bytes as its length says;
 *   - a slice that the call may write to (no const) overlaps no other slice of the call.
 *
 * A grid of m rows and n columns is m * n bytes, one for each cell, row after row. Bounds are two
 * slices, low and high, of m * n bytes each. Rows and columns are numbered from 0.
 */
#ifndef PLAN_REGISTER_H
#define PLAN_REGISTER_H

#include <stddef.h>
#include <stdint.h>

#ifdef __cplusplus
extern "C" {
#endif

/* The numbers that the calls answer. 1 to 10 and 14 to 16 are refusals; the others are none. */
enum {
    PLAN_REGISTER_DONE = 0,           /* the call is done */
    PLAN_REGISTER_ROWS = 1,           /* the rows are not 1 to 8 */
    PLAN_REGISTER_COLUMNS = 2,        /* the columns are not 1 to 16 */
    PLAN_REGISTER_TOP = 3,            /* top is not 0 to 15 */
    PLAN_REGISTER_CAPACITY = 4,       /* the capacity is not 1 to 500 */
    PLAN_REGISTER_LAYOUT = 5,         /* the bytes are not laid out as a register */
    PLAN_REGISTER_LENGTH = 6,         /* a slice has not its exact length */
    PLAN_REGISTER_CELL = 7,           /* a cell or a bound is above top */
    PLAN_REGISTER_BOUNDS = 8,         /* a low is above its high */
    PLAN_REGISTER_FULL = 9,           /* nobody holds the class, and the register is full */
    PLAN_REGISTER_NOT_HELD = 10,      /* this client holds none of the class */
    PLAN_REGISTER_TERMINAL_ROWS = 14, /* a terminal's rows are 6 to 8 */
    PLAN_REGISTER_CLIENT = 15,        /* the client is not 1 to 8 */
    PLAN_REGISTER_HOLDING = 16,       /* this client's holding of the class is 999 already */
    PLAN_REGISTER_HELD = 101,         /* enter: some client held the class already */
    PLAN_REGISTER_NO_GRID = 102,      /* prune: no grid within the bounds has allperm */
    PLAN_REGISTER_TWO_CLASSES = 103   /* same: the two grids are in two classes */
};

/* The bytes of a register. The numbers are within the limits. Each line after line 1 has m * n cells
 * and the holdings of clients 1 to 8, each 3 wide, and a line feed. */
#define PLAN_REGISTER_BYTES(m, n, capacity) (31 + (size_t)(capacity) * (3 * (size_t)(m) * (size_t)(n) + 25))

/* What represent returns. The arrangement of a grid A by the orders P and Q has the cell
 * A(P(i), Q(j)) in row i, column j. With any number but 0 each position holds its own number. */
typedef struct plan_register_arranged {
    uint32_t number;
    uint8_t rows[8];     /* P; positions past m hold their own number */
    uint8_t columns[16]; /* Q; positions past n hold their own number */
} plan_register_arranged;

/* What same returns. With 0 the arrangement of a by the orders is b; with any other number each
 * position holds its own number. */
typedef struct plan_register_matched {
    uint32_t number;
    uint32_t agreed;     /* leading cells in which the least arrangements of a and b agree: m * n with 0,
                          * fewer with 103, 0 with a refusal. Unless refused, these are agreed / n full
                          * rows and agreed % n cells of the next row */
    uint8_t rows[8];     /* P; positions past m hold their own number */
    uint8_t columns[16]; /* Q; positions past n hold their own number */
} plan_register_matched;

/* What open, enter, strike and a terminal's enter return. */
typedef struct plan_register_placed {
    uint32_t number;
    uint32_t place; /* the line of the entry, the first entry's being 1; 0 by open and with a refusal */
} plan_register_placed;

/* What prune and count return. */
typedef struct plan_register_counted {
    uint32_t number;
    uint32_t count; /* of values removed by prune, of entries by count; 0 with any number but 0 */
} plan_register_counted;

/* What a terminal's represent returns: as represent, but for at most 5 rows. */
typedef struct plan_register_terminal_arranged {
    uint32_t number;
    uint8_t rows[5];     /* P; positions past m hold their own number */
    uint8_t columns[16]; /* Q; positions past n hold their own number */
} plan_register_terminal_arranged;

/* What a terminal's same returns: as same, but for at most 5 rows. */
typedef struct plan_register_terminal_matched {
    uint32_t number;
    uint32_t agreed;     /* as in plan_register_matched */
    uint8_t rows[5];     /* P; positions past m hold their own number */
    uint8_t columns[16]; /* Q; positions past n hold their own number */
} plan_register_terminal_matched;

#ifdef __cplusplus
#define PLAN_REGISTER_ASSERT(condition) static_assert(condition, #condition)
#else
#define PLAN_REGISTER_ASSERT(condition) _Static_assert(condition, #condition)
#endif
PLAN_REGISTER_ASSERT(sizeof(size_t) == 8);
PLAN_REGISTER_ASSERT(sizeof(plan_register_arranged) == 28);
PLAN_REGISTER_ASSERT(offsetof(plan_register_arranged, rows) == 4);
PLAN_REGISTER_ASSERT(offsetof(plan_register_arranged, columns) == 12);
PLAN_REGISTER_ASSERT(sizeof(plan_register_matched) == 32);
PLAN_REGISTER_ASSERT(offsetof(plan_register_matched, agreed) == 4);
PLAN_REGISTER_ASSERT(offsetof(plan_register_matched, rows) == 8);
PLAN_REGISTER_ASSERT(offsetof(plan_register_matched, columns) == 16);
PLAN_REGISTER_ASSERT(sizeof(plan_register_placed) == 8);
PLAN_REGISTER_ASSERT(offsetof(plan_register_placed, place) == 4);
PLAN_REGISTER_ASSERT(sizeof(plan_register_counted) == 8);
PLAN_REGISTER_ASSERT(offsetof(plan_register_counted, count) == 4);
PLAN_REGISTER_ASSERT(sizeof(plan_register_terminal_arranged) == 28);
PLAN_REGISTER_ASSERT(offsetof(plan_register_terminal_arranged, rows) == 4);
PLAN_REGISTER_ASSERT(offsetof(plan_register_terminal_arranged, columns) == 9);
PLAN_REGISTER_ASSERT(sizeof(plan_register_terminal_matched) == 32);
PLAN_REGISTER_ASSERT(offsetof(plan_register_terminal_matched, agreed) == 4);
PLAN_REGISTER_ASSERT(offsetof(plan_register_terminal_matched, rows) == 8);
PLAN_REGISTER_ASSERT(offsetof(plan_register_terminal_matched, columns) == 13);
#undef PLAN_REGISTER_ASSERT

/* Represent: writes the least arrangement of the grid's class to out. grid and out have m * n bytes.
 * 0 with orders by which out is the arrangement of grid; otherwise 1, 2, 3, 6 or 7. */
plan_register_arranged plan_register_represent(size_t m, size_t n, size_t top,
                                               const uint8_t *grid, size_t grid_length,
                                               uint8_t *out, size_t out_length);

/* Same: are the grids a and b, of m * n bytes, in one class? Writes nothing.
 * 0 with orders by which b is the arrangement of a; 103 if they are in two classes; otherwise
 * 1, 2, 3, 6 or 7. With 0 and with 103, agreed says how far their least arrangements agree. */
plan_register_matched plan_register_same(size_t m, size_t n, size_t top,
                                         const uint8_t *a, size_t a_length,
                                         const uint8_t *b, size_t b_length);

/* Prune: writes to low and high, of m * n bytes, the values that some grid within the bounds, with
 * allperm, has in each cell.
 * 0 with the count of values removed; 102 if there is no such grid, and nothing is written; otherwise
 * 1, 2, 3, 6, 7 or 8. */
plan_register_counted plan_register_prune(size_t m, size_t n, size_t top,
                                          uint8_t *low, size_t low_length,
                                          uint8_t *high, size_t high_length);

/* Open: writes an empty register to bytes, PLAN_REGISTER_BYTES(m, n, capacity) of them. What they
 * were does not matter.
 * 0; otherwise 1, 2, 3, 4 or 6. */
plan_register_placed plan_register_open(size_t m, size_t n, size_t top, size_t capacity,
                                        uint8_t *bytes, size_t bytes_length);

/* Enter: the client, 1 to 8, holds one more of the grid's class in the register in bytes. The grid has
 * m * n bytes, as the register states them; so have the grid of strike and the bounds of count.
 * 0 with the entry's place if the class was new; 101 with its place if some client held it, and the
 * client's holding is written; otherwise 5, 6, 7, 15, 9 or 16. */
plan_register_placed plan_register_enter(uint8_t *bytes, size_t bytes_length, size_t client,
                                         const uint8_t *grid, size_t grid_length);

/* Strike: the client, 1 to 8, holds one less of the grid's class. Where nobody holds any then, the entry
 * goes, and the later ones move up.
 * 0 with the place that the entry had; otherwise 5, 6, 7, 15 or 10. */
plan_register_placed plan_register_strike(uint8_t *bytes, size_t bytes_length, size_t client,
                                          const uint8_t *grid, size_t grid_length);

/* Count: counts the entries within the bounds, both included, whoever holds them. Prunes nothing,
 * writes nothing. On a register that only calls wrote, the count of bounds that were pruned by prune,
 * with the register's m, n and top, is that of the bounds as they were.
 * 0 with the count of entries; otherwise 5, 6, 7 or 8. */
plan_register_counted plan_register_count(const uint8_t *bytes, size_t bytes_length,
                                          const uint8_t *low, size_t low_length,
                                          const uint8_t *high, size_t high_length);

/* The calls of the shop terminals, for at most 5 rows. There they answer as represent, same and enter,
 * but which pair of orders is returned is free. A register may be used through both sets of calls. */

/* A terminal's represent: writes the least arrangement of the grid's class to out. grid and out have
 * m * n bytes.
 * 0 with orders by which out is the arrangement of grid; otherwise 1, 14, 2, 3, 6 or 7. */
plan_register_terminal_arranged plan_register_terminal_represent(size_t m, size_t n, size_t top,
                                                                 const uint8_t *grid, size_t grid_length,
                                                                 uint8_t *out, size_t out_length);

/* A terminal's same: are the grids a and b, of m * n bytes, in one class? Writes nothing.
 * 0 with orders by which b is the arrangement of a; 103 if they are in two classes; otherwise
 * 1, 14, 2, 3, 6 or 7. With 0 and with 103, agreed says how far their least arrangements agree. */
plan_register_terminal_matched plan_register_terminal_same(size_t m, size_t n, size_t top,
                                                           const uint8_t *a, size_t a_length,
                                                           const uint8_t *b, size_t b_length);

/* A terminal's enter: the client, 1 to 8, holds one more of the grid's class in the register in bytes,
 * which has at most 5 rows.
 * 0 with the entry's place if the class was new; 101 with its place if some client held it, and the
 * client's holding is written; otherwise 5, 14, 6, 7, 15, 9 or 16. */
plan_register_placed plan_register_terminal_enter(uint8_t *bytes, size_t bytes_length, size_t client,
                                                  const uint8_t *grid, size_t grid_length);

#ifdef __cplusplus
}
#endif

#endif
