/* Makes each call with a success and a refusal, and prints what it answers and leaves. */
#include "plan_register.h"

#include <stdio.h>

static void print_bytes(const uint8_t *bytes, size_t length)
{
    for (size_t k = 0; k < length; k++) {
        printf(" %d", bytes[k]);
    }
    printf("\n");
}

static void print_arranged(const char *call, plan_register_arranged arranged)
{
    printf("%s %u:", call, (unsigned)arranged.number);
    print_bytes(arranged.rows, sizeof arranged.rows);
    print_bytes(arranged.columns, sizeof arranged.columns);
}

static void print_matched(const char *call, plan_register_matched matched)
{
    printf("%s %u, agreed %u:", call, (unsigned)matched.number, (unsigned)matched.agreed);
    print_bytes(matched.rows, sizeof matched.rows);
    print_bytes(matched.columns, sizeof matched.columns);
}

static void print_terminal_arranged(const char *call, plan_register_terminal_arranged arranged)
{
    printf("%s %u:", call, (unsigned)arranged.number);
    print_bytes(arranged.rows, sizeof arranged.rows);
    print_bytes(arranged.columns, sizeof arranged.columns);
}

static void print_terminal_matched(const char *call, plan_register_terminal_matched matched)
{
    printf("%s %u, agreed %u:", call, (unsigned)matched.number, (unsigned)matched.agreed);
    print_bytes(matched.rows, sizeof matched.rows);
    print_bytes(matched.columns, sizeof matched.columns);
}

static void print_placed(const char *call, plan_register_placed placed)
{
    printf("%s %u, place %u\n", call, (unsigned)placed.number, (unsigned)placed.place);
}

static void print_counted(const char *call, plan_register_counted counted)
{
    printf("%s %u, count %u\n", call, (unsigned)counted.number, (unsigned)counted.count);
}

static void call_on_grids(void)
{
    const uint8_t grid[6] = {2, 2, 3, 2, 3, 1};
    const uint8_t above[6] = {2, 2, 3, 2, 3, 4};
    uint8_t out[6] = {9, 9, 9, 9, 9, 9};
    print_arranged("represent", plan_register_represent(2, 3, 3, above, 6, out, 6));
    print_bytes(out, 6);
    print_arranged("represent", plan_register_represent(2, 3, 3, grid, 6, out, 6));
    print_bytes(out, 6);
    print_matched("same", plan_register_same(2, 3, 3, grid, 6, out, 6));
    print_matched("same", plan_register_same(2, 3, 3, grid, 6, out, 5));
    out[5] = 3;
    print_matched("same", plan_register_same(2, 3, 3, grid, 6, out, 6));
}

static void call_on_bounds(void)
{
    uint8_t low[4] = {1, 0, 0, 0}, high[4] = {3, 3, 1, 2};
    uint8_t above[2] = {2, 0}, below[2] = {3, 1};
    print_counted("prune", plan_register_prune(9, 2, 3, low, 4, high, 4));
    print_counted("prune", plan_register_prune(2, 2, 3, low, 4, high, 4));
    print_bytes(low, 4);
    print_bytes(high, 4);
    print_counted("prune", plan_register_prune(2, 1, 3, above, 2, below, 2));
}

static void call_on_a_register(void)
{
    uint8_t bytes[PLAN_REGISTER_BYTES(2, 2, 1)];
    const size_t length = sizeof bytes;
    const uint8_t grid[4] = {1, 0, 0, 1}, other[4] = {0, 0, 1, 1};
    const uint8_t zeros[4] = {0, 0, 0, 0}, ones[4] = {1, 1, 1, 1};
    print_placed("open", plan_register_open(2, 2, 1, 501, bytes, length));
    print_placed("open", plan_register_open(2, 2, 1, 1, bytes, length));
    print_placed("enter", plan_register_enter(bytes, length, 1, grid, 4));
    print_placed("enter", plan_register_enter(bytes, length, 8, grid, 4));
    print_placed("enter", plan_register_enter(bytes, length, 1, grid, 4));
    print_placed("enter", plan_register_enter(bytes, length, 1, other, 4));
    print_placed("enter", plan_register_enter(bytes, length, 1, grid, 0));
    print_placed("enter", plan_register_enter(bytes, length, 257, grid, 4));
    fwrite(bytes, 1, length, stdout);
    print_counted("count", plan_register_count(bytes, length, zeros, 4, ones, 4));
    print_counted("count", plan_register_count(bytes, length, ones, 4, zeros, 4));
    print_placed("strike", plan_register_strike(bytes, length - 1, 8, grid, 4));
    print_placed("strike", plan_register_strike(bytes, length, 8, grid, 4));
    print_placed("strike", plan_register_strike(bytes, length, 8, grid, 4));
    print_placed("strike", plan_register_strike(bytes, length, 0, grid, 4));
    fwrite(bytes, 1, length, stdout);
    print_placed("strike", plan_register_strike(bytes, length, 1, grid, 4));
    print_placed("strike", plan_register_strike(bytes, length, 1, grid, 4));
    fwrite(bytes, 1, length, stdout);
    print_placed("enter", plan_register_enter(bytes, length, 5, grid, 4));
    unsigned held = 0;
    while (plan_register_enter(bytes, length, 5, grid, 4).number == PLAN_REGISTER_HELD) {
        held++;
    }
    printf("enter 101, %u times\n", held);
    print_placed("enter", plan_register_enter(bytes, length, 5, grid, 4));
    fwrite(bytes, 1, length, stdout);
}

static void call_on_grids_at_a_terminal(void)
{
    const uint8_t grid[6] = {2, 2, 3, 2, 3, 1};
    uint8_t out[6] = {9, 9, 9, 9, 9, 9};
    print_terminal_arranged("terminal represent", plan_register_terminal_represent(6, 1, 3, grid, 6, out, 6));
    print_bytes(out, 6);
    print_terminal_arranged("terminal represent", plan_register_terminal_represent(2, 3, 3, grid, 6, out, 6));
    print_bytes(out, 6);
    print_terminal_matched("terminal same", plan_register_terminal_same(2, 3, 3, grid, 6, out, 6));
    print_terminal_matched("terminal same", plan_register_terminal_same(6, 1, 3, grid, 6, out, 6));
    out[5] = 3;
    print_terminal_matched("terminal same", plan_register_terminal_same(2, 3, 3, grid, 6, out, 6));
}

static void call_on_registers_at_a_terminal(void)
{
    uint8_t bytes[PLAN_REGISTER_BYTES(2, 2, 1)], large[PLAN_REGISTER_BYTES(6, 1, 1)];
    const size_t length = sizeof bytes;
    const uint8_t grid[4] = {1, 0, 0, 1}, other[4] = {0, 0, 1, 1}, column[6] = {0, 0, 0, 0, 0, 0};
    print_placed("open", plan_register_open(2, 2, 1, 1, bytes, length));
    print_placed("terminal enter", plan_register_terminal_enter(bytes, length, 1, grid, 4));
    print_placed("enter", plan_register_enter(bytes, length, 2, grid, 4));
    print_placed("terminal enter", plan_register_terminal_enter(bytes, length, 3, grid, 4));
    print_placed("terminal enter", plan_register_terminal_enter(bytes, length, 3, other, 4));
    print_placed("terminal enter", plan_register_terminal_enter(bytes, length, 9, other, 4));
    fwrite(bytes, 1, length, stdout);
    print_placed("open", plan_register_open(6, 1, 1, 1, large, sizeof large));
    print_placed("terminal enter", plan_register_terminal_enter(large, sizeof large, 1, column, 6));
    print_placed("enter", plan_register_enter(large, sizeof large, 1, column, 6));
}

int main(void)
{
    call_on_grids();
    call_on_bounds();
    call_on_a_register();
    call_on_grids_at_a_terminal();
    call_on_registers_at_a_terminal();
    return 0;
}
