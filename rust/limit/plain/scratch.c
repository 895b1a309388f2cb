/* Two baselines for timing: all counts worked out from scratch in blocks of columns, and one pass that reads and adds all counts. */
#include <stdbool.h>
#include <string.h>

#include "scratch.h"

enum {
    VERTICES = 64, /* the most that a sheet has */
    BLOCK = 16     /* the columns of a block: so many that their sums fit in the registers */
};

/* Pushes vertices on the stack, beginning with one of `next`, until no edge leads from the last one to a vertex that is left. */
static inline size_t descend(const uint64_t *rows, uint64_t left, uint64_t next, uint8_t *stack, size_t depth)
{
    while (next != 0) {
        size_t v = VERTICES - 1 - (size_t)__builtin_clzll(next);
        stack[depth++] = (uint8_t)v;
        next = rows[v] & left;
    }
    return depth;
}

/*
 * Puts the vertices in an order in which each comes after all of its successors, by depth-first search. The search goes along edges
 * to vertices that are left; where it can't go on, the last vertex is taken away and entered in the order.
 */
static void find_order(size_t n, const uint64_t *rows, uint8_t *order)
{
    uint64_t left = UINT64_MAX >> (VERTICES - n);
    uint8_t stack[VERTICES];
    size_t depth = 0;

    for (size_t taken = 0; taken < n; taken++) {
        uint64_t next = depth == 0 ? left : rows[stack[depth - 1]] & left;
        depth = descend(rows, left, next, stack, depth) - 1;
        left &= ~((uint64_t)1 << stack[depth]);
        order[taken] = stack[depth];
    }
}

/*
 * Fills the columns from `first` on, `width` of them and at most BLOCK, in all rows of counts. A successor that leads to none of
 * these columns has only zeros there and is left out.
 */
static inline void fill_block(size_t n, const uint64_t *rows, const uint8_t *order, uint64_t *counts, size_t first, size_t width)
{
    uint64_t leading = 0;

    for (size_t k = 0; k < n; k++) {
        size_t i = order[k];
        bool inside = i >= first && i < first + width;
        uint64_t successors = rows[i] & leading;
        if (successors != 0 || inside)
            leading |= (uint64_t)1 << i;

        uint64_t sum[BLOCK] = { 0 };
        for (; successors != 0; successors &= successors - 1) {
            const uint64_t *row = counts + (size_t)__builtin_ctzll(successors) * n + first;
            for (size_t c = 0; c < width; c++)
                sum[c] += row[c];
        }
        memcpy(counts + i * n + first, sum, width * sizeof *sum);
        if (inside)
            counts[i * n + i] += 1;
    }
}

void scratch_count(size_t n, uint64_t *sheet)
{
    uint64_t *counts = sheet + n;
    uint8_t order[VERTICES];
    find_order(n, sheet, order);

    if (n < BLOCK) {
        fill_block(n, sheet, order, counts, 0, n);
        return;
    }

    /* If the last block would be short it is moved back to be full, and fills some columns a second time with the same counts. */
    for (size_t first = 0; first < n; first += BLOCK)
        fill_block(n, sheet, order, counts, first + BLOCK <= n ? first : n - BLOCK, BLOCK);
}

uint64_t floor_pass(size_t n, const uint64_t *sheet)
{
    const uint64_t *counts = sheet + n;
    uint64_t sum = 0;
    for (size_t k = 0; k < n * n; k++)
        sum += counts[k];
    return sum;
}
