/* The counts worked out afresh from the rows, and the test whether a sheet is valid. */
#include "internal.h"

static bool has_stray_bit(size_t n, const uint64_t *sheet)
{
    uint64_t all = 0;
    for (size_t i = 0; i < n; i++)
        all |= sheet[i];
    return (all & ~all_vertices(n)) != 0;
}

/*
 * Puts the vertices in an order in which each comes after all of its successors, and says whether there is one. Each round goes
 * over the vertices that are left and takes away those without a successor among them; a round that takes none away has met a
 * cycle.
 */
static bool find_order(size_t n, const uint64_t *sheet, uint8_t *order)
{
    uint64_t left = all_vertices(n);
    size_t taken = 0;

    while (left != 0) {
        size_t before = taken;
        for (size_t i = n; i-- > 0;) {
            if ((left & bit(i)) != 0 && (sheet[i] & left) == 0) {
                left &= ~bit(i);
                order[taken++] = (uint8_t)i;
            }
        }
        if (taken == before)
            return false;
    }
    return true;
}

plain_answer plain_recount(size_t n, uint64_t *sheet, size_t words)
{
    uint8_t order[PLAIN_VERTICES];

    uint64_t number = check_shape(n, words);
    if (number != PLAIN_ACCEPTED)
        return refused(number);
    if (has_stray_bit(n, sheet))
        return refused(PLAIN_REFUSED_STRAY_BIT);
    if (!find_order(n, sheet, order))
        return refused(PLAIN_REFUSED_CYCLE);

    uint64_t *counts = sheet + n;
    for (size_t k = 0; k < n; k++) {
        size_t i = order[k];
        uint64_t *row = counts + i * n;
        sum_rows(n, counts, sheet[i], row);
        row[i] += 1;
    }
    return accepted(count_edges(n, sheet));
}

/*
 * Without a cycle there is only one way to fill the counts such that each row is the sum of its successors' rows plus 1 at itself;
 * so it is enough to look at every row by itself, in any order.
 */
bool plain_is_valid(size_t n, const uint64_t *sheet)
{
    uint8_t order[PLAIN_VERTICES];
    uint64_t sum[PLAIN_VERTICES];

    if (has_stray_bit(n, sheet) || !find_order(n, sheet, order))
        return false;

    const uint64_t *counts = sheet + n;
    for (size_t i = 0; i < n; i++) {
        sum_rows(n, counts, sheet[i], sum);
        sum[i] += 1;
        if (memcmp(sum, counts + i * n, n * sizeof *sum) != 0)
            return false;
    }
    return true;
}

plain_answer plain_validate(size_t n, const uint64_t *sheet, size_t words)
{
    uint64_t number = check_shape(n, words);
    if (number != PLAIN_ACCEPTED)
        return refused(number);
    return accepted(plain_is_valid(n, sheet) ? 1 : 0);
}
