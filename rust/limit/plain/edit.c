/* The empty sheet, and the edits: edges inserted and deleted at one vertex, with every count brought up to date. */
#include "internal.h"

plain_answer plain_empty(size_t n, uint64_t *sheet, size_t words)
{
    uint64_t number = check_shape(n, words);
    if (number != PLAIN_ACCEPTED)
        return refused(number);

    memset(sheet, 0, words * sizeof *sheet);
    for (size_t i = 0; i < n; i++)
        sheet[n + i * n + i] = 1;
    return accepted(0);
}

/* Whether some edge from a predecessor to v, or from v to a successor, is there. */
static inline bool any_present(const uint64_t *sheet, size_t v, uint64_t predecessors, uint64_t successors)
{
    for (uint64_t m = predecessors; m != 0; m &= m - 1) {
        if (has_edge(sheet, lowest(m), v))
            return true;
    }
    return (sheet[v] & successors) != 0;
}

/* Whether all edges from the predecessors to v, and from v to the successors, are there. */
static inline bool all_present(const uint64_t *sheet, size_t v, uint64_t predecessors, uint64_t successors)
{
    for (uint64_t m = predecessors; m != 0; m &= m - 1) {
        if (!has_edge(sheet, lowest(m), v))
            return false;
    }
    return (sheet[v] & successors) == successors;
}

/* Whether v leads to a predecessor, or a successor to v or to a predecessor, by the counts. */
static inline bool closes_cycle(size_t n, const uint64_t *sheet, size_t v, uint64_t predecessors, uint64_t successors)
{
    for (uint64_t p = predecessors; p != 0; p &= p - 1) {
        if (path_count(n, sheet, v, lowest(p)) != 0)
            return true;
    }
    for (uint64_t s = successors; s != 0; s &= s - 1) {
        size_t b = lowest(s);
        if (path_count(n, sheet, b, v) != 0)
            return true;
        for (uint64_t p = predecessors; p != 0; p &= p - 1) {
            if (path_count(n, sheet, b, lowest(p)) != 0)
                return true;
        }
    }
    return false;
}

/* row(j) += x * t(j) + f * u(j) */
static inline void add_products(size_t n, uint64_t *restrict row, uint64_t x, const uint64_t *restrict t, uint64_t f,
                                const uint64_t *restrict u)
{
    for (size_t j = 0; j < n; j++)
        row[j] += x * t[j] + f * u[j];
}

/*
 * Brings the counts up to date for the edges at v that are inserted or deleted. With T(j) the sum of the successors' counts to j
 * and F(i) the sum of the counts from i to the predecessors, all before the edit, count(i, j) gains
 *     count(i, v) * T(j) + F(i) * (T(j) + count(v, j)) by an insertion,
 *   - count(i, v) * T(j) + F(i) * (T(j) - count(v, j)) by a deletion.
 */
static inline void update_counts(size_t n, uint64_t *sheet, size_t v, uint64_t predecessors, uint64_t successors, bool insertion)
{
    uint64_t *counts = sheet + n;
    const uint64_t *from_v = counts + v * n;
    uint64_t t[PLAIN_VERTICES];
    uint64_t u[PLAIN_VERTICES];

    sum_rows(n, counts, successors, t);
    for (size_t j = 0; j < n; j++)
        u[j] = insertion ? t[j] + from_v[j] : t[j] - from_v[j];

    for (size_t i = 0; i < n; i++) {
        uint64_t *row = counts + i * n;
        uint64_t x = insertion ? row[v] : 0 - row[v];
        uint64_t f = 0;
        for (uint64_t m = predecessors; m != 0; m &= m - 1)
            f += row[lowest(m)];
        if (x != 0 || f != 0)
            add_products(n, row, x, t, f, u);
    }
}

/* The number by which the edges at v are not to be inserted, 0 if they may be. */
static inline uint64_t check_insertion(size_t n, const uint64_t *sheet, size_t v, uint64_t predecessors, uint64_t successors)
{
    if (((predecessors | successors) & bit(v)) != 0)
        return PLAIN_REFUSED_SELF_LOOP;
    if (any_present(sheet, v, predecessors, successors))
        return PLAIN_REFUSED_PRESENT;
    if (closes_cycle(n, sheet, v, predecessors, successors))
        return PLAIN_REFUSED_CYCLE;
    return PLAIN_ACCEPTED;
}

/* Inserts the edges at v, which have been checked, and answers the number of edges afterwards. */
static inline uint64_t insert_at(size_t n, uint64_t *sheet, size_t v, uint64_t predecessors, uint64_t successors)
{
    update_counts(n, sheet, v, predecessors, successors, true);
    for (uint64_t m = predecessors; m != 0; m &= m - 1)
        sheet[lowest(m)] |= bit(v);
    sheet[v] |= successors;
    return count_edges(n, sheet);
}

/* Deletes the edges at v, which have been checked, and answers the number of edges afterwards. */
static inline uint64_t delete_at(size_t n, uint64_t *sheet, size_t v, uint64_t predecessors, uint64_t successors)
{
    update_counts(n, sheet, v, predecessors, successors, false);
    for (uint64_t m = predecessors; m != 0; m &= m - 1)
        sheet[lowest(m)] &= ~bit(v);
    sheet[v] &= ~successors;
    return count_edges(n, sheet);
}

/* The number by which an edit of one edge is refused before its edge is looked at. */
static inline uint64_t check_edge(size_t n, size_t words, size_t from, size_t to)
{
    uint64_t number = check_shape(n, words);
    if (number != PLAIN_ACCEPTED)
        return number;
    if (from >= n || to >= n)
        return PLAIN_REFUSED_VERTEX;
    return PLAIN_ACCEPTED;
}

/* The number by which an edit by masks is refused before its edges are looked at. */
static inline uint64_t check_masks(size_t n, size_t words, size_t v, uint64_t predecessors, uint64_t successors)
{
    uint64_t number = check_shape(n, words);
    if (number != PLAIN_ACCEPTED)
        return number;
    if (v >= n)
        return PLAIN_REFUSED_VERTEX;
    if (((predecessors | successors) & ~all_vertices(n)) != 0)
        return PLAIN_REFUSED_STRAY_BIT;
    return PLAIN_ACCEPTED;
}

plain_answer plain_insert_edge(size_t n, uint64_t *sheet, size_t words, size_t from, size_t to)
{
    uint64_t number = check_edge(n, words, from, to);
    if (number != PLAIN_ACCEPTED)
        return refused(number);
    number = check_insertion(n, sheet, from, 0, bit(to));
    if (number != PLAIN_ACCEPTED)
        return refused(number);
    return accepted(insert_at(n, sheet, from, 0, bit(to)));
}

plain_answer plain_delete_edge(size_t n, uint64_t *sheet, size_t words, size_t from, size_t to)
{
    uint64_t number = check_edge(n, words, from, to);
    if (number != PLAIN_ACCEPTED)
        return refused(number);
    if (!all_present(sheet, from, 0, bit(to)))
        return refused(PLAIN_REFUSED_ABSENT);
    return accepted(delete_at(n, sheet, from, 0, bit(to)));
}

plain_answer plain_insert_edges_at(size_t n, uint64_t *sheet, size_t words, size_t v, uint64_t predecessors, uint64_t successors)
{
    uint64_t number = check_masks(n, words, v, predecessors, successors);
    if (number != PLAIN_ACCEPTED)
        return refused(number);
    number = check_insertion(n, sheet, v, predecessors, successors);
    if (number != PLAIN_ACCEPTED)
        return refused(number);
    return accepted(insert_at(n, sheet, v, predecessors, successors));
}

plain_answer plain_delete_edges_at(size_t n, uint64_t *sheet, size_t words, size_t v, uint64_t predecessors, uint64_t successors)
{
    uint64_t number = check_masks(n, words, v, predecessors, successors);
    if (number != PLAIN_ACCEPTED)
        return refused(number);
    if (!all_present(sheet, v, predecessors, successors))
        return refused(PLAIN_REFUSED_ABSENT);
    return accepted(delete_at(n, sheet, v, predecessors, successors));
}
