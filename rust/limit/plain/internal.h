/* What the files of the program share: answers, the check of the shape, masks of vertices, and sums of rows of counts. */
#ifndef PLAIN_INTERNAL_H
#define PLAIN_INTERNAL_H

#include <stdbool.h>
#include <stddef.h>
#include <stdint.h>
#include <string.h>

#include "plain.h"

static inline plain_answer accepted(uint64_t value)
{
    return (plain_answer){ .number = PLAIN_ACCEPTED, .place = 0, .value = value };
}

static inline plain_answer refused(uint64_t number)
{
    return (plain_answer){ .number = number, .place = 0, .value = 0 };
}

/* The number by which a call of n vertices and so many words is refused, 0 if the two are right. */
static inline uint64_t check_shape(size_t n, size_t words)
{
    if (n < 1 || n > PLAIN_VERTICES)
        return PLAIN_REFUSED_VERTICES;
    if (words != PLAIN_WORD_COUNT(n))
        return PLAIN_REFUSED_LENGTH;
    return PLAIN_ACCEPTED;
}

/* The mask of the vertex j alone; j is below 64. */
static inline uint64_t bit(size_t j)
{
    return (uint64_t)1 << j;
}

/* The mask of all n vertices; n is 1 to 64. */
static inline uint64_t all_vertices(size_t n)
{
    return UINT64_MAX >> (PLAIN_VERTICES - n);
}

/* The lowest vertex of a mask that is not empty. */
static inline size_t lowest(uint64_t mask)
{
    return (size_t)__builtin_ctzll(mask);
}

static inline bool has_edge(const uint64_t *sheet, size_t from, size_t to)
{
    return (sheet[from] & bit(to)) != 0;
}

static inline uint64_t path_count(size_t n, const uint64_t *sheet, size_t from, size_t to)
{
    return sheet[n + from * n + to];
}

/* The number of set bits in all rows. */
static inline uint64_t count_edges(size_t n, const uint64_t *sheet)
{
    uint64_t edges = 0;
    for (size_t i = 0; i < n; i++)
        edges += (uint64_t)__builtin_popcountll(sheet[i]);
    return edges;
}

static inline void add_row(size_t n, uint64_t *restrict sum, const uint64_t *restrict row)
{
    for (size_t j = 0; j < n; j++)
        sum[j] += row[j];
}

/* Sets sum to the sum of the rows of counts of the vertices of the mask. sum is none of these rows. */
static inline void sum_rows(size_t n, const uint64_t *counts, uint64_t mask, uint64_t *sum)
{
    memset(sum, 0, n * sizeof *sum);
    for (; mask != 0; mask &= mask - 1)
        add_row(n, sum, counts + lowest(mask) * n);
}

/* Whether a sheet of the right shape is valid. */
bool plain_is_valid(size_t n, const uint64_t *sheet);

#endif
