/* The questions to a sheet: a count, reaching without an edge, the path of a number, and the number of a path. */
#include "internal.h"

plain_answer plain_path_count(size_t n, const uint64_t *sheet, size_t words, size_t from, size_t to)
{
    uint64_t number = check_shape(n, words);
    if (number != PLAIN_ACCEPTED)
        return refused(number);
    if (from >= n || to >= n)
        return refused(PLAIN_REFUSED_VERTEX);
    return accepted(path_count(n, sheet, from, to));
}

plain_answer plain_reaches_without(size_t n, const uint64_t *sheet, size_t words, size_t from, size_t to, size_t edge_from,
                                   size_t edge_to)
{
    uint64_t number = check_shape(n, words);
    if (number != PLAIN_ACCEPTED)
        return refused(number);
    if (from >= n || to >= n || edge_from >= n || edge_to >= n)
        return refused(PLAIN_REFUSED_VERTEX);
    if (!has_edge(sheet, edge_from, edge_to))
        return refused(PLAIN_REFUSED_ABSENT);

    uint64_t by_edge = path_count(n, sheet, from, edge_from) * path_count(n, sheet, edge_to, to);
    return accepted(by_edge != path_count(n, sheet, from, to) ? 1 : 0);
}

plain_answer plain_unrank(size_t n, const uint64_t *sheet, size_t words, size_t from, size_t to, uint64_t k, uint8_t *path,
                          size_t path_bytes)
{
    uint64_t number = check_shape(n, words);
    if (number != PLAIN_ACCEPTED)
        return refused(number);
    if (from >= n || to >= n)
        return refused(PLAIN_REFUSED_VERTEX);
    if (path_bytes < n)
        return refused(PLAIN_REFUSED_BUFFER);
    if (k >= path_count(n, sheet, from, to))
        return refused(PLAIN_REFUSED_NO_SUCH_PATH);

    /* The path so far. It is copied only at the end, as the walk may still be refused. */
    uint8_t walked[PLAIN_VERTICES];
    size_t length = 0;
    size_t at = from;
    walked[length++] = (uint8_t)at;

    while (at != to) {
        if (length == n)
            return refused(PLAIN_REFUSED_NOT_VALID);

        uint64_t untried = sheet[at] & all_vertices(n);
        for (; untried != 0; untried &= untried - 1) {
            uint64_t paths = path_count(n, sheet, lowest(untried), to);
            if (k < paths)
                break;
            k -= paths;
        }
        if (untried == 0)
            return refused(PLAIN_REFUSED_NOT_VALID);

        at = lowest(untried);
        walked[length++] = (uint8_t)at;
    }
    if (k != 0)
        return refused(PLAIN_REFUSED_NOT_VALID);

    memcpy(path, walked, length);
    return accepted(length);
}

plain_answer plain_rank(size_t n, const uint64_t *sheet, size_t words, const uint8_t *path, size_t path_bytes)
{
    uint64_t number = check_shape(n, words);
    if (number != PLAIN_ACCEPTED)
        return refused(number);
    for (size_t p = 0; p < path_bytes; p++) {
        if (path[p] >= n)
            return refused(PLAIN_REFUSED_VERTEX);
    }
    if (path_bytes == 0 || path_bytes > n)
        return refused(PLAIN_REFUSED_NO_PATH);
    for (size_t p = 1; p < path_bytes; p++) {
        if (!has_edge(sheet, path[p - 1], path[p]))
            return refused(PLAIN_REFUSED_NO_PATH);
    }

    /* At each step, the paths that go to a lower vertex there come before this one. */
    size_t last = path[path_bytes - 1];
    uint64_t rank = 0;
    for (size_t p = 1; p < path_bytes; p++) {
        uint64_t lower = sheet[path[p - 1]] & (bit(path[p]) - 1);
        for (; lower != 0; lower &= lower - 1)
            rank += path_count(n, sheet, lowest(lower), last);
    }
    return accepted(rank);
}
