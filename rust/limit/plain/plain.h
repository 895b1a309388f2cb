/*
 * Path counts for an acyclic directed graph of 1 to 64 vertices, kept in one buffer of 64-bit words: the declarations.
 *
 * A sheet of n vertices is n + n * n words. Bit j of word i, for i below n, is 1 exactly if an edge runs from i to j; word
 * n + i * n + j is the count from i to j. A refused call changes nothing. A plan is records of 8 bytes such as "L 03 04\n", which
 * inserts the edge from 3 to 4, and "T 03 04\n", which deletes it.
 */
#ifndef PLAIN_H
#define PLAIN_H

#include <stddef.h>
#include <stdint.h>

#ifdef __cplusplus
extern "C" {
#endif

/* The words of a sheet of n vertices. n is evaluated three times. */
#define PLAIN_WORD_COUNT(n) ((size_t)(n) + (size_t)(n) * (size_t)(n))

/* The greatest sizes: of a sheet's vertices, of its words, and of a valid sheet's edges. */
enum {
    PLAIN_VERTICES = 64,
    PLAIN_WORDS = 4160,
    PLAIN_EDGES = 2016
};

/* number: 0 for accepted, else that of the refusal. place: the refused record of a plan, from 1 up, else 0. value: 0 if refused. */
typedef struct {
    uint64_t number;
    uint64_t place;
    uint64_t value;
} plain_answer;

enum {
    PLAIN_ACCEPTED = 0,
    PLAIN_REFUSED_VERTICES = 1,      /* n is not 1 to 64 */
    PLAIN_REFUSED_LENGTH = 2,        /* the sheet isn't n + n * n words */
    PLAIN_REFUSED_VERTEX = 3,        /* a vertex named is n or more */
    PLAIN_REFUSED_STRAY_BIT = 4,     /* a mask, or a row in a recount, has a bit at n or above */
    PLAIN_REFUSED_SELF_LOOP = 5,     /* an edge to insert runs from a vertex to itself */
    PLAIN_REFUSED_PRESENT = 6,       /* an edge to insert is already there */
    PLAIN_REFUSED_ABSENT = 7,        /* an edge to delete or go without is not there */
    PLAIN_REFUSED_CYCLE = 8,         /* a cycle */
    PLAIN_REFUSED_NOT_VALID = 9,     /* the sheet is not valid, or its counts lead a path by number astray */
    PLAIN_REFUSED_BUFFER = 10,       /* the buffer to write is too short */
    PLAIN_REFUSED_NO_SUCH_PATH = 11, /* a path's number is not below the count */
    PLAIN_REFUSED_NO_PATH = 12,      /* a path has no vertices, more than n, or two neighbours without an edge */
    PLAIN_REFUSED_PLAN_LENGTH = 13,  /* a plan's length is not a multiple of 8, or over 32,768 bytes */
    PLAIN_REFUSED_RECORD = 14        /* a record of a plan is malformed */
};

plain_answer plain_empty(size_t n, uint64_t *sheet, size_t words);

plain_answer plain_insert_edge(size_t n, uint64_t *sheet, size_t words, size_t from, size_t to);
plain_answer plain_delete_edge(size_t n, uint64_t *sheet, size_t words, size_t from, size_t to);
plain_answer plain_insert_edges_at(size_t n, uint64_t *sheet, size_t words, size_t v, uint64_t predecessors, uint64_t successors);
plain_answer plain_delete_edges_at(size_t n, uint64_t *sheet, size_t words, size_t v, uint64_t predecessors, uint64_t successors);

plain_answer plain_path_count(size_t n, const uint64_t *sheet, size_t words, size_t from, size_t to);
plain_answer plain_reaches_without(size_t n, const uint64_t *sheet, size_t words, size_t from, size_t to, size_t edge_from,
                                   size_t edge_to);
plain_answer plain_unrank(size_t n, const uint64_t *sheet, size_t words, size_t from, size_t to, uint64_t k, uint8_t *path,
                          size_t path_bytes);
plain_answer plain_rank(size_t n, const uint64_t *sheet, size_t words, const uint8_t *path, size_t path_bytes);

plain_answer plain_read_plan(size_t n, uint64_t *sheet, size_t words, const uint8_t *plan, size_t plan_bytes);
plain_answer plain_write_plan(size_t n, const uint64_t *sheet, size_t words, uint8_t *plan, size_t plan_bytes);

plain_answer plain_recount(size_t n, uint64_t *sheet, size_t words);
plain_answer plain_validate(size_t n, const uint64_t *sheet, size_t words);

#ifdef __cplusplus
}
#endif

#endif
