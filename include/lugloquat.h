/*
 * Path counts for an acyclic directed graph of 1 to 64 vertices, kept exactly in one buffer of 64-bit words: the C interface.
 *
 * A sheet of n vertices, numbered from 0, is n + n * n words. Word i, for i below n, is row i: its bit j is 1 exactly if an
 * edge runs from i to j. Word n + i * n + j is the count from i to j. A sheet is valid if no row has a bit at n or above, there
 * is no cycle, and each count is the number of paths; a vertex alone is one path, from it to itself.
 *
 * Every call answers for every n, every length, all words and all bytes, and ends. A refused call changes no word and no byte.
 * The caller lends `sheet`, `words` words aligned as uint64_t; nobody else writes them during the call, nor reads them during one
 * that may change them; if `words` is 0 it may be NULL. A path is lent as `path`, `path_bytes` bytes apart from the sheet, at any
 * address, in the same way: one byte a vertex, from the first byte on; if `path_bytes` is 0 it may be NULL. So is a plan, as `plan`
 * and `plan_bytes`. No call keeps anything between calls, so calls on different sheets, and calls that only read one sheet, may run
 * at the same time, each with a path or a plan of its own to write.
 *
 * A plan is records of 8 bytes, and nothing else: 'L' or 'T', a space, two digits, a space, two digits, a line feed, in ASCII.
 * `L 03 04` inserts the edge from vertex 3 to vertex 4, `T 03 04` deletes it.
 *
 * Link with liblugloquat.a, which is for x86-64 and its System V calling convention. It needs memcpy and memset, and nothing else.
 */
#ifndef LUGLOQUAT_H
#define LUGLOQUAT_H

#include <stddef.h>
#include <stdint.h>

#ifdef __cplusplus
extern "C" {
#endif

/* The words of a sheet of n vertices. n is evaluated three times. */
#define LUGLOQUAT_WORD_COUNT(n) ((size_t)(n) + (size_t)(n) * (size_t)(n))

/* The greatest sizes: of a sheet's vertices, of its words, and of a valid sheet's edges. */
enum {
    LUGLOQUAT_VERTICES = 64,
    LUGLOQUAT_WORDS = 4160,
    LUGLOQUAT_EDGES = 2016
};

/*
 * What a call answers. number: 0 for accepted, else that of the refusal. place: where a plan is refused at a record, that record,
 * from 1 up; else 0. value: what the call says below, and 0 when refused.
 */
typedef struct {
    uint64_t number;
    uint64_t place;
    uint64_t value;
} lugloquat_answer;

/* The numbers. A call lists those by which it refuses in the order in which it looks for them: the first gives the number. */
enum {
    LUGLOQUAT_ACCEPTED = 0,
    LUGLOQUAT_REFUSED_VERTICES = 1,      /* n is not 1 to 64 */
    LUGLOQUAT_REFUSED_LENGTH = 2,        /* the sheet isn't n + n * n words */
    LUGLOQUAT_REFUSED_VERTEX = 3,        /* a vertex named is n or more */
    LUGLOQUAT_REFUSED_STRAY_BIT = 4,     /* a mask, or a row in a recount, has a bit at n or above */
    LUGLOQUAT_REFUSED_SELF_LOOP = 5,     /* an edge to insert runs from a vertex to itself */
    LUGLOQUAT_REFUSED_PRESENT = 6,       /* an edge to insert is already there */
    LUGLOQUAT_REFUSED_ABSENT = 7,        /* an edge to delete or go without is not there */
    LUGLOQUAT_REFUSED_CYCLE = 8,         /* a cycle */
    LUGLOQUAT_REFUSED_NOT_VALID = 9,     /* the sheet is not valid, or its counts lead a path by number astray */
    LUGLOQUAT_REFUSED_BUFFER = 10,       /* the buffer to write is too short */
    LUGLOQUAT_REFUSED_NO_SUCH_PATH = 11, /* a path's number is not below the count */
    LUGLOQUAT_REFUSED_NO_PATH = 12,      /* a path has no vertices, more than n, or two neighbours without an edge */
    LUGLOQUAT_REFUSED_PLAN_LENGTH = 13,  /* a plan's length is not a multiple of 8, or over 32,768 bytes */
    LUGLOQUAT_REFUSED_RECORD = 14        /* a record of a plan is malformed */
};

/*
 * Makes the sheet the empty one of n vertices, whatever its words were: no edge, and each count from a vertex to itself 1, every
 * other 0. Refused by 1, 2. value: 0.
 */
lugloquat_answer lugloquat_empty(size_t n, uint64_t *sheet, size_t words);

/*
 * Inserts the edge from one vertex to another and brings every count up to date, as lugloquat_insert_edges_at does at the vertex
 * `from` with no predecessor and the one successor `to`; but a `to` of n or more is 3. Refused by 1, 2, 3, 5, 6, 8. value: the
 * number of set bits in all rows afterwards.
 */
lugloquat_answer lugloquat_insert_edge(size_t n, uint64_t *sheet, size_t words, size_t from, size_t to);

/*
 * Deletes the edge from one vertex to another and brings every count up to date, as lugloquat_delete_edges_at does at the vertex
 * `from` with no predecessor and the one successor `to`; but a `to` of n or more is 3. Refused by 1, 2, 3, 7. value: the number of
 * set bits in all rows afterwards.
 */
lugloquat_answer lugloquat_delete_edge(size_t n, uint64_t *sheet, size_t words, size_t from, size_t to);

/*
 * Inserts the edges from each vertex of `predecessors` to v and from v to each vertex of `successors`, all at once, and brings
 * every count up to date. Bit j of a mask is 1 exactly if vertex j is in it; with two empty masks the call is accepted, after 1,
 * 2 and 3, and changes nothing. Refused by 1, 2, 3, 4, 5, 6, 8, each looked for in all of these edges before the next. value: the
 * number of set bits in all rows afterwards.
 *
 * Let F(i) be the sum of count(i, a) over the predecessors a, and T(j) the sum of count(b, j) over the successors b. The call
 * adds count(i, v) * T(j) + F(i) * count(v, j) + F(i) * T(j) to count(i, j), modulo 2 to the 64, all from the counts before it.
 * 8 says that some count(v, a), count(b, v) or count(b, a) is not 0; on a valid sheet that is so exactly if there would be a
 * cycle. A valid sheet stays valid; of the paths of any other nothing is claimed.
 */
lugloquat_answer lugloquat_insert_edges_at(size_t n, uint64_t *sheet, size_t words, size_t v, uint64_t predecessors,
                                           uint64_t successors);

/*
 * Deletes the edges from each vertex of `predecessors` to v and from v to each vertex of `successors`, all at once, and brings
 * every count up to date: with F and T as above it takes count(i, v) * T(j) + F(i) * count(v, j) - F(i) * T(j) off count(i, j),
 * modulo 2 to the 64, all from the counts before it. Refused by 1, 2, 3, 4, 7. value: the number of set bits in all rows
 * afterwards. A valid sheet stays valid; two empty masks change nothing. On a sheet that is not valid an edge from v to itself may
 * be there: it may be in one mask or in both, and in both it counts in F and in T.
 */
lugloquat_answer lugloquat_delete_edges_at(size_t n, uint64_t *sheet, size_t words, size_t v, uint64_t predecessors,
                                           uint64_t successors);

/*
 * The count between two vertices as it stands in the sheet; on a valid sheet, the number of paths. Refused by 1, 2, 3 (from or to
 * is n or more). value: the count.
 */
lugloquat_answer lugloquat_path_count(size_t n, const uint64_t *sheet, size_t words, size_t from, size_t to);

/*
 * Whether one vertex leads to another without the edge from `edge_from` to `edge_to`, which has to be there.
 * Refused by 1, 2, 3, 7. value: 1 or 0.
 *
 * The value is 1 exactly if count(from, edge_from) * count(edge_to, to), modulo 2 to the 64, differs from count(from, to). On a
 * valid sheet that is so exactly if some path from the one to the other does not use the edge; of the paths of any other nothing
 * is claimed.
 */
lugloquat_answer lugloquat_reaches_without(size_t n, const uint64_t *sheet, size_t words, size_t from, size_t to, size_t edge_from,
                                           size_t edge_to);

/*
 * Finds path number k, from 0 up, from one vertex to another, and writes its vertices to the first bytes of `path`; the rest of
 * the bytes stay. Refused by 1, 2, 3, 10, 11, 9. value: the number of vertices written.
 *
 * 10 says that `path_bytes` is under n, however short the path; 11 that k is not below count(from, to). The path is then walked:
 * at a vertex that is not `to`, its edges are tried by ascending far vertex b below n; if k is below count(b, to) the walk goes
 * to b, else that count is taken off k. 9 says that no edge fits, that n vertices are there without arriving, or that k is not 0
 * on arriving. On a valid sheet the paths from the one to the other are numbered in ascending order, by the vertex at the first
 * place where they differ, and 9 is never given. On any other the walk may come to a vertex again, and of paths nothing is
 * claimed.
 */
lugloquat_answer lugloquat_unrank(size_t n, const uint64_t *sheet, size_t words, size_t from, size_t to, uint64_t k, uint8_t *path,
                                  size_t path_bytes);

/*
 * The number of a path: `path_bytes` is the number of its vertices. Refused by 1, 2, 3, 12. value: the number.
 *
 * 3 says that any byte is n or more, however many there are; 12 that there are no vertices, more than n, or two neighbours
 * without an edge. A vertex that is there twice is not refused. The value is the sum, modulo 2 to the 64, of count(b, last) for
 * each step of the path from x to y and each b below y with an edge from x, where `last` is the path's last vertex. On a valid
 * sheet that is the number by which lugloquat_unrank finds the path; of the paths of any other nothing is claimed.
 */
lugloquat_answer lugloquat_rank(size_t n, const uint64_t *sheet, size_t words, const uint8_t *path, size_t path_bytes);

/*
 * Reads a plan into a valid sheet: its records are applied in order, each to the sheet as those before it left it, and every count is
 * brought up to date. If a record is refused, those before it are undone, and whatever comes after it is not looked at.
 * Refused by 1, 2, 9, 13, and at a record, whose place from 1 up is answered, by 14, 3, 5, 6, 7, 8. Each record is looked at for
 * all of these before the next: for 14 and 3, then an insertion for 5, 6 and 8, a deletion for 7. value: the number of set bits in
 * all rows afterwards. A valid sheet stays valid; a plan of no bytes is accepted and changes nothing. The call keeps a copy of the
 * sheet on the stack, 33,280 bytes besides what the edits take.
 */
lugloquat_answer lugloquat_read_plan(size_t n, uint64_t *sheet, size_t words, const uint8_t *plan, size_t plan_bytes);

/*
 * Writes the edges of a valid sheet as `L` records, ascending by the vertex that an edge runs from, then by the one that it runs
 * to, to the first bytes of `plan`; the rest of the bytes stay, and nothing ends the plan but its length. Refused by 1, 2, 9, 10
 * (`plan_bytes` is under 8 an edge; 8 * LUGLOQUAT_EDGES are always enough). value: the number of bytes written. Read into an empty
 * sheet of n vertices they give the same words.
 */
lugloquat_answer lugloquat_write_plan(size_t n, const uint64_t *sheet, size_t words, uint8_t *plan, size_t plan_bytes);

/*
 * Works out every count afresh from the rows, which stay. Refused by 1, 2, 4, 8 (an edge from a vertex to itself is a cycle).
 * value: the number of set bits in all rows.
 */
lugloquat_answer lugloquat_recount(size_t n, uint64_t *sheet, size_t words);

/*
 * Whether the sheet is valid, whoever wrote it. Refused by 1, 2. value: 1 if it is, else 0; a sheet that is not valid is accepted
 * with 0.
 */
lugloquat_answer lugloquat_validate(size_t n, const uint64_t *sheet, size_t words);

#ifdef __cplusplus
}
#endif

#endif
