/* A program in C and in C++ that makes each call through the header, accepted and refused. It returns 0 if every answer is right. */
#include "lugloquat.h"
#include "lugloquat.h"
#include <string.h>

typedef char greatest[LUGLOQUAT_WORD_COUNT(LUGLOQUAT_VERTICES) == LUGLOQUAT_WORDS ? 1 : -1];
typedef char grouped[LUGLOQUAT_WORD_COUNT(2 + 3) == 30 ? 1 : -1];
typedef char whole[sizeof(lugloquat_answer) == 3 * sizeof(uint64_t) ? 1 : -1];

static int is(lugloquat_answer answer, uint64_t number, uint64_t value) {
    return answer.number == number && answer.place == 0 && answer.value == value;
}

/* The empty sheet of one vertex. */
static int accepted(void) {
    uint64_t sheet[LUGLOQUAT_WORD_COUNT(1)] = {7, 7};
    return is(lugloquat_empty(1, sheet, 2), LUGLOQUAT_ACCEPTED, 0) && sheet[0] == 0 && sheet[1] == 1 &&
           is(lugloquat_path_count(1, sheet, 2, 0, 0), LUGLOQUAT_ACCEPTED, 1) &&
           is(lugloquat_recount(1, sheet, 2), LUGLOQUAT_ACCEPTED, 0) && is(lugloquat_validate(1, sheet, 2), LUGLOQUAT_ACCEPTED, 1);
}

/* Two vertices: an edge inserted and deleted, alone and by masks; and what is refused on the way. */
static int edited(void) {
    uint64_t sheet[LUGLOQUAT_WORD_COUNT(2)];
    return is(lugloquat_empty(2, sheet, 6), LUGLOQUAT_ACCEPTED, 0) &&
           is(lugloquat_insert_edge(2, sheet, 6, 0, 1), LUGLOQUAT_ACCEPTED, 1) && sheet[0] == 2 && sheet[3] == 1 &&
           is(lugloquat_insert_edge(2, sheet, 6, 1, 0), LUGLOQUAT_REFUSED_CYCLE, 0) &&
           is(lugloquat_delete_edge(2, sheet, 6, 0, 1), LUGLOQUAT_ACCEPTED, 0) && sheet[0] == 0 && sheet[3] == 0 &&
           is(lugloquat_delete_edge(2, sheet, 6, 0, 1), LUGLOQUAT_REFUSED_ABSENT, 0) &&
           is(lugloquat_insert_edges_at(2, sheet, 6, 0, 2, 0), LUGLOQUAT_ACCEPTED, 1) && sheet[1] == 1 && sheet[4] == 1 &&
           is(lugloquat_insert_edges_at(2, sheet, 6, 0, 2, 0), LUGLOQUAT_REFUSED_PRESENT, 0) &&
           is(lugloquat_delete_edges_at(2, sheet, 6, 0, 2, 0), LUGLOQUAT_ACCEPTED, 0) && sheet[1] == 0 && sheet[4] == 0 &&
           is(lugloquat_delete_edges_at(2, sheet, 6, 0, 4, 0), LUGLOQUAT_REFUSED_STRAY_BIT, 0);
}

/* Three vertices, and the edges 0 to 1, 1 to 2 and 0 to 2: two paths from 0 to 2, and a byte that is not theirs. */
static int asked(void) {
    uint64_t sheet[LUGLOQUAT_WORD_COUNT(3)];
    uint8_t path[4] = {7, 7, 7, 7};
    return is(lugloquat_empty(3, sheet, 12), LUGLOQUAT_ACCEPTED, 0) &&
           is(lugloquat_insert_edges_at(3, sheet, 12, 0, 0, 6), LUGLOQUAT_ACCEPTED, 2) &&
           is(lugloquat_reaches_without(3, sheet, 12, 0, 2, 0, 2), LUGLOQUAT_ACCEPTED, 0) &&
           is(lugloquat_insert_edge(3, sheet, 12, 1, 2), LUGLOQUAT_ACCEPTED, 3) &&
           is(lugloquat_reaches_without(3, sheet, 12, 0, 2, 0, 2), LUGLOQUAT_ACCEPTED, 1) &&
           is(lugloquat_reaches_without(3, sheet, 12, 0, 2, 2, 1), LUGLOQUAT_REFUSED_ABSENT, 0) &&
           is(lugloquat_unrank(3, sheet, 12, 0, 2, 2, path, 3), LUGLOQUAT_REFUSED_NO_SUCH_PATH, 0) &&
           is(lugloquat_unrank(3, sheet, 12, 0, 2, 0, path, 2), LUGLOQUAT_REFUSED_BUFFER, 0) && path[0] == 7 &&
           is(lugloquat_unrank(3, sheet, 12, 0, 2, 1, path, 4), LUGLOQUAT_ACCEPTED, 2) && path[0] == 0 && path[1] == 2 &&
           path[2] == 7 && is(lugloquat_rank(3, sheet, 12, path, 2), LUGLOQUAT_ACCEPTED, 1) &&
           is(lugloquat_unrank(3, sheet, 12, 0, 2, 0, path, 4), LUGLOQUAT_ACCEPTED, 3) && path[1] == 1 && path[2] == 2 &&
           is(lugloquat_rank(3, sheet, 12, path, 3), LUGLOQUAT_ACCEPTED, 0) &&
           is(lugloquat_rank(3, sheet, 12, path, 4), LUGLOQUAT_REFUSED_VERTEX, 0) &&
           is(lugloquat_rank(3, sheet, 12, path, 0), LUGLOQUAT_REFUSED_NO_PATH, 0);
}

/* Refused at a record. */
static int is_at(lugloquat_answer answer, uint64_t number, uint64_t place) {
    return answer.number == number && answer.place == place && answer.value == 0;
}

static lugloquat_answer read_plan(uint64_t *sheet, const char *plan) {
    return lugloquat_read_plan(3, sheet, 12, (const uint8_t *)plan, strlen(plan));
}

/* Three vertices: plans read, and refused at a record or for their length; a plan written, and a byte that is not its own. */
static int planned(void) {
    uint64_t sheet[LUGLOQUAT_WORD_COUNT(3)];
    uint8_t plan[17] = {7};
    return is(lugloquat_empty(3, sheet, 12), LUGLOQUAT_ACCEPTED, 0) &&
           is(read_plan(sheet, "L 01 02\nL 00 02\nL 00 01\nT 00 02\n"), LUGLOQUAT_ACCEPTED, 2) &&
           is_at(read_plan(sheet, "L 00 02\nL 02 00\n"), LUGLOQUAT_REFUSED_CYCLE, 2) &&
           is_at(read_plan(sheet, "L 00 03\nL 02 00\n"), LUGLOQUAT_REFUSED_VERTEX, 1) &&
           is_at(read_plan(sheet, "l 00 02\n"), LUGLOQUAT_REFUSED_RECORD, 1) &&
           is(read_plan(sheet, "L 00 02"), LUGLOQUAT_REFUSED_PLAN_LENGTH, 0) && is(read_plan(sheet, ""), LUGLOQUAT_ACCEPTED, 2) &&
           is(lugloquat_path_count(3, sheet, 12, 0, 2), LUGLOQUAT_ACCEPTED, 1) &&
           is(lugloquat_write_plan(3, sheet, 12, plan, 15), LUGLOQUAT_REFUSED_BUFFER, 0) && plan[0] == 7 &&
           is(lugloquat_write_plan(3, sheet, 12, plan, 17), LUGLOQUAT_ACCEPTED, 16) && plan[16] == 0 &&
           memcmp(plan, "L 00 01\nL 01 02\n", 16) == 0 && ++sheet[3] == 2 &&
           is(read_plan(sheet, ""), LUGLOQUAT_REFUSED_NOT_VALID, 0) &&
           is(lugloquat_write_plan(3, sheet, 12, plan, 17), LUGLOQUAT_REFUSED_NOT_VALID, 0);
}

/* A sheet of no words may be NULL, and so may a path or a plan of no bytes. */
static int refused(void) {
    return is(lugloquat_empty(0, NULL, 0), LUGLOQUAT_REFUSED_VERTICES, 0) &&
           is(lugloquat_insert_edge(65, NULL, 0, 0, 0), LUGLOQUAT_REFUSED_VERTICES, 0) &&
           is(lugloquat_delete_edge(2, NULL, 0, 0, 0), LUGLOQUAT_REFUSED_LENGTH, 0) &&
           is(lugloquat_insert_edges_at(0, NULL, 0, 0, 0, 0), LUGLOQUAT_REFUSED_VERTICES, 0) &&
           is(lugloquat_delete_edges_at(64, NULL, 0, 0, 0, 0), LUGLOQUAT_REFUSED_LENGTH, 0) &&
           is(lugloquat_path_count(65, NULL, 0, 0, 0), LUGLOQUAT_REFUSED_VERTICES, 0) &&
           is(lugloquat_reaches_without(2, NULL, 0, 0, 0, 0, 0), LUGLOQUAT_REFUSED_LENGTH, 0) &&
           is(lugloquat_unrank(65, NULL, 0, 0, 0, 0, NULL, 0), LUGLOQUAT_REFUSED_VERTICES, 0) &&
           is(lugloquat_rank(2, NULL, 0, NULL, 0), LUGLOQUAT_REFUSED_LENGTH, 0) &&
           is(lugloquat_read_plan(0, NULL, 0, NULL, 0), LUGLOQUAT_REFUSED_VERTICES, 0) &&
           is(lugloquat_write_plan(1, NULL, 0, NULL, 0), LUGLOQUAT_REFUSED_LENGTH, 0) &&
           is(lugloquat_recount(1, NULL, 0), LUGLOQUAT_REFUSED_LENGTH, 0) &&
           is(lugloquat_validate(64, NULL, 0), LUGLOQUAT_REFUSED_LENGTH, 0);
}

int main(void) {
    return !(accepted() && edited() && asked() && planned() && refused());
}
