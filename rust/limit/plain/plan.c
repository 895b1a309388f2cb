/* Plans: records of 8 bytes, read into a sheet as edits and written from its edges. */
#include "internal.h"

enum {
    RECORD_BYTES = 8,
    PLAN_BYTES = 32768 /* of the longest plan that is read */
};

/* A record: 'L' or 'T', and the two vertices, which may be up to 99. */
typedef struct {
    uint8_t letter;
    size_t from;
    size_t to;
} record;

static inline bool is_digit(uint8_t c)
{
    return c >= '0' && c <= '9';
}

/* Reads one record, and says whether it is well formed. */
static bool parse_record(const uint8_t *bytes, record *r)
{
    if (bytes[0] != 'L' && bytes[0] != 'T')
        return false;
    if (bytes[1] != ' ' || bytes[4] != ' ' || bytes[7] != '\n')
        return false;
    if (!is_digit(bytes[2]) || !is_digit(bytes[3]) || !is_digit(bytes[5]) || !is_digit(bytes[6]))
        return false;

    r->letter = bytes[0];
    r->from = (size_t)(bytes[2] - '0') * 10 + (size_t)(bytes[3] - '0');
    r->to = (size_t)(bytes[5] - '0') * 10 + (size_t)(bytes[6] - '0');
    return true;
}

static void write_record(uint8_t *bytes, size_t from, size_t to)
{
    bytes[0] = 'L';
    bytes[1] = ' ';
    bytes[2] = (uint8_t)('0' + from / 10);
    bytes[3] = (uint8_t)('0' + from % 10);
    bytes[4] = ' ';
    bytes[5] = (uint8_t)('0' + to / 10);
    bytes[6] = (uint8_t)('0' + to % 10);
    bytes[7] = '\n';
}

/* Applies one record to the sheet, whose shape is right. */
static plain_answer apply_record(size_t n, uint64_t *sheet, size_t words, const uint8_t *bytes)
{
    record r;
    if (!parse_record(bytes, &r))
        return refused(PLAIN_REFUSED_RECORD);
    if (r.letter == 'L')
        return plain_insert_edge(n, sheet, words, r.from, r.to);
    return plain_delete_edge(n, sheet, words, r.from, r.to);
}

plain_answer plain_read_plan(size_t n, uint64_t *sheet, size_t words, const uint8_t *plan, size_t plan_bytes)
{
    uint64_t number = check_shape(n, words);
    if (number != PLAIN_ACCEPTED)
        return refused(number);
    if (!plain_is_valid(n, sheet))
        return refused(PLAIN_REFUSED_NOT_VALID);
    if (plan_bytes % RECORD_BYTES != 0 || plan_bytes > PLAN_BYTES)
        return refused(PLAIN_REFUSED_PLAN_LENGTH);

    uint64_t before[PLAIN_WORDS];
    memcpy(before, sheet, words * sizeof *sheet);

    size_t records = plan_bytes / RECORD_BYTES;
    for (size_t k = 0; k < records; k++) {
        plain_answer answer = apply_record(n, sheet, words, plan + k * RECORD_BYTES);
        if (answer.number != PLAIN_ACCEPTED) {
            memcpy(sheet, before, words * sizeof *sheet);
            answer.place = k + 1;
            return answer;
        }
    }
    return accepted(count_edges(n, sheet));
}

plain_answer plain_write_plan(size_t n, const uint64_t *sheet, size_t words, uint8_t *plan, size_t plan_bytes)
{
    uint64_t number = check_shape(n, words);
    if (number != PLAIN_ACCEPTED)
        return refused(number);
    if (!plain_is_valid(n, sheet))
        return refused(PLAIN_REFUSED_NOT_VALID);

    size_t needed = (size_t)count_edges(n, sheet) * RECORD_BYTES;
    if (plan_bytes < needed)
        return refused(PLAIN_REFUSED_BUFFER);

    uint8_t *next = plan;
    for (size_t i = 0; i < n; i++) {
        for (uint64_t row = sheet[i]; row != 0; row &= row - 1) {
            write_record(next, i, lowest(row));
            next += RECORD_BYTES;
        }
    }
    return accepted(needed);
}
