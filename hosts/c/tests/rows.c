/* Rows handed out, taken and tried. */

#include "check.h"
#include "lent.h"
#include "make.h"
#include "sab.h"
#include "tests.h"

#include <string.h>

/* The buffers that a trial is lent. */
struct trial {
    struct lent copy, tree, report;
};

static uint32_t try_row(struct lent log, uint32_t unit, struct lent row, size_t length,
                        struct trial to)
{
    uint32_t r;
    note(log);
    note(row);
    note(to.copy);
    note(to.tree);
    note(to.report);
    r = sab_try(log.bytes, log.length, EMPTY_BASE, ARCHIVE, unit, row.bytes, length,
                to.copy.bytes, to.copy.length, to.tree.bytes, to.tree.length, to.report.bytes,
                to.report.length);
    CHECK(kept(log));
    CHECK(kept(row));
    if (SAB_NUMBER(r) != SAB_OK) {
        CHECK(kept(to.copy));
        CHECK(kept(to.tree));
        CHECK(kept(to.report));
    }
    return r;
}

/* A trial says what a take of the row then does. */
static void expect(struct lent log, struct lent row, size_t length, struct trial to,
                   unsigned taken, unsigned stopped)
{
    static uint8_t after[SAB_LOG_BYTES], tree[SAB_TREE_BYTES];
    uint8_t vector[SAB_VECTOR_BYTES];
    uint32_t r = try_row(log, 0, row, length, to);
    CHECK(r == 0);
    CHECK(to.report.bytes[0] == taken && to.report.bytes[1] == stopped);
    memcpy(after, log.bytes, sizeof after);
    r = sab_take_row(after, sizeof after, EMPTY_BASE, NULL, 0, ARCHIVE, 0, row.bytes, length,
                     NO_WORK);
    CHECK(SAB_NUMBER(r) == SAB_OK && SAB_PLACE(r) == 0);
    CHECK(SAB_TAKEN(r) == taken && SAB_STOPPED(r) == stopped);
    CHECK(memcmp(after, to.copy.bytes, sizeof after) == 0);
    CHECK(sab_show(after, sizeof after, EMPTY_BASE, tree, sizeof tree) == 0);
    CHECK(memcmp(tree, to.tree.bytes, sizeof tree) == 0);
    counts(after, vector);
    CHECK(memcmp(vector, to.report.bytes + 4, sizeof vector) == 0);
}

static void test_refused(struct lent log, struct lent row, struct trial to)
{
    static const uint8_t none[SAB_VECTOR_BYTES];
    int i;
    size_t part = SAB_BLOCK_BYTES + 1;
    for (i = 0; i < WRONG_LENGTHS; i++) {
        struct trial wrong = to;
        wrong.report.length = wrong_length(SAB_REPORT_BYTES, i);
        CHECK(sab_try(log.bytes, log.length, EMPTY_BASE, ARCHIVE, 8, row.bytes, part,
                      to.copy.bytes, to.copy.length, to.tree.bytes, to.tree.length, nowhere(),
                      wrong.report.length) == SAB_BAD_BUFFER);
        CHECK(sab_take_row(nowhere(), wrong_length(SAB_LOG_BYTES, i), EMPTY_BASE, NULL, 0,
                           ARCHIVE, 8, row.bytes, part, NO_WORK) == SAB_BAD_BUFFER);
        CHECK(sab_hand_out_row(log.bytes, log.length, EMPTY_BASE, ARCHIVE, 8, none, sizeof none,
                               nowhere(), wrong_length(SAB_FILE_BYTES, i)) == SAB_BAD_BUFFER);
    }
    for (i = 0; i < WIDE_UNITS; i++) {
        CHECK(try_row(log, wide_unit(i), row, part, to) == SAB_BAD_UNIT);
        CHECK(sab_take_row(log.bytes, log.length, EMPTY_BASE, NULL, 0, ARCHIVE, wide_unit(i),
                           row.bytes, part, NO_WORK) == SAB_BAD_UNIT);
    }
    log.bytes[1] ^= 0x80;
    CHECK(try_row(log, 0, row, part, to) == SAB_BAD_LENGTH);
    CHECK(try_row(log, 0, row, SAB_BLOCK_BYTES, to) == SAB_UNSOUND_LOG);
    CHECK(sab_try(log.bytes, log.length, EMPTY_BASE, ARCHIVE, 0, nowhere(),
                  SAB_FILE_BYTES + SAB_BLOCK_BYTES, to.copy.bytes, to.copy.length, to.tree.bytes,
                  to.tree.length, to.report.bytes, to.report.length) == SAB_BAD_LENGTH);
    log.bytes[1] ^= 0x80;
}

void test_rows(void)
{
    static uint8_t full[SAB_LOG_BYTES];
    uint8_t asked[SAB_VECTOR_BYTES];
    struct lent log = lend(SAB_LOG_BYTES), row = lend(SAB_FILE_BYTES);
    struct trial to;
    size_t i, length;
    uint32_t r;
    to.copy = lend(SAB_LOG_BYTES);
    to.tree = lend(SAB_TREE_BYTES);
    to.report = lend(SAB_REPORT_BYTES);
    full_log(full);
    memset(log.bytes, 0, SAB_LOG_BYTES);
    memcpy(log.bytes, full, 100 * SAB_RECORD_BYTES);
    counts(log.bytes, asked);

    r = sab_hand_out_row(full, sizeof full, EMPTY_BASE, ARCHIVE, 1, asked, sizeof asked,
                         row.bytes, row.length);
    CHECK(SAB_NUMBER(r) == SAB_OK && SAB_COUNT(r) == (512 - 100 + 5) / 6);
    length = SAB_BLOCK_BYTES * SAB_COUNT(r);
    for (i = length; i < row.length; i++)
        CHECK(row.bytes[i] == 0);
    expect(log, row, length, to, (unsigned)SAB_COUNT(r), 0);
    CHECK(memcmp(to.copy.bytes, full, sizeof full) == 0);
    expect(log, row, 0, to, 0, 0);
    row.bytes[5 * SAB_BLOCK_BYTES + 60] ^= 1;
    expect(log, row, length, to, 5, SAB_BAD_SUM);
    row.bytes[5 * SAB_BLOCK_BYTES] ^= 1;
    expect(log, row, length, to, 5, SAB_BAD_LETTERS);
    test_refused(log, row, to);
}
