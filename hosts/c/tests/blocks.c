/* Handing out and taking. */

#include "check.h"
#include "lent.h"
#include "sab.h"
#include "make.h"
#include "tests.h"

#include <string.h>

static uint32_t hand_out(struct lent log, uint32_t unit, struct lent asked, struct lent block)
{
    uint32_t r;
    only_read(log, 1);
    only_read(asked, 1);
    note(block);
    r = sab_hand_out(log.bytes, SAB_LOG_BYTES, EMPTY_BASE, ARCHIVE, unit, asked.bytes,
                     SAB_VECTOR_BYTES, block.bytes, SAB_BLOCK_BYTES);
    only_read(log, 0);
    only_read(asked, 0);
    CHECK(r == SAB_OK || kept(block));
    return r;
}

/* The block of some records of a log, by the words of the paper. */
static void expect_block(uint8_t *block, uint8_t unit, const uint8_t *log, unsigned from, unsigned count)
{
    memset(block, 0, SAB_BLOCK_BYTES);
    memcpy(block, "SAB1", 4);
    block[4] = ARCHIVE;
    block[8] = unit;
    block[9] = (uint8_t)count;
    counts(log, block + 12);
    memcpy(block + 28, log + SAB_RECORD_BYTES * from, SAB_RECORD_BYTES * count);
    seal(block);
}

static void test_wrong_buffers(struct lent log, struct lent asked, struct lent block)
{
    int i;
    note(log);
    note(block);
    for (i = 0; i < WRONG_LENGTHS; i++) {
        size_t no_log = wrong_length(SAB_LOG_BYTES, i), no_asked = wrong_length(SAB_VECTOR_BYTES, i),
               no_block = wrong_length(SAB_BLOCK_BYTES, i);
        CHECK(sab_hand_out(nowhere(), no_log, EMPTY_BASE, ARCHIVE, 0, asked.bytes,
                           SAB_VECTOR_BYTES, block.bytes, SAB_BLOCK_BYTES) == SAB_BAD_BUFFER);
        CHECK(sab_hand_out(log.bytes, SAB_LOG_BYTES, EMPTY_BASE, ARCHIVE, 0, nowhere(), no_asked,
                           block.bytes, SAB_BLOCK_BYTES) == SAB_BAD_BUFFER);
        CHECK(sab_hand_out(log.bytes, SAB_LOG_BYTES, EMPTY_BASE, ARCHIVE, 0, asked.bytes,
                           SAB_VECTOR_BYTES, nowhere(), no_block) == SAB_BAD_BUFFER);
        CHECK(sab_hand_out(nowhere(), no_log, EMPTY_BASE, ARCHIVE, 8, nowhere(), no_asked,
                           nowhere(), no_block) == SAB_BAD_BUFFER);
    }
    CHECK(kept(log) && kept(block));
}

void test_hand_out(void)
{
    uint8_t expected[SAB_BLOCK_BYTES];
    struct lent log = lend(SAB_LOG_BYTES), asked = lend_low(SAB_VECTOR_BYTES),
                block = lend(SAB_BLOCK_BYTES);
    unsigned given;
    int w;
    full_log(log.bytes);
    test_wrong_buffers(log, asked, block);
    memset(asked.bytes, 0, SAB_VECTOR_BYTES);
    for (given = 0; given < 512; given += 6) {
        unsigned count = given + 6 > 512 ? 2 : 6, i;
        fill(block);
        CHECK(hand_out(log, 5, asked, block) == SAB_OK);
        expect_block(expected, 5, log.bytes, given, count);
        CHECK(memcmp(block.bytes, expected, SAB_BLOCK_BYTES) == 0);
        for (i = 0; i < count; i++) {
            uint8_t *of_unit = asked.bytes + 2 * log.bytes[SAB_RECORD_BYTES * (given + i)];
            put16(of_unit, get16(of_unit) + 1);
        }
    }
    expect_block(expected, 0, log.bytes, 0, 0);
    CHECK(hand_out(log, 0, asked, block) == SAB_OK);
    CHECK(memcmp(block.bytes, expected, SAB_BLOCK_BYTES) == 0);
    memset(asked.bytes, 0xFF, SAB_VECTOR_BYTES);
    CHECK(hand_out(log, 0, asked, block) == SAB_OK);
    CHECK(memcmp(block.bytes, expected, SAB_BLOCK_BYTES) == 0);
    for (w = 0; w < WIDE_UNITS; w++)
        CHECK(hand_out(log, wide_unit(w), asked, block) == SAB_BAD_UNIT);
    log.bytes[1] = 9;
    CHECK(hand_out(log, 0, asked, block) == SAB_UNSOUND_LOG);
    CHECK(hand_out(log, 8, asked, block) == SAB_BAD_UNIT);
}

/* Takes once; a refusal must leave the log. */
static uint32_t take(struct lent log, uint32_t unit, struct lent block)
{
    uint32_t r;
    note(log);
    only_read(block, 1);
    r = sab_take(log.bytes, SAB_LOG_BYTES, EMPTY_BASE, NULL, 0, ARCHIVE, unit, block.bytes,
                 SAB_BLOCK_BYTES, NO_WORK);
    only_read(block, 0);
    CHECK(r == SAB_OK || kept(log));
    return r;
}

/* Takes a block in which one byte was changed and the sums put right. */
static uint32_t take_changed(struct lent log, struct lent block, const uint8_t *good, size_t at,
                             uint8_t byte)
{
    memcpy(block.bytes, good, SAB_BLOCK_BYTES);
    block.bytes[at] = byte;
    seal(block.bytes);
    return take(log, 3, block);
}

/* `good` holds 0.1, 0.2 and 1.1 of the bench example; `log` is empty. */
static void test_refused_blocks(struct lent log, struct lent block, const uint8_t *good)
{
    size_t at;
    for (at = 0; at < SAB_BLOCK_BYTES; at++) {
        memcpy(block.bytes, good, SAB_BLOCK_BYTES);
        block.bytes[at] ^= 0x10;
        CHECK(take(log, 3, block) == (at < 4 ? SAB_BAD_LETTERS : SAB_BAD_SUM));
    }
    CHECK(take_changed(log, block, good, 8, 8) == SAB_BAD_HEADER);
    CHECK(take_changed(log, block, good, 9, 7) == SAB_BAD_HEADER);
    CHECK(take_changed(log, block, good, 9, 2) == SAB_BAD_HEADER);
    CHECK(take_changed(log, block, good, 28 + 80 * 3, 1) == SAB_BAD_HEADER);
    CHECK(take_changed(log, block, good, 507, 1) == SAB_BAD_HEADER);
    CHECK(take_changed(log, block, good, 4, 8) == SAB_OTHER_ARCHIVE);
    CHECK(take_changed(log, block, good, 28 + 31, 32) == SAB_MALFORMED);
    CHECK(take_changed(log, block, good, 28 + 80, 8) == SAB_MALFORMED);
    CHECK(take_changed(log, block, good, 9, 4) == SAB_MALFORMED);
    CHECK(take_changed(log, block, good, 28 + 160 + 6, 1) == SAB_MALFORMED);
    CHECK(take_changed(log, block, good, 28 + 160 + 8, 1) == SAB_NOT_NEXT);
    memcpy(block.bytes, good, SAB_BLOCK_BYTES);
    memcpy(block.bytes + 28 + 160, block.bytes + 28 + 80, SAB_RECORD_BYTES);
    block.bytes[28 + 160 + 79] ^= 1;
    seal(block.bytes);
    CHECK(take(log, 3, block) == SAB_OTHER_BYTES);
}

/* 2.1 has seen 1.1, which saw 0.1, but not 0.1. */
static void test_not_closed(struct lent log, struct lent block, const uint8_t *all)
{
    uint8_t *record = block.bytes + 28 + 160;
    memset(log.bytes, 0, SAB_LOG_BYTES);
    expect_block(block.bytes, 1, all, 0, 2);
    memcpy(block.bytes + 28 + 80, all + 160, SAB_RECORD_BYTES);
    block.bytes[9] = 3;
    wish_make(record, 2, SAB_MAKE_FOLDER, id_of(0, 0), "F");
    put16(record + 2, 1);
    put16(record + 6, 1);
    seal(block.bytes);
    CHECK(take(log, 3, block) == SAB_NOT_CLOSED);
    put16(record + 4, 1);
    seal(block.bytes);
    CHECK(take(log, 3, block) == SAB_OK);
    CHECK(held(log.bytes) == 3 && log.bytes[160] == 2);
}

static void test_order_of_checks(struct lent log, struct lent block)
{
    int i;
    note(log);
    note(block);
    for (i = 0; i < WRONG_LENGTHS; i++) {
        size_t no_log = wrong_length(SAB_LOG_BYTES, i), no_block = wrong_length(SAB_BLOCK_BYTES, i);
        CHECK(sab_take(nowhere(), no_log, EMPTY_BASE, NULL, 0, ARCHIVE, 0, block.bytes,
                       SAB_BLOCK_BYTES, NO_WORK) == SAB_BAD_BUFFER);
        CHECK(sab_take(log.bytes, SAB_LOG_BYTES, EMPTY_BASE, NULL, 0, ARCHIVE, 0, nowhere(),
                       no_block, NO_WORK) == SAB_BAD_LENGTH);
        CHECK(sab_take(log.bytes, SAB_LOG_BYTES, EMPTY_BASE, NULL, 0, ARCHIVE, 8, nowhere(),
                       no_block, NO_WORK) == SAB_BAD_UNIT);
        CHECK(sab_take(nowhere(), no_log, EMPTY_BASE, NULL, 0, ARCHIVE, 8, nowhere(), no_block,
                       NO_WORK) == SAB_BAD_BUFFER);
    }
    CHECK(kept(log) && kept(block));
    log.bytes[1] = 9;
    CHECK(sab_take(log.bytes, SAB_LOG_BYTES, EMPTY_BASE, NULL, 0, ARCHIVE, 0, nowhere(), 0,
                   NO_WORK) == SAB_UNSOUND_LOG);
    block.bytes[0] = 0;
    CHECK(take(log, 0, block) == SAB_UNSOUND_LOG);
    for (i = 0; i < WIDE_UNITS; i++)
        CHECK(take(log, wide_unit(i), block) == SAB_BAD_UNIT);
}

/* A block whose count, place and vector say little is taken, also twice. */
static void test_taken(struct lent log, struct lent block, const uint8_t *all)
{
    memset(log.bytes, 0, SAB_LOG_BYTES);
    expect_block(block.bytes, 0, all, 0, 3);
    memset(block.bytes + 10, 0x5A, 18);
    memcpy(block.bytes + 28 + 80, all + 160, SAB_RECORD_BYTES);
    memcpy(block.bytes + 28 + 160, all + 80, SAB_RECORD_BYTES);
    seal(block.bytes);
    CHECK(take(log, 0, block) == SAB_OK);
    CHECK(memcmp(log.bytes, all, SAB_LOG_BYTES) == 0);
    CHECK(take(log, 0, block) == SAB_OK);
    CHECK(memcmp(log.bytes, all, SAB_LOG_BYTES) == 0);
    block.bytes[28 + 31] = 28;
    seal(block.bytes);
    CHECK(take(log, 0, block) == SAB_OTHER_BYTES);
    memset(log.bytes, 0, SAB_LOG_BYTES);
    expect_block(block.bytes, 0, all, 1, 2);
    CHECK(take(log, 0, block) == SAB_NOT_NEXT);
}

/* Nothing new goes into a full log, but what it holds may come again. */
static void test_full(struct lent log, struct lent block)
{
    uint8_t *record;
    full_log(log.bytes);
    expect_block(block.bytes, 0, log.bytes, 506, 6);
    CHECK(take(log, 0, block) == SAB_OK);
    record = block.bytes + 28 + 5 * SAB_RECORD_BYTES;
    wish_make(record, 7, SAB_MAKE_FOLDER, id_of(0, 0), "F");
    put16(record + 2, 1);
    seal(block.bytes);
    CHECK(take(log, 0, block) == SAB_FULL_LOG);
    put16(record + 4, 1);
    put16(record + 6, 171);
    seal(block.bytes);
    CHECK(take(log, 0, block) == SAB_NOT_CLOSED);
    put16(record + 6, 172);
    seal(block.bytes);
    CHECK(take(log, 0, block) == SAB_NOT_NEXT);
}

void test_take(void)
{
    static uint8_t apart[SAB_LOG_BYTES], all[SAB_LOG_BYTES];
    uint8_t good[SAB_BLOCK_BYTES];
    struct lent log = lend(SAB_LOG_BYTES), block = lend(SAB_BLOCK_BYTES);
    bench_logs(apart, all);
    expect_block(good, 0, all, 0, 3);
    memset(log.bytes, 0, SAB_LOG_BYTES);
    test_refused_blocks(log, block, good);
    test_not_closed(log, block, all);
    test_taken(log, block, all);
    memset(log.bytes, 0, SAB_LOG_BYTES);
    memcpy(block.bytes, good, SAB_BLOCK_BYTES);
    test_order_of_checks(log, block);
    test_full(log, block);
}
