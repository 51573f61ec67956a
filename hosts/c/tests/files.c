/* Writing an SAB1 file and reading it. */

#include "check.h"
#include "lent.h"
#include "sab.h"
#include "make.h"
#include "tests.h"

#include <string.h>

static uint32_t write_file(struct lent log, uint32_t unit, struct lent file)
{
    uint32_t r;
    only_read(log, 1);
    note(file);
    r = sab_write_file(log.bytes, SAB_LOG_BYTES, EMPTY_BASE, ARCHIVE, unit, file.bytes,
                       SAB_FILE_BYTES);
    only_read(log, 0);
    CHECK(SAB_NUMBER(r) == SAB_OK || kept(file));
    return r;
}

/* The file of the first records of a log, by the words of the paper. */
static void expect_file(uint8_t *file, const uint8_t *log, uint8_t unit)
{
    unsigned n = held(log), place = 0, from = 0;
    memset(file, 0, SAB_FILE_BYTES);
    do {
        uint8_t *block = file + SAB_BLOCK_BYTES * place;
        unsigned count = n - from > 6 ? 6 : n - from;
        memcpy(block, "SAB1", 4);
        block[4] = ARCHIVE;
        block[8] = unit;
        block[9] = (uint8_t)count;
        put16(block + 10, place);
        counts(log, block + 12);
        memcpy(block + 28, log + SAB_RECORD_BYTES * from, SAB_RECORD_BYTES * count);
        seal(block);
        from += count;
        place++;
    } while (from < n);
}

/* Keeps the first n records of a log. */
static void shorten(uint8_t *log, unsigned n)
{
    memset(log + SAB_RECORD_BYTES * n, 0, SAB_LOG_BYTES - SAB_RECORD_BYTES * n);
}

void test_write_file(void)
{
    static const unsigned sizes[8][2] = {{512, 86}, {511, 86}, {510, 85}, {13, 3},
                                         {12, 2},   {6, 1},    {1, 1},    {0, 1}};
    static uint8_t expected[SAB_FILE_BYTES];
    struct lent log = lend(SAB_LOG_BYTES), file = lend(SAB_FILE_BYTES);
    int i;
    full_log(log.bytes);
    for (i = 0; i < 8; i++) {
        shorten(log.bytes, sizes[i][0]);
        fill(file);
        CHECK(write_file(log, 4, file) == sizes[i][1] << 16);
        expect_file(expected, log.bytes, 4);
        CHECK(memcmp(file.bytes, expected, SAB_FILE_BYTES) == 0);
    }
    for (i = 0; i < WIDE_UNITS; i++)
        CHECK(write_file(log, wide_unit(i), file) == SAB_BAD_UNIT);
    log.bytes[SAB_LOG_BYTES - 1] = 1;
    CHECK(write_file(log, 8, file) == SAB_BAD_UNIT);
    CHECK(write_file(log, 0, file) == SAB_UNSOUND_LOG);
    note(log);
    note(file);
    for (i = 0; i < WRONG_LENGTHS; i++) {
        size_t no_log = wrong_length(SAB_LOG_BYTES, i), no_file = wrong_length(SAB_FILE_BYTES, i);
        CHECK(sab_write_file(nowhere(), no_log, EMPTY_BASE, ARCHIVE, 8, file.bytes,
                             SAB_FILE_BYTES) == SAB_BAD_BUFFER);
        CHECK(sab_write_file(log.bytes, SAB_LOG_BYTES, EMPTY_BASE, ARCHIVE, 8, nowhere(), no_file) ==
              SAB_BAD_BUFFER);
    }
    CHECK(kept(log) && kept(file));
}

/* Reads the first bytes of a file; a refusal must leave log and head. */
static uint32_t read_file(struct lent log, struct lent file, size_t length, struct lent head)
{
    uint32_t r;
    fill(log);
    fill(head);
    note(log);
    note(head);
    only_read(file, 1);
    r = sab_read_file(log.bytes, SAB_LOG_BYTES, SPARE_BASE, file.bytes + SAB_FILE_BYTES - length,
                      length, head.bytes, SAB_HEAD_BYTES);
    only_read(file, 0);
    CHECK(SAB_NUMBER(r) == SAB_OK || (kept(log) && kept(head)));
    return r;
}

/* A refusal: number and place. */
static uint32_t at(unsigned number, unsigned place)
{
    return number + 256u * place;
}

static void test_read_back(struct lent log, struct lent file, struct lent head)
{
    static uint8_t full[SAB_LOG_BYTES], whole[SAB_FILE_BYTES];
    static const unsigned sizes[5] = {512, 510, 7, 1, 0};
    uint8_t vector[SAB_VECTOR_BYTES];
    int i;
    full_log(full);
    for (i = 0; i < 5; i++) {
        size_t length;
        uint32_t r;
        shorten(full, sizes[i]);
        r = sab_write_file(full, SAB_LOG_BYTES, EMPTY_BASE, 0xA1B2C3D4u, 6, whole, SAB_FILE_BYTES);
        length = SAB_BLOCK_BYTES * SAB_COUNT(r);
        memcpy(file.bytes + SAB_FILE_BYTES - length, whole, length);
        CHECK(read_file(log, file, length, head) == sizes[i] << 16);
        CHECK(memcmp(log.bytes, full, SAB_LOG_BYTES) == 0);
        counts(full, vector);
        CHECK(memcmp(head.bytes, "\xD4\xC3\xB2\xA1\x06\x00", 6) == 0);
        CHECK(get16(head.bytes + 6) == sizes[i]);
        CHECK(memcmp(head.bytes + 8, vector, SAB_VECTOR_BYTES) == 0);
    }
}

/* A file of 13 records in three blocks, at the end of the buffer. */
static uint8_t *three_blocks(struct lent file)
{
    static uint8_t log[SAB_LOG_BYTES], whole[SAB_FILE_BYTES];
    uint8_t *first = file.bytes + SAB_FILE_BYTES - 3 * SAB_BLOCK_BYTES;
    if (held(log) == 0) {
        full_log(log);
        shorten(log, 13);
        expect_file(whole, log, 2);
    }
    memcpy(first, whole, 3 * SAB_BLOCK_BYTES);
    return first;
}

/* Reads three blocks of which one has a changed byte and right sums. */
static uint32_t read_changed(struct lent log, struct lent file, struct lent head, unsigned block,
                             size_t offset, uint8_t byte)
{
    uint8_t *changed = three_blocks(file) + SAB_BLOCK_BYTES * block;
    changed[offset] = byte;
    seal(changed);
    return read_file(log, file, 3 * SAB_BLOCK_BYTES, head);
}

static void test_refused_files(struct lent log, struct lent file, struct lent head)
{
    unsigned block;
    for (block = 0; block < 3; block++) {
        three_blocks(file)[SAB_BLOCK_BYTES * block + 3] = '3';
        CHECK(read_file(log, file, 3 * SAB_BLOCK_BYTES, head) == at(SAB_BAD_LETTERS, block));
        three_blocks(file)[SAB_BLOCK_BYTES * block + 511] ^= 1;
        CHECK(read_file(log, file, 3 * SAB_BLOCK_BYTES, head) == at(SAB_BAD_SUM, block));
        CHECK(read_changed(log, file, head, block, 8, 8) == at(SAB_BAD_HEADER, block));
        CHECK(read_changed(log, file, head, block, 9, 7) == at(SAB_BAD_HEADER, block));
        CHECK(read_changed(log, file, head, block, 10, 3) == at(SAB_BAD_FILE, block));
        CHECK(read_changed(log, file, head, block, 28 + 31, 0) == at(SAB_MALFORMED, block));
    }
    for (block = 1; block < 3; block++) {
        CHECK(read_changed(log, file, head, block, 8, 3) == at(SAB_BAD_FILE, block));
        CHECK(read_changed(log, file, head, block, 7, 1) == at(SAB_BAD_FILE, block));
        CHECK(read_changed(log, file, head, block, 27, 1) == at(SAB_BAD_FILE, block));
    }
}

/* The log's records 0.1, 1.1, 2.1, 0.2 and on see all before them. */
static void test_refused_records(struct lent log, struct lent file, struct lent head)
{
    uint8_t *first = three_blocks(file), record[SAB_RECORD_BYTES];
    int i;
    for (i = 0; i < 3; i++) {
        put16(first + SAB_BLOCK_BYTES * i + 12, 9);
        seal(first + SAB_BLOCK_BYTES * i);
    }
    CHECK(read_file(log, file, 3 * SAB_BLOCK_BYTES, head) == at(SAB_BAD_FILE, 2));
    first = three_blocks(file) + SAB_BLOCK_BYTES;
    memcpy(record, first + 28, SAB_RECORD_BYTES);
    memcpy(first + 28, first + 28 + 80, SAB_RECORD_BYTES);
    memcpy(first + 28 + 80, record, SAB_RECORD_BYTES);
    seal(first);
    /* The seventh record has then seen one that comes later. */
    CHECK(read_file(log, file, 3 * SAB_BLOCK_BYTES, head) == at(SAB_NOT_NEXT, 1));
    first = three_blocks(file) + SAB_BLOCK_BYTES;
    memcpy(first + 28, first - SAB_BLOCK_BYTES + 28, SAB_RECORD_BYTES);
    seal(first);
    CHECK(read_file(log, file, 3 * SAB_BLOCK_BYTES, head) == at(SAB_BAD_FILE, 1));
    CHECK(read_changed(log, file, head, 2, 28 + 6, 1) == at(SAB_BAD_FILE, 2));
    CHECK(read_changed(log, file, head, 2, 28 + 18, 1) == at(SAB_NOT_NEXT, 2));
    /* 2.1 as if it had seen 1.1 and not 0.1, which 1.1 saw. */
    first = three_blocks(file);
    put16(first + 28 + 160 + 4, 0);
    seal(first);
    CHECK(read_file(log, file, 3 * SAB_BLOCK_BYTES, head) == at(SAB_NOT_CLOSED, 0));
}

/* 86 blocks of six are 516 records; the 513th is the third of the last. */
static void test_513(struct lent log, struct lent file, struct lent head)
{
    static uint8_t full[SAB_LOG_BYTES], whole[SAB_FILE_BYTES];
    uint8_t *last = file.bytes + 85 * SAB_BLOCK_BYTES;
    full_log(full);
    expect_file(whole, full, 0);
    memcpy(file.bytes, whole, SAB_FILE_BYTES);
    last[9] = 3;
    memset(last + 28 + 160, 0xEE, SAB_RECORD_BYTES);
    seal(last);
    CHECK(read_file(log, file, SAB_FILE_BYTES, head) == at(SAB_FULL_LOG, 85));
}

static void test_lengths(struct lent log, struct lent file, struct lent head)
{
    static const size_t not_files[4] = {4, 511, 513, SAB_FILE_BYTES + 512};
    static const uint8_t long_file[SAB_FILE_BYTES + 512] = "SAB1";
    int i;
    three_blocks(file);
    note(log);
    note(head);
    for (i = 0; i < 4; i++) {
        /* Fewer than four bytes choose no form. */
        CHECK(sab_read_file(log.bytes, SAB_LOG_BYTES, SPARE_BASE, nowhere(), (size_t)i, head.bytes,
                            SAB_HEAD_BYTES) == SAB_BAD_LENGTH);
        CHECK(sab_read_file(log.bytes, SAB_LOG_BYTES, SPARE_BASE, long_file, not_files[i],
                            head.bytes, SAB_HEAD_BYTES) == SAB_BAD_LENGTH);
    }
    for (i = 0; i < WRONG_LENGTHS; i++) {
        size_t no_log = wrong_length(SAB_LOG_BYTES, i), no_head = wrong_length(SAB_HEAD_BYTES, i);
        CHECK(sab_read_file(nowhere(), no_log, SPARE_BASE, nowhere(), 0, head.bytes,
                            SAB_HEAD_BYTES) == SAB_BAD_BUFFER);
        CHECK(sab_read_file(log.bytes, SAB_LOG_BYTES, SPARE_BASE, nowhere(), 0, nowhere(),
                            no_head) == SAB_BAD_BUFFER);
    }
    CHECK(kept(log) && kept(head));
    CHECK(read_file(log, file, 2 * SAB_BLOCK_BYTES, head) == at(SAB_BAD_FILE, 0));
    CHECK(read_file(log, file, SAB_BLOCK_BYTES, head) == at(SAB_BAD_FILE, 0));
    memmove(file.bytes, file.bytes + SAB_FILE_BYTES - 3 * SAB_BLOCK_BYTES, 3 * SAB_BLOCK_BYTES);
    memset(file.bytes + 3 * SAB_BLOCK_BYTES, 0, SAB_FILE_BYTES - 3 * SAB_BLOCK_BYTES);
    CHECK(read_file(log, file, SAB_FILE_BYTES, head) == at(SAB_BAD_FILE, 2));
}

void test_read_file(void)
{
    struct lent log = lend(SAB_LOG_BYTES), file = lend(SAB_FILE_BYTES), head = lend(SAB_HEAD_BYTES);
    test_read_back(log, file, head);
    test_refused_files(log, file, head);
    test_refused_records(log, file, head);
    test_513(log, file, head);
    test_lengths(log, file, head);
}
