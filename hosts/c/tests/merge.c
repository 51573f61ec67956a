/* One file out of two. */

#include "check.h"
#include "lent.h"
#include "sab.h"
#include "make.h"
#include "tests.h"

#include <string.h>

/* A file at the end of a buffer. */
struct card {
    struct lent buffer;
    size_t length;
};

static uint8_t *bytes_of(struct card card)
{
    return card.buffer.bytes + SAB_FILE_BYTES - card.length;
}

/* Lays the file of a log at the end of a buffer. */
static void write_card(struct card *card, const uint8_t *log, uint32_t archive, uint8_t unit)
{
    static uint8_t whole[SAB_FILE_BYTES];
    uint32_t r = sab_write_file(log, SAB_LOG_BYTES, EMPTY_BASE, archive, unit, whole,
                                SAB_FILE_BYTES);
    CHECK(SAB_NUMBER(r) == SAB_OK);
    card->length = SAB_BLOCK_BYTES * SAB_COUNT(r);
    memcpy(bytes_of(*card), whole, card->length);
}

/* A refusal: number, place and file. */
static uint32_t at(unsigned number, unsigned place, unsigned file)
{
    return number + 256u * place + 65536u * file;
}

/* The buffers of the tests. */
struct table {
    struct card first, second;
    struct lent log, file;
};

/* Merges the two cards; a refusal must leave log and file. */
static uint32_t merge(struct table t)
{
    uint32_t r;
    fill(t.log);
    fill(t.file);
    note(t.log);
    note(t.file);
    only_read(t.first.buffer, 1);
    only_read(t.second.buffer, 1);
    r = sab_merge(bytes_of(t.first), t.first.length, bytes_of(t.second), t.second.length,
                  t.log.bytes, SAB_LOG_BYTES, t.file.bytes, SAB_FILE_BYTES);
    only_read(t.first.buffer, 0);
    only_read(t.second.buffer, 0);
    CHECK(SAB_NUMBER(r) == SAB_OK || (kept(t.log) && kept(t.file)));
    return r;
}

/* The merge is the file of a log, under a unit. */
static void expect(struct table t, const uint8_t *log, uint8_t unit)
{
    static uint8_t whole[SAB_FILE_BYTES];
    uint32_t r = sab_write_file(log, SAB_LOG_BYTES, EMPTY_BASE, ARCHIVE, unit, whole,
                                SAB_FILE_BYTES);
    CHECK(merge(t) == r);
    CHECK(memcmp(t.log.bytes, log, SAB_LOG_BYTES) == 0);
    CHECK(memcmp(t.file.bytes, whole, SAB_FILE_BYTES) == 0);
}

static void test_merged(struct table t)
{
    static uint8_t apart[SAB_LOG_BYTES], all[SAB_LOG_BYTES], none[SAB_LOG_BYTES];
    bench_logs(apart, all);
    write_card(&t.first, apart, ARCHIVE, 5);
    write_card(&t.second, all, ARCHIVE, 6);
    expect(t, all, 5);
    write_card(&t.second, apart, ARCHIVE, 1);
    expect(t, apart, 5);
    write_card(&t.second, none, ARCHIVE, 1);
    expect(t, apart, 5);
    write_card(&t.first, none, ARCHIVE, 3);
    expect(t, none, 3);
    write_card(&t.second, all, ARCHIVE, 1);
    expect(t, all, 3);
    full_log(all);
    write_card(&t.first, all, ARCHIVE, 0);
    write_card(&t.second, all, ARCHIVE, 7);
    expect(t, all, 0);
}

static void test_refused(struct table t)
{
    static uint8_t full[SAB_LOG_BYTES], other[SAB_LOG_BYTES];
    full_log(full);
    write_card(&t.first, full, ARCHIVE, 0);
    /* One record more than fits. */
    make(other, 5, SAB_MAKE_FOLDER, id_of(0, 0), "Bench");
    write_card(&t.second, other, ARCHIVE, 5);
    CHECK(merge(t) == at(SAB_FULL_LOG, 0, 2));
    /* A record of another day, in the third block. */
    memcpy(other, full, SAB_LOG_BYTES);
    other[SAB_RECORD_BYTES * 12 + 31] ^= 1;
    write_card(&t.second, other, ARCHIVE, 0);
    CHECK(merge(t) == at(SAB_OTHER_BYTES, 2, 2));
    write_card(&t.second, other, ARCHIVE + 1, 0);
    CHECK(merge(t) == at(SAB_OTHER_ARCHIVE, 0, 2));
    /* All of the second file comes before its archive, and the first before it. */
    bytes_of(t.second)[SAB_BLOCK_BYTES * 85 + 40] ^= 1;
    CHECK(merge(t) == at(SAB_BAD_SUM, 85, 2));
    bytes_of(t.first)[SAB_BLOCK_BYTES * 7] ^= 1;
    CHECK(merge(t) == at(SAB_BAD_LETTERS, 7, 1));
    t.second.length = 0;
    CHECK(merge(t) == at(SAB_BAD_LETTERS, 7, 1));
    t.first.length = 511;
    CHECK(merge(t) == at(SAB_BAD_LENGTH, 0, 1));
}

static void test_lengths(struct table t)
{
    int i;
    note(t.log);
    note(t.file);
    for (i = 0; i < WRONG_LENGTHS; i++) {
        size_t no_log = wrong_length(SAB_LOG_BYTES, i), no_file = wrong_length(SAB_FILE_BYTES, i);
        CHECK(sab_merge(nowhere(), 512, nowhere(), 512, nowhere(), no_log, t.file.bytes,
                        SAB_FILE_BYTES) == SAB_BAD_BUFFER);
        CHECK(sab_merge(nowhere(), 512, nowhere(), 512, t.log.bytes, SAB_LOG_BYTES, nowhere(),
                        no_file) == SAB_BAD_BUFFER);
    }
    CHECK(kept(t.log) && kept(t.file));
}

void test_merge(void)
{
    struct table t = {
        {lend(SAB_FILE_BYTES), 0},
        {lend(SAB_FILE_BYTES), 0},
        lend(SAB_LOG_BYTES),
        lend(SAB_FILE_BYTES),
    };
    test_merged(t);
    test_refused(t);
    test_lengths(t);
}
