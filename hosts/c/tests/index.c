/* The index: made afresh, kept by the calls, looked up and listed. */

#include "check.h"
#include "lent.h"
#include "make.h"
#include "sab.h"
#include "tests.h"

#include <string.h>

/* The index of a log is the one made afresh. */
static void right(const uint8_t *log, const uint8_t *index)
{
    static uint8_t fresh[SAB_INDEX_BYTES];
    CHECK(sab_index(log, SAB_LOG_BYTES, EMPTY_BASE, fresh, sizeof fresh, WORK) == SAB_OK);
    CHECK(memcmp(fresh, index, sizeof fresh) == 0);
}

/* What a look-up answers, as a word. */
static uint32_t find(struct lent index, struct id folder, const char *label, size_t length)
{
    uint8_t asked[SAB_LABEL_BYTES] = {0};
    uint32_t r;
    memcpy(asked, label, length);
    only_read(index, 1);
    r = sab_find(index.bytes, SAB_INDEX_BYTES, folder.unit, folder.number, asked, sizeof asked);
    only_read(index, 0);
    CHECK(SAB_NUMBER(r) == SAB_OK);
    return r;
}

/* A folder has an entry of a label, or none for 0.0. */
static void expect(struct lent index, struct id folder, const char *label, struct id entry)
{
    uint32_t r = find(index, folder, label, strlen(label));
    CHECK(SAB_PLACE(r) == entry.unit && SAB_COUNT(r) == entry.number);
}

/* The first row of a folder; how many it has must be as given. */
static const uint8_t *rows(struct lent index, struct id folder, unsigned count)
{
    uint8_t range[SAB_RANGE_BYTES] = {9, 9, 9, 9};
    uint32_t r;
    only_read(index, 1);
    r = sab_list(index.bytes, SAB_INDEX_BYTES, folder.unit, folder.number, range, sizeof range);
    only_read(index, 0);
    CHECK(r == (uint32_t)count << 16);
    CHECK(get16(range + 2) == count && get16(range) + get16(range + 2) <= 1024);
    return index.bytes + SAB_INDEX_ROWS + SAB_INDEX_ROW_BYTES * get16(range);
}

static void test_lengths(struct lent log, struct lent index)
{
    static const uint8_t none[SAB_BLOCK_BYTES];
    uint8_t four[SAB_RANGE_BYTES] = {7, 7, 7, 7};
    int i;
    note(log);
    note(index);
    for (i = 0; i < WRONG_LENGTHS; i++) {
        size_t wrong = wrong_length(SAB_INDEX_BYTES, i);
        CHECK(sab_index(log.bytes, SAB_LOG_BYTES, EMPTY_BASE, nowhere(), wrong, WORK) == SAB_BAD_BUFFER);
        CHECK(sab_index(nowhere(), wrong_length(SAB_LOG_BYTES, i), EMPTY_BASE, index.bytes,
                        index.length, WORK) == SAB_BAD_BUFFER);
        CHECK(sab_find(nowhere(), wrong, 8, 0, none, 32) == SAB_BAD_BUFFER);
        CHECK(sab_find(index.bytes, index.length, 0, 0, nowhere(), wrong_length(32, i)) ==
              SAB_BAD_BUFFER);
        CHECK(sab_list(nowhere(), wrong, 8, 0, four, 4) == SAB_BAD_BUFFER);
        CHECK(sab_list(index.bytes, index.length, 0, 0, nowhere(), wrong_length(4, i)) ==
              SAB_BAD_BUFFER);
        if (wrong == 0)
            continue;
        CHECK(sab_start(log.bytes, SAB_LOG_BYTES, SPARE_BASE, nowhere(), wrong, ARCHIVE, 8) == SAB_BAD_BUFFER);
        CHECK(sab_act(log.bytes, SAB_LOG_BYTES, EMPTY_BASE, nowhere(), wrong, ARCHIVE, 8, none,
                      80, WORK) == SAB_BAD_BUFFER);
        CHECK(sab_take(log.bytes, SAB_LOG_BYTES, EMPTY_BASE, nowhere(), wrong, ARCHIVE, 8, none,
                       1, WORK) == SAB_BAD_BUFFER);
        CHECK(sab_take_row(log.bytes, SAB_LOG_BYTES, EMPTY_BASE, nowhere(), wrong, ARCHIVE, 8,
                           none, 1, WORK) == SAB_BAD_BUFFER);
    }
    CHECK(kept(log) && kept(index));
    CHECK(four[0] == 7 && four[3] == 7);
    log.bytes[1] ^= 0x80;
    CHECK(sab_index(log.bytes, SAB_LOG_BYTES, EMPTY_BASE, index.bytes, index.length, WORK) == SAB_UNSOUND_LOG);
    log.bytes[1] ^= 0x80;
    CHECK(kept(index));
}

/* Acts keep it, refused or not. The log holds folder 0.1 Bench with trace 0.2
 * Gain "A"; 1.1 stands aside. */
static void test_acts(struct lent log, struct lent index)
{
    static const struct {
        unsigned operation, number;
        const char *label;
        unsigned answer;
    } wishes[] = {
        {SAB_MAKE_TRACE, 1, "Noise", 0}, {SAB_MAKE_FOLDER, 1, "Noise", 15},
        {SAB_MAKE_TRACE, 1, "nOISE", 15}, {SAB_MAKE_FOLDER, 1, "GAIN \"a\"", 15},
        {SAB_MAKE_FOLDER, 0, "Attic", 0}, {SAB_MAKE_TRACE, 4, "z", 0},
        {SAB_RENAME, 4, "Roof", 0},      {SAB_RENAME, 3, "Gain \"A\"", 15},
        {SAB_RENAME, 3, "Gain", 0},      {SAB_STORE, 3, "", 0},
        {SAB_REMOVE, 4, "", 16},         {SAB_REMOVE, 5, "", 0},
        {SAB_REMOVE, 4, "", 0},          {SAB_MAKE_TRACE, 0, "a/b", 24},
        {SAB_RENAME, 3, "gAIN", 0},      {SAB_RENAME, 3, "gAIN", 0},
    };
    uint8_t wish[SAB_RECORD_BYTES];
    size_t i;
    for (i = 0; i < sizeof wishes / sizeof wishes[0]; i++) {
        if (wishes[i].operation <= SAB_MAKE_TRACE)
            wish_make(wish, 0, wishes[i].operation, id_of(0, wishes[i].number), wishes[i].label);
        else
            wish_on(wish, 0, wishes[i].operation, id_of(0, wishes[i].number), wishes[i].label);
        note(index);
        CHECK(sab_act(log.bytes, SAB_LOG_BYTES, EMPTY_BASE, index.bytes, index.length, ARCHIVE, 0,
                      wish, sizeof wish, WORK) == wishes[i].answer);
        if (wishes[i].answer != 0)
            CHECK(kept(index));
        right(log.bytes, index.bytes);
    }
    expect(index, id_of(0, 1), "Gain", id_of(0, 3));
    expect(index, id_of(0, 1), "gain", id_of(0, 3));
    expect(index, id_of(0, 1), "Noise", id_of(0, 0));
}

/* So do moves. The log holds folder 0.1 Bench with trace 0.3 in it; 0.13 and 0.14 are
 * made. */
static void test_moves(struct lent log, struct lent index)
{
    static const struct {
        unsigned object, folder;
        const char *label;
        unsigned answer;
    } moves[] = {
        {3, 0, "Gain", 0},  {3, 0, "gain", 0},   {3, 13, "Gain", 0},  {13, 14, "Attic", 0},
        {14, 13, "Low", 25}, {14, 14, "Low", 25}, {3, 14, "ATTIC", 15}, {3, 14, "Zero", 0},
        {3, 3, "Zero", 14}, {14, 1, "Low", 0},
    };
    uint8_t wish[SAB_RECORD_BYTES];
    unsigned made, next = 1;
    size_t i;
    for (i = 0; i < held(log.bytes); i++)
        next += log.bytes[SAB_RECORD_BYTES * i] == 0;
    CHECK(next == 13);
    for (made = 0; made < 2; made++) {
        wish_make(wish, 0, SAB_MAKE_FOLDER, id_of(0, 0), made == 0 ? "Attic" : "Low");
        CHECK(sab_act(log.bytes, SAB_LOG_BYTES, EMPTY_BASE, index.bytes, index.length, ARCHIVE, 0,
                      wish, sizeof wish, WORK) == SAB_OK);
    }
    for (i = 0; i < sizeof moves / sizeof moves[0]; i++) {
        wish_move(wish, 0, id_of(0, moves[i].object), id_of(0, moves[i].folder), moves[i].label);
        note(index);
        CHECK(sab_act(log.bytes, SAB_LOG_BYTES, EMPTY_BASE, index.bytes, index.length, ARCHIVE, 0,
                      wish, sizeof wish, WORK) == moves[i].answer);
        if (moves[i].answer != 0)
            CHECK(kept(index));
        right(log.bytes, index.bytes);
    }
    expect(index, id_of(0, 14), "zero", id_of(0, 3));
    expect(index, id_of(0, 14), "Attic", id_of(0, 13));
    expect(index, id_of(0, 1), "Low", id_of(0, 14));
    expect(index, id_of(0, 0), "Low", id_of(0, 0));
}

static void test_takes(struct lent log, struct lent index, const uint8_t *full)
{
    static uint8_t row[SAB_FILE_BYTES];
    uint8_t asked[SAB_VECTOR_BYTES];
    uint32_t r;
    memset(log.bytes, 0, SAB_LOG_BYTES);
    memset(index.bytes, 0, index.length);
    counts(log.bytes, asked);
    r = sab_hand_out_row(full, SAB_LOG_BYTES, EMPTY_BASE, ARCHIVE, 1, asked, sizeof asked, row,
                         sizeof row);
    CHECK(SAB_COUNT(r) == 86);
    CHECK(sab_take(log.bytes, SAB_LOG_BYTES, EMPTY_BASE, index.bytes, index.length, ARCHIVE, 0,
                   row, SAB_BLOCK_BYTES, WORK) == SAB_OK);
    right(log.bytes, index.bytes);
    note(index);
    CHECK(sab_take(log.bytes, SAB_LOG_BYTES, EMPTY_BASE, index.bytes, index.length, ARCHIVE + 1,
                   0, row, SAB_BLOCK_BYTES, WORK) == SAB_OTHER_ARCHIVE);
    CHECK(kept(index));
    row[10 * SAB_BLOCK_BYTES] ^= 1;
    r = sab_take_row(log.bytes, SAB_LOG_BYTES, EMPTY_BASE, index.bytes, index.length, ARCHIVE, 0,
                     row, sizeof row, WORK);
    CHECK(SAB_TAKEN(r) == 10 && SAB_STOPPED(r) == 3);
    right(log.bytes, index.bytes);
    row[10 * SAB_BLOCK_BYTES] ^= 1;
    r = sab_take_row(log.bytes, SAB_LOG_BYTES, EMPTY_BASE, index.bytes, index.length, ARCHIVE, 0,
                     row, sizeof row, WORK);
    CHECK(SAB_TAKEN(r) == 86 && SAB_STOPPED(r) == 0);
    right(log.bytes, index.bytes);
}

/* Every row is found by its key, and the rows of 0.1 rise. */
static void test_full(struct lent index)
{
    const uint8_t *row;
    unsigned i, count = get16(index.bytes);
    CHECK(count == 257);
    row = rows(index, id_of(0, 0), 1);
    CHECK(row == index.bytes + SAB_INDEX_ROWS);
    row = rows(index, id_of(0, 1), 256);
    for (i = 0; i < 256; i++, row += SAB_INDEX_ROW_BYTES) {
        uint32_t r = find(index, id_of(0, 1), (const char *)row + 4, SAB_LABEL_BYTES);
        CHECK(i == 0 || memcmp(row - SAB_INDEX_ROW_BYTES + 4, row + 4, SAB_LABEL_BYTES) < 0);
        CHECK(SAB_PLACE(r) == row[36] && SAB_COUNT(r) == get16(row + 38));
        CHECK(find(index, id_of(0, 0), (const char *)row + 4, SAB_LABEL_BYTES) == 0);
    }
    rows(index, id_of(1, 1), 0);
    rows(index, id_of(7, 65535), 0);
    expect(index, id_of(0, 0), "Bench", id_of(0, 1));
    expect(index, id_of(0, 0), "bench", id_of(0, 1));
    expect(index, id_of(0, 0), "bench ", id_of(0, 0));
    expect(index, id_of(0, 0), "", id_of(0, 0));
    expect(index, id_of(1, 1), "T1", id_of(0, 0));
    for (i = 0; i < WIDE_UNITS; i++) {
        static const uint8_t bench[SAB_LABEL_BYTES] = "Bench";
        uint8_t range[SAB_RANGE_BYTES];
        CHECK(sab_find(index.bytes, index.length, wide_unit((int)i), 0, bench, 32) == 0);
        CHECK(sab_find(index.bytes, index.length, 0, 65536u * (i + 1), bench, 32) == 0);
        CHECK(sab_list(index.bytes, index.length, wide_unit((int)i), 1, range, 4) == 0);
        CHECK(sab_list(index.bytes, index.length, 0, 65537u + i, range, 4) == 0);
    }
}

/* Both end in any bytes, and leave them. */
static void test_any_bytes(struct lent index)
{
    uint8_t range[SAB_RANGE_BYTES];
    unsigned round, i, seed = 1;
    for (round = 0; round < 400; round++) {
        const uint8_t *row = index.bytes + 4 + 40 * (round % 512);
        for (i = 0; i < index.length; i++) {
            seed = seed * 1103515245u + 12345u;
            index.bytes[i] = (uint8_t)(seed >> 16 & (round % 2 ? 255u : 1u));
        }
        note(index);
        CHECK(SAB_NUMBER(sab_find(index.bytes, index.length, row[0], get16(row + 2), row + 4,
                                  32)) == SAB_OK);
        CHECK(SAB_NUMBER(sab_list(index.bytes, index.length, row[0], get16(row + 2), range,
                                  sizeof range)) == SAB_OK);
        CHECK(get16(range) + get16(range + 2) <= 1024);
        CHECK(kept(index));
    }
}

void test_index(void)
{
    static uint8_t apart[SAB_LOG_BYTES], full[SAB_LOG_BYTES];
    struct lent log = lend(SAB_LOG_BYTES), index = lend(SAB_INDEX_BYTES);
    size_t i;
    bench_logs(apart, log.bytes);
    CHECK(sab_index(log.bytes, SAB_LOG_BYTES, EMPTY_BASE, index.bytes, index.length, WORK) == SAB_OK);
    CHECK(get16(index.bytes) == 2 && get16(index.bytes + 2) == 0);
    expect(index, id_of(0, 1), "Gain \"A\"", id_of(0, 2));
    test_lengths(log, index);
    test_acts(log, index);
    test_moves(log, index);
    full_log(full);
    test_takes(log, index, full);
    test_full(index);
    fill(index);
    CHECK(sab_start(log.bytes, SAB_LOG_BYTES, SPARE_BASE, index.bytes, index.length, ARCHIVE, 8) ==
          SAB_BAD_UNIT);
    CHECK(index.bytes[0] == 11);
    CHECK(sab_start(log.bytes, SAB_LOG_BYTES, SPARE_BASE, index.bytes, index.length, ARCHIVE, 0) == SAB_OK);
    for (i = 0; i < index.length; i++)
        CHECK(index.bytes[i] == 0);
    test_any_bytes(index);
}
