/* Acting: every operation, every refusal. */

#include "check.h"
#include "lent.h"
#include "sab.h"
#include "make.h"
#include "tests.h"

#include <string.h>

/* Acts once; a refusal must leave the log. */
static uint32_t act_on(struct lent log, uint32_t unit, struct lent wish)
{
    uint32_t r;
    note(log);
    only_read(wish, 1);
    r = sab_act(log.bytes, SAB_LOG_BYTES, EMPTY_BASE, NULL, 0, ARCHIVE, unit, wish.bytes,
                SAB_RECORD_BYTES, WORK);
    only_read(wish, 0);
    CHECK(r == SAB_OK || kept(log));
    return r;
}

/* An accepted act adds the wish, stamped, and nothing else. */
static void test_accepted(struct lent log, struct lent wish)
{
    static uint8_t expected[SAB_LOG_BYTES];
    uint8_t *record = expected + 3 * SAB_RECORD_BYTES;
    memcpy(expected, log.bytes, SAB_LOG_BYTES);
    wish_on(wish.bytes, 1, SAB_STORE, id_of(0, 2), "");
    memcpy(record, wish.bytes, SAB_RECORD_BYTES);
    put16(record + 2, 2);
    put16(record + 4, 2);
    put16(record + 6, 1);
    CHECK(act_on(log, 1, wish) == SAB_OK);
    CHECK(memcmp(log.bytes, expected, SAB_LOG_BYTES) == 0);
}

/* The log holds folder 0.1 Bench with trace 0.2 Gain "A"; 1.1 stands aside. */
static void test_reasons(struct lent log, struct lent wish)
{
    wish_make(wish.bytes, 0, SAB_MAKE_TRACE, id_of(1, 1), "x");
    CHECK(act_on(log, 0, wish) == SAB_NO_FOLDER);
    wish_make(wish.bytes, 0, SAB_MAKE_FOLDER, id_of(0, 2), "x");
    CHECK(act_on(log, 0, wish) == SAB_WRONG_KIND);
    wish_make(wish.bytes, 0, SAB_MAKE_FOLDER, id_of(0, 1), "Gain \"A\"");
    CHECK(act_on(log, 0, wish) == SAB_LABEL_HELD);
    wish_on(wish.bytes, 0, SAB_STORE, id_of(1, 1), "");
    CHECK(act_on(log, 0, wish) == SAB_NO_OBJECT);
    wish_on(wish.bytes, 0, SAB_STORE, id_of(0, 1), "");
    CHECK(act_on(log, 0, wish) == SAB_WRONG_KIND);
    wish_on(wish.bytes, 0, SAB_REMOVE, id_of(1, 1), "");
    CHECK(act_on(log, 0, wish) == SAB_NO_OBJECT);
    wish_on(wish.bytes, 0, SAB_REMOVE, id_of(0, 1), "");
    CHECK(act_on(log, 0, wish) == SAB_NOT_EMPTY);
    wish_on(wish.bytes, 0, SAB_RENAME, id_of(1, 1), "x");
    CHECK(act_on(log, 0, wish) == SAB_NO_OBJECT);
    wish_make(wish.bytes, 0, SAB_MAKE_FOLDER, id_of(0, 0), "bENCH");
    CHECK(act_on(log, 0, wish) == SAB_LABEL_HELD);
    wish_on(wish.bytes, 0, SAB_SETTLE, id_of(0, 2), "");
    CHECK(act_on(log, 0, wish) == SAB_NOT_ASIDE);
}

/* Every operation accepted once, 0.3 to 0.9; then renames to the own label, in the
 * same bytes and in another case. */
static void test_operations(struct lent log, struct lent wish)
{
    wish_on(wish.bytes, 0, SAB_SETTLE, id_of(1, 1), "");
    CHECK(act_on(log, 0, wish) == SAB_OK);
    wish_make(wish.bytes, 0, SAB_MAKE_FOLDER, id_of(0, 1), "12345678901234567890123456789012");
    CHECK(act_on(log, 0, wish) == SAB_OK);
    wish_make(wish.bytes, 0, SAB_MAKE_TRACE, id_of(0, 4), "~");
    CHECK(act_on(log, 0, wish) == SAB_OK);
    wish_on(wish.bytes, 0, SAB_STORE, id_of(0, 5), "");
    CHECK(act_on(log, 0, wish) == SAB_OK);
    wish_on(wish.bytes, 0, SAB_RENAME, id_of(0, 4), "a b");
    CHECK(act_on(log, 0, wish) == SAB_OK);
    wish_on(wish.bytes, 0, SAB_REMOVE, id_of(0, 5), "");
    CHECK(act_on(log, 0, wish) == SAB_OK);
    wish_on(wish.bytes, 0, SAB_REMOVE, id_of(0, 4), "");
    CHECK(act_on(log, 0, wish) == SAB_OK);
    wish_on(wish.bytes, 0, SAB_REMOVE, id_of(0, 4), "");
    CHECK(act_on(log, 0, wish) == SAB_NO_OBJECT);
    CHECK(held(log.bytes) == 10);
    wish_on(wish.bytes, 0, SAB_RENAME, id_of(0, 1), "Bench");
    CHECK(act_on(log, 0, wish) == SAB_OK);
    wish_on(wish.bytes, 0, SAB_RENAME, id_of(0, 1), "bENCH");
    CHECK(act_on(log, 0, wish) == SAB_OK);
}

/* Moves, refused and accepted. The log holds folder 0.1 with trace 0.2; 1.1 stands
 * aside; 0.12 is made. */
static void test_moves(struct lent log, struct lent wish)
{
    static const struct {
        unsigned object, folder;
        const char *label;
        unsigned answer;
    } moves[] = {
        {1, 1, "Bench", 25},  {1, 12, "Bench", 25},     {1, 12, "a/b", 24}, {2, 2, "Gain", 14},
        {1, 2, "Bench", 14},  {2, 5, "Gain", 13},       {4, 0, "x", 12},    {12, 0, "bench", 15},
        {0, 1, "x", 7},       {99, 1, "x", 7},          {2, 99, "x", 7},    {2, 12, "", 7},
        {2, 1, "GAIN \"a\"", 0}, {2, 12, "Gain", 0},    {12, 0, "Attic", 0}, {1, 12, "Bench", 0},
        {12, 1, "Attic", 25}, {2, 0, "aTTIC", 15},      {2, 0, "Gain", 0},
    };
    size_t i;
    wish_make(wish.bytes, 0, SAB_MAKE_FOLDER, id_of(0, 1), "Attic");
    CHECK(act_on(log, 0, wish) == SAB_OK);
    for (i = 0; i < sizeof moves / sizeof moves[0]; i++) {
        wish_move(wish.bytes, 0, id_of(0, moves[i].object), id_of(0, moves[i].folder),
                  moves[i].label);
        CHECK(act_on(log, 0, wish) == moves[i].answer);
    }
    wish_move(wish.bytes, 0, id_of(1, 1), id_of(0, 0), "x");
    CHECK(act_on(log, 0, wish) == SAB_NO_OBJECT);
    wish_move(wish.bytes, 0, id_of(0, 2), id_of(1, 1), "x");
    CHECK(act_on(log, 0, wish) == SAB_NO_FOLDER);
    wish.bytes[64] = 1;
    CHECK(act_on(log, 0, wish) == SAB_MALFORMED);
    wish_on(wish.bytes, 0, SAB_REMOVE, id_of(0, 1), "");
    CHECK(act_on(log, 0, wish) == SAB_OK);
    wish_move(wish.bytes, 0, id_of(0, 1), id_of(0, 1), "Bench");
    CHECK(act_on(log, 0, wish) == SAB_NO_OBJECT);
}

/* A stroke at every byte of a label, and with a bad date. */
static void test_strokes(struct lent log, struct lent wish)
{
    size_t i;
    for (i = 0; i < 32; i++) {
        wish_make(wish.bytes, 0, SAB_MAKE_FOLDER, id_of(0, 0), "12345678901234567890123456789012");
        wish.bytes[32 + i] = '/';
        CHECK(act_on(log, 0, wish) == SAB_STROKE_IN_LABEL);
        wish.bytes[30] = 13;
        CHECK(act_on(log, 0, wish) == SAB_MALFORMED);
    }
}

/* A byte of a good make that makes it malformed. */
static void test_malformed(struct lent log, struct lent wish)
{
    static const uint8_t changes[][2] = {
        {0, 1},   {0, 8},   {1, 0},   {1, 7},   {1, 8},   {2, 1},    {3, 1},    {4, 1},     {19, 1},
        {20, 1},  {21, 1},  {22, 1},  {24, 8},  {25, 1},   {26, 9},   {27, 1},    {29, 0},
        {29, 9},  {30, 0},  {30, 13}, {31, 0},  {31, 32},  {32, 0},   {32, 0x20}, {32, 0x1F},
        {32, 0x7F}, {33, 0x20}, {63, 'x'}, {64, 1}, {79, 255},
    };
    size_t i;
    for (i = 0; i < sizeof changes / sizeof changes[0]; i++) {
        wish_make(wish.bytes, 0, SAB_MAKE_FOLDER, id_of(0, 0), "F");
        wish.bytes[changes[i][0]] = changes[i][1];
        CHECK(act_on(log, 0, wish) == SAB_MALFORMED);
    }
    for (i = 0; i < 4; i++) {
        static const uint8_t days[4][4] = {{2025 & 255, 2025 >> 8, 2, 29},
                                           {2100 & 255, 2100 >> 8, 2, 29},
                                           {1989 & 255, 1989 >> 8, 12, 31},
                                           {2025 & 255, 2025 >> 8, 4, 31}};
        wish_make(wish.bytes, 0, SAB_MAKE_FOLDER, id_of(0, 0), "F");
        memcpy(wish.bytes + 28, days[i], 4);
        CHECK(act_on(log, 0, wish) == SAB_MALFORMED);
    }
    wish_on(wish.bytes, 0, SAB_REMOVE, id_of(0, 0), "");
    CHECK(act_on(log, 0, wish) == SAB_MALFORMED);
    wish_on(wish.bytes, 0, SAB_SETTLE, id_of(3, 1), "");
    CHECK(act_on(log, 0, wish) == SAB_MALFORMED);
}

static void test_order_of_checks(struct lent log, struct lent wish)
{
    int i;
    wish_make(wish.bytes, 0, SAB_MAKE_FOLDER, id_of(0, 0), "F");
    note(log);
    note(wish);
    for (i = 0; i < WRONG_LENGTHS; i++) {
        size_t no_log = wrong_length(SAB_LOG_BYTES, i), no_wish = wrong_length(SAB_RECORD_BYTES, i);
        CHECK(sab_act(nowhere(), no_log, EMPTY_BASE, NULL, 0, ARCHIVE, 0, wish.bytes,
                      SAB_RECORD_BYTES, WORK) == SAB_BAD_BUFFER);
        CHECK(sab_act(log.bytes, SAB_LOG_BYTES, EMPTY_BASE, NULL, 0, ARCHIVE, 0, nowhere(),
                      no_wish, WORK) == SAB_BAD_BUFFER);
        CHECK(sab_act(nowhere(), no_log, EMPTY_BASE, NULL, 0, ARCHIVE, 9, nowhere(), no_wish,
                      WORK) == SAB_BAD_BUFFER);
    }
    CHECK(sab_act(log.bytes, SAB_LOG_BYTES, EMPTY_BASE, NULL, 0, ARCHIVE, 8, wish.bytes,
                  SAB_RECORD_BYTES, WORK) == SAB_BAD_UNIT);
    CHECK(kept(log) && kept(wish));
    log.bytes[31] = 32;
    wish.bytes[31] = 32;
    CHECK(act_on(log, 255, wish) == SAB_BAD_UNIT);
    for (i = 0; i < WIDE_UNITS; i++)
        CHECK(act_on(log, wide_unit(i), wish) == SAB_BAD_UNIT);
    CHECK(act_on(log, 0, wish) == SAB_UNSOUND_LOG);
    log.bytes[31] = 3;
    CHECK(act_on(log, 0, wish) == SAB_MALFORMED);
}

void test_act(void)
{
    static uint8_t apart[SAB_LOG_BYTES];
    struct lent log = lend(SAB_LOG_BYTES), wish = lend(SAB_RECORD_BYTES);
    bench_logs(apart, log.bytes);
    test_accepted(log, wish);
    bench_logs(apart, log.bytes);
    test_reasons(log, wish);
    test_malformed(log, wish);
    test_strokes(log, wish);
    test_order_of_checks(log, wish);
    test_operations(log, wish);
    test_moves(log, wish);
    full_log(log.bytes);
    wish_on(wish.bytes, 0, SAB_STORE, id_of(1, 1), "");
    CHECK(act_on(log, 0, wish) == SAB_FULL_LOG);
    wish_on(wish.bytes, 0, SAB_STORE, id_of(0, 0), "");
    CHECK(act_on(log, 0, wish) == SAB_MALFORMED);
}
