/* Folding: lengths, lists, what is left, and the other calls over a base. */

#include "check.h"
#include "lent.h"
#include "sab.h"
#include "make.h"
#include "tests.h"

#include <string.h>

/* The log and the base of a unit. */
struct state {
    struct lent log, base;
};

static struct state fresh(void)
{
    struct state s;
    s.log = lend(SAB_LOG_BYTES);
    s.base = lend(SAB_BASE_BYTES);
    CHECK(sab_start(s.log.bytes, SAB_LOG_BYTES, s.base.bytes, SAB_BASE_BYTES, NULL, 0, ARCHIVE,
                    0) == SAB_OK);
    CHECK(memcmp(s.base.bytes, empty_base(), SAB_BASE_BYTES) == 0);
    return s;
}

/* Folds once; a refusal must leave log and base. */
static uint32_t fold(struct state s, uint32_t unit, uint32_t list)
{
    uint32_t r;
    note(s.log);
    note(s.base);
    r = sab_fold(s.log.bytes, SAB_LOG_BYTES, s.base.bytes, SAB_BASE_BYTES, ARCHIVE, unit, list,
                 WORK);
    CHECK(SAB_NUMBER(r) == SAB_OK || (kept(s.log) && kept(s.base)));
    return r;
}

static uint32_t act_on(struct state s, uint8_t unit, const char *label)
{
    uint8_t wish[SAB_RECORD_BYTES];
    uint32_t r;
    wish_make(wish, unit, SAB_MAKE_FOLDER, id_of(0, 0), label);
    only_read(s.base, 1);
    r = sab_act(s.log.bytes, SAB_LOG_BYTES, s.base.bytes, SAB_BASE_BYTES, NULL, 0, ARCHIVE, unit,
                wish, SAB_RECORD_BYTES, WORK);
    only_read(s.base, 0);
    return r;
}

static uint32_t take_on(struct state s, const uint8_t *block)
{
    uint32_t r;
    only_read(s.base, 1);
    r = sab_take(s.log.bytes, SAB_LOG_BYTES, s.base.bytes, SAB_BASE_BYTES, NULL, 0, ARCHIVE, 0,
                 block, SAB_BLOCK_BYTES, NO_WORK);
    only_read(s.base, 0);
    return r;
}

/* A block of one record that has seen these counts of the units 0 and 1. */
static void one_record(uint8_t *block, uint8_t unit, unsigned number, unsigned of_0, unsigned of_1)
{
    uint8_t *record = block + 28;
    memset(block, 0, SAB_BLOCK_BYTES);
    memcpy(block, "SAB1", 4);
    block[4] = ARCHIVE;
    block[9] = 1;
    wish_make(record, unit, SAB_MAKE_FOLDER, id_of(0, 0), "G");
    put16(record + 2, number);
    put16(record + 4, of_0);
    put16(record + 6, of_1);
    put16(record + 4 + 2 * unit, number - 1);
    seal(block);
}

/* The bench example at unit 0: 0.1, 0.2, and 1.1, which has seen 0.1 and stands
 * aside. Unit 1 has heard 0.1 alone. */
static void test_run(void)
{
    static uint8_t apart[SAB_LOG_BYTES], tree[SAB_TREE_BYTES], after[SAB_TREE_BYTES];
    struct state s = fresh();
    uint8_t vector[SAB_VECTOR_BYTES], block[SAB_BLOCK_BYTES];
    bench_logs(apart, s.log.bytes);
    CHECK(sab_show(s.log.bytes, SAB_LOG_BYTES, s.base.bytes, SAB_BASE_BYTES, tree,
                   SAB_TREE_BYTES) == SAB_OK);
    CHECK(fold(s, 0, 2) == SAB_UNLISTED);
    CHECK(fold(s, 0, 1) == SAB_UNLISTED);
    CHECK(fold(s, 2, 3) == SAB_UNLISTED);
    CHECK(fold(s, 0, 256 + 3) == SAB_UNLISTED);
    CHECK(fold(s, 0, 0xFFFFFFFFu) == SAB_UNLISTED);
    CHECK(fold(s, 0, 7) == SAB_OK);
    CHECK(kept(s.log) && s.base.bytes[0] == 7 && get16(s.base.bytes + 8) == 0);
    CHECK(fold(s, 0, 3) == (1u << 16));
    CHECK(fold(s, 0, 3) == SAB_OK);
    CHECK(s.base.bytes[0] == 3 && get16(s.base.bytes + 2) == 1 && get16(s.base.bytes + 4) == 0);
    CHECK(get16(s.base.bytes + 8) == 1 && get16(s.base.bytes + 10) == 0);
    CHECK(memcmp(s.base.bytes + 24, tree + SAB_TREE_ENTRIES, SAB_ENTRY_BYTES) == 0);
    CHECK(held(s.log.bytes) == 2);
    CHECK(sab_show(s.log.bytes, SAB_LOG_BYTES, s.base.bytes, SAB_BASE_BYTES, after,
                   SAB_TREE_BYTES) == SAB_OK);
    CHECK(memcmp(tree, after, SAB_TREE_BYTES) == 0);
    CHECK(sab_vector(s.log.bytes, SAB_LOG_BYTES, s.base.bytes, SAB_BASE_BYTES, vector,
                     SAB_VECTOR_BYTES) == 2u << 16);
    CHECK(get16(vector) == 2 && get16(vector + 2) == 1);

    /* What is folded is missing in a file, and to who lacks it. */
    CHECK(sab_write_file(s.log.bytes, SAB_LOG_BYTES, s.base.bytes, SAB_BASE_BYTES, ARCHIVE, 0,
                         work_memory(), SAB_FILE_BYTES) == SAB_FOLDED);
    memset(vector, 0, SAB_VECTOR_BYTES);
    CHECK(sab_hand_out(s.log.bytes, SAB_LOG_BYTES, s.base.bytes, SAB_BASE_BYTES, ARCHIVE, 0, vector,
                       SAB_VECTOR_BYTES, block, SAB_BLOCK_BYTES) == SAB_BELOW_BASE);
    put16(vector, 1);
    CHECK(sab_hand_out(s.log.bytes, SAB_LOG_BYTES, s.base.bytes, SAB_BASE_BYTES, ARCHIVE, 0, vector,
                       SAB_VECTOR_BYTES, block, SAB_BLOCK_BYTES) == SAB_OK);
    CHECK(block[9] == 2 && get16(block + 12) == 2 && get16(block + 14) == 1);

    /* Folded: passed over. Held: compared. New: 8, then 27. Not listed: 26. */
    note(s.log);
    one_record(block, 0, 1, 0, 0);
    CHECK(take_on(s, block) == SAB_OK && kept(s.log));
    one_record(block, 0, 2, 1, 0);
    CHECK(take_on(s, block) == SAB_OTHER_BYTES);
    one_record(block, 1, 2, 0, 1);
    CHECK(take_on(s, block) == SAB_BELOW_BASE);
    one_record(block, 1, 3, 0, 2);
    CHECK(take_on(s, block) == SAB_NOT_NEXT);
    one_record(block, 2, 1, 0, 0);
    CHECK(take_on(s, block) == SAB_UNLISTED && kept(s.log));
    CHECK(act_on(s, 2, "H") == SAB_UNLISTED);
    CHECK(act_on(s, 0, "bench") == SAB_LABEL_HELD);
    CHECK(act_on(s, 0, "H") == SAB_OK);
    CHECK(get16(s.log.bytes + 2 * SAB_RECORD_BYTES + 2) == 3);
}

/* A full log, all of one unit's and folded; then it goes on. */
static void test_full(void)
{
    struct state s = fresh();
    char label[4] = "aaa";
    int i;
    for (i = 0; i < 512; i++) {
        label[0] = (char)('a' + i % 23);
        label[1] = (char)('a' + i / 23);
        CHECK(act_on(s, 0, label) == SAB_OK);
    }
    CHECK(act_on(s, 0, "more") == SAB_FULL_LOG);
    CHECK(fold(s, 0, 1) == 512u << 16);
    CHECK(held(s.log.bytes) == 0 && get16(s.base.bytes + 2) == 512);
    CHECK(act_on(s, 0, "more") == SAB_OK);
    CHECK(fold(s, 0, 1) == SAB_OK && held(s.log.bytes) == 1);
    /* The last number: none is left. */
    put16(s.base.bytes + 8, 65535);
    memset(s.log.bytes, 0, SAB_LOG_BYTES);
    CHECK(act_on(s, 0, "last") == SAB_LAST_NUMBER);
    CHECK(act_on(s, 0, "") == SAB_MALFORMED);
    CHECK(act_on(s, 0, "a/b") == SAB_STROKE_IN_LABEL);
}

/* Bases that break the layout, or hold what no base holds. */
static void test_unsound(void)
{
    static const struct {
        size_t at;
        uint8_t byte;
    } changes[] = {
        {0, 2},     {1, 1},     {3, 3},     {5, 3},      {6, 1},     {7, 1},     {8, 0},
        {24, 0},    {24, 3},    {25, 1},    {26, 1},     {28, 8},    {29, 1},    {30, 2},
        {30, 0},    {32, 1},    {34, 1},    {36, 1},     {38, 2},    {40, 1},    {42, 2},
        {46, 0},    {47, 32},   {48, 0},    {48, 32},    {79, 'x'},  {80, 1},    {96, 1},
        {36888, 1}, {43031, 1},
    };
    static uint8_t tree[SAB_TREE_BYTES];
    struct state s = fresh();
    size_t i;
    CHECK(act_on(s, 0, "Bench") == SAB_OK);
    CHECK(fold(s, 0, 1) == 1u << 16);
    for (i = 0; i < sizeof changes / sizeof changes[0]; i++) {
        uint8_t was = s.base.bytes[changes[i].at];
        s.base.bytes[changes[i].at] = changes[i].byte;
        CHECK(sab_show(s.log.bytes, SAB_LOG_BYTES, s.base.bytes, SAB_BASE_BYTES, tree,
                       SAB_TREE_BYTES) == SAB_UNSOUND_LOG);
        CHECK(fold(s, 0, 255) == SAB_UNSOUND_LOG);
        CHECK(fold(s, 8, 255) == SAB_BAD_UNIT);
        s.base.bytes[changes[i].at] = was;
    }
    CHECK(fold(s, 0, 1) == SAB_OK);
}

static void test_lengths(void)
{
    struct state s = fresh();
    int i;
    note(s.log);
    note(s.base);
    for (i = 0; i < WRONG_LENGTHS; i++) {
        size_t no_log = wrong_length(SAB_LOG_BYTES, i), no_base = wrong_length(SAB_BASE_BYTES, i),
               no_work = wrong_length(SAB_WORK_BYTES, i);
        uint8_t *log = s.log.bytes, *base = s.base.bytes;
        CHECK(sab_fold(nowhere(), no_log, base, SAB_BASE_BYTES, ARCHIVE, 8, 0, WORK) ==
              SAB_BAD_BUFFER);
        CHECK(sab_fold(log, SAB_LOG_BYTES, nowhere(), no_base, ARCHIVE, 8, 0, WORK) ==
              SAB_BAD_BUFFER);
        CHECK(sab_fold(log, SAB_LOG_BYTES, base, SAB_BASE_BYTES, ARCHIVE, 8, 0, nowhere(),
                       no_work) == SAB_BAD_BUFFER);
        CHECK(sab_start(log, SAB_LOG_BYTES, nowhere(), no_base, NULL, 0, ARCHIVE, 8) ==
              SAB_BAD_BUFFER);
        CHECK(sab_act(log, SAB_LOG_BYTES, nowhere(), no_base, NULL, 0, ARCHIVE, 8, log,
                      SAB_RECORD_BYTES, WORK) == SAB_BAD_BUFFER);
        CHECK(sab_act(log, SAB_LOG_BYTES, EMPTY_BASE, NULL, 0, ARCHIVE, 8, log, SAB_RECORD_BYTES,
                      nowhere(), no_work) == SAB_BAD_BUFFER);
        CHECK(sab_take(log, SAB_LOG_BYTES, nowhere(), no_base, NULL, 0, ARCHIVE, 8, log,
                       SAB_BLOCK_BYTES, NO_WORK) == SAB_BAD_BUFFER);
        if (no_work != 0)
            CHECK(sab_take(log, SAB_LOG_BYTES, EMPTY_BASE, NULL, 0, ARCHIVE, 8, log,
                           SAB_BLOCK_BYTES, nowhere(), no_work) == SAB_BAD_BUFFER);
        CHECK(sab_vector(log, SAB_LOG_BYTES, nowhere(), no_base, base, SAB_VECTOR_BYTES) ==
              SAB_BAD_BUFFER);
    }
    for (i = 0; i < WIDE_UNITS; i++)
        CHECK(fold(s, wide_unit(i), 255) == SAB_BAD_UNIT);
    CHECK(kept(s.log) && kept(s.base));
}

void test_fold(void)
{
    test_run();
    test_full();
    test_unsound();
    test_lengths();
}
