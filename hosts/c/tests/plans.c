/* A plan of visits tried. */

#include "check.h"
#include "lent.h"
#include "make.h"
#include "sab.h"
#include "tests.h"

#include <string.h>

enum { EVENT = 84, FIRST_EVENT = 28, BLOCKS = 3 };

/* The buffers that a plan is lent. */
struct round {
    struct lent plan, logs, base, work, text, length;
};

/* Tries so many bytes of the plan; a refusal leaves all but the text and its length. */
static uint32_t try_plan(struct round to, size_t bytes)
{
    uint32_t r;
    note(to.plan);
    note(to.logs);
    note(to.base);
    note(to.work);
    r = sab_try_plan(to.plan.bytes, bytes, to.logs.bytes, to.logs.length, to.base.bytes,
                     to.base.length, to.work.bytes, to.work.length, to.text.bytes,
                     to.text.length, to.length.bytes, to.length.length);
    CHECK(kept(to.plan));
    CHECK(SAB_PLACE(r) == 0);
    if (SAB_NUMBER(r) != SAB_OK) {
        CHECK(kept(to.logs));
        CHECK(kept(to.base));
        CHECK(kept(to.work));
    }
    return r;
}

/* The text is the one expected, and behind it nothing is written. */
static void printed(struct round to, const char *expected)
{
    size_t n = strlen(expected);
    CHECK(get16(to.length.bytes) == n && get16(to.length.bytes + 2) == 0);
    CHECK(memcmp(to.text.bytes, expected, n) == 0);
    CHECK(memcmp(to.text.bytes + n, to.text.was + n, to.text.length - n) == 0);
}

static void refused(struct round to, size_t bytes, unsigned number, unsigned place,
                    const char *line)
{
    uint32_t r;
    note(to.text);
    r = try_plan(to, bytes);
    CHECK(SAB_NUMBER(r) == number && SAB_COUNT(r) == place);
    printed(to, line);
}

/* A plan block of no event. */
static uint8_t *empty_block(struct round to, int k)
{
    uint8_t *block = to.plan.bytes + SAB_BLOCK_BYTES * k;
    memset(block, 0, SAB_BLOCK_BYTES);
    memcpy(block, "PLN1", 4);
    put16(block + 4, ARCHIVE);
    seal(block);
    return block;
}

static uint8_t *next_event(uint8_t *block, unsigned kind, uint8_t unit)
{
    uint8_t *event = block + FIRST_EVENT + EVENT * block[9];
    block[9]++;
    event[0] = (uint8_t)kind;
    event[1] = unit;
    return event;
}

static void pass_event(uint8_t *block, uint8_t from, uint8_t to)
{
    next_event(block, 2, from)[2] = to;
}

/* Unit 0 makes a folder, and again, which is skipped; unit 1 gets it, makes a trace
 * in it and gives that back. Unit 2 has a wish that is malformed. */
static void a_plan(struct round to)
{
    uint8_t *block = empty_block(to, 0);
    wish_make(next_event(block, 1, 0) + 4, 0, SAB_MAKE_FOLDER, id_of(0, 0), "Bench");
    wish_make(next_event(block, 1, 0) + 4, 0, SAB_MAKE_FOLDER, id_of(0, 0), "Bench");
    pass_event(block, 0, 1);
    wish_make(next_event(block, 1, 1) + 4, 1, SAB_MAKE_TRACE, id_of(0, 1), "Gain");
    pass_event(block, 1, 0);
    seal(block);
    block = empty_block(to, 1);
    next_event(block, 1, 2)[4] = 2;
    seal(block);
    empty_block(to, 2);
}

static void test_accepted(struct round to)
{
    static const char lines[] =
        "unit 0 seen 1 1 0 0 0 0 0 0\nunit 1 seen 1 1 0 0 0 0 0 0\n"
        "unit 2 seen 0 0 0 0 0 0 0 0\nunit 3 seen 0 0 0 0 0 0 0 0\n"
        "unit 4 seen 0 0 0 0 0 0 0 0\nunit 5 seen 0 0 0 0 0 0 0 0\n"
        "unit 6 seen 0 0 0 0 0 0 0 0\nunit 7 seen 0 0 0 0 0 0 0 0\n"
        "pair 0 1 answer 0\npair 0 2 answer 1\npair 0 3 answer 1\npair 0 4 answer 1\n"
        "pair 0 5 answer 1\npair 0 6 answer 1\npair 0 7 answer 1\npair 1 2 answer 1\n"
        "pair 1 3 answer 1\npair 1 4 answer 1\npair 1 5 answer 1\npair 1 6 answer 1\n"
        "pair 1 7 answer 1\npair 2 3 answer 0\npair 2 4 answer 0\npair 2 5 answer 0\n"
        "pair 2 6 answer 0\npair 2 7 answer 0\npair 3 4 answer 0\npair 3 5 answer 0\n"
        "pair 3 6 answer 0\npair 3 7 answer 0\npair 4 5 answer 0\npair 4 6 answer 0\n"
        "pair 4 7 answer 0\npair 5 6 answer 0\npair 5 7 answer 0\npair 6 7 answer 0\n"
        "skipped 2\n";
    static uint8_t log[SAB_LOG_BYTES];
    size_t i;
    make(log, 0, SAB_MAKE_FOLDER, id_of(0, 0), "Bench");
    make(log, 1, SAB_MAKE_TRACE, id_of(0, 1), "Gain");
    note(to.text);
    CHECK(try_plan(to, BLOCKS * SAB_BLOCK_BYTES) == SAB_OK);
    printed(to, lines);
    CHECK(memcmp(to.logs.bytes, log, sizeof log) == 0);
    CHECK(memcmp(to.logs.bytes + SAB_LOG_BYTES, log, sizeof log) == 0);
    for (i = 2 * SAB_LOG_BYTES; i < SAB_ROUND_BYTES; i++)
        CHECK(to.logs.bytes[i] == 0);
    CHECK(memcmp(to.base.bytes, empty_base(), SAB_BASE_BYTES) == 0);
    for (i = 0; i < SAB_WORK_BYTES; i++)
        CHECK(to.work.bytes[i] == 0);
}

static void test_refused(struct round to)
{
    uint8_t *second = to.plan.bytes + SAB_BLOCK_BYTES;
    fill(to.logs);
    fill(to.base);
    fill(to.work);
    refused(to, 1, SAB_BAD_LENGTH, 0, "refused 2 at 0\n");
    refused(to, 3 * SAB_BLOCK_BYTES - 1, SAB_BAD_LENGTH, 0, "refused 2 at 0\n");
    second[FIRST_EVENT + 2] = 1; /* an act with another unit */
    refused(to, 3 * SAB_BLOCK_BYTES - 1, SAB_BAD_SUM, 1, "refused 4 at 1\n");
    seal(second);
    refused(to, 3 * SAB_BLOCK_BYTES - 1, SAB_BAD_EVENT, 1, "refused 30 at 1\n");
    second[4]++;
    seal(second);
    refused(to, 3 * SAB_BLOCK_BYTES, SAB_OTHER_ARCHIVE, 1, "refused 6 at 1\n");
    second[8] = 1;
    seal(second);
    refused(to, 3 * SAB_BLOCK_BYTES, SAB_BAD_HEADER, 1, "refused 5 at 1\n");
    second[0] = 'S';
    refused(to, 3 * SAB_BLOCK_BYTES, SAB_BAD_LETTERS, 1, "refused 3 at 1\n");
}

/* One buffer after another has another length, and cannot be touched. */
static void test_lengths(struct round to)
{
    struct round wrong = to;
    struct lent *lent[5];
    int i, k;
    lent[0] = &wrong.logs;
    lent[1] = &wrong.base;
    lent[2] = &wrong.work;
    lent[3] = &wrong.text;
    lent[4] = &wrong.length;
    note(to.logs);
    note(to.base);
    note(to.work);
    note(to.text);
    note(to.length);
    for (k = 0; k < 5; k++) {
        for (i = 0; i < WRONG_LENGTHS; i++) {
            size_t stated = lent[k]->length;
            uint8_t *bytes = lent[k]->bytes;
            lent[k]->length = wrong_length(stated, i);
            lent[k]->bytes = nowhere();
            CHECK(sab_try_plan(to.plan.bytes, 1, wrong.logs.bytes, wrong.logs.length,
                               wrong.base.bytes, wrong.base.length, wrong.work.bytes,
                               wrong.work.length, wrong.text.bytes, wrong.text.length,
                               wrong.length.bytes, wrong.length.length) == SAB_BAD_BUFFER);
            lent[k]->length = stated;
            lent[k]->bytes = bytes;
        }
    }
    CHECK(kept(to.logs));
    CHECK(kept(to.base));
    CHECK(kept(to.work));
    CHECK(kept(to.text));
    CHECK(kept(to.length));
}

void test_plans(void)
{
    struct round to;
    to.plan = lend(BLOCKS * SAB_BLOCK_BYTES);
    to.logs = lend(SAB_ROUND_BYTES);
    to.base = lend_low(SAB_BASE_BYTES);
    to.work = lend(SAB_WORK_BYTES);
    to.text = lend(SAB_PLAN_TEXT_BYTES);
    to.length = lend(4);
    a_plan(to);
    test_accepted(to);
    test_refused(to);
    test_lengths(to);
}
