/* Checking another maker's order: conditions, lists, lengths, what is left. */

#include "check.h"
#include "lent.h"
#include "sab.h"
#include "make.h"
#include "tests.h"

#include <string.h>

/* A log and the two tables. */
struct lents {
    struct lent log, ours, theirs;
};

/* A list of names; `length` bytes of it are used. */
struct list {
    uint8_t bytes[SAB_NAME_BYTES * 514];
    size_t length;
};

static void name(struct list *list, uint8_t unit, unsigned number)
{
    uint8_t *bytes = list->bytes + list->length;
    bytes[0] = unit;
    bytes[1] = 0;
    put16(bytes + 2, number);
    list->length += SAB_NAME_BYTES;
}

static struct list three(struct id a, struct id b, struct id c)
{
    struct list list;
    list.length = 0;
    name(&list, a.unit, a.number);
    name(&list, b.unit, b.number);
    name(&list, c.unit, c.number);
    return list;
}

/* Checks an order; where no tree is laid both tables must be kept, else the first
 * is the tree of the log. */
static uint32_t check_order(struct lents s, const uint8_t *list, size_t length)
{
    static uint8_t tree[SAB_TREE_BYTES];
    const uint8_t *names = nowhere();
    uint32_t r;
    if (length > 0) {
        struct lent given = lend(length);
        memcpy(given.bytes, list, length);
        only_read(given, 1);
        names = given.bytes;
    }
    only_read(s.log, 1);
    note(s.ours);
    note(s.theirs);
    r = sab_check_order(s.log.bytes, SAB_LOG_BYTES, EMPTY_BASE, names, length, s.ours.bytes,
                        SAB_TREE_BYTES, s.theirs.bytes, SAB_TREE_BYTES);
    only_read(s.log, 0);
    CHECK(SAB_PLACE(r) == 0);
    if (SAB_NUMBER(r) != SAB_OK || SAB_COUNT(r) == SAB_ORDER_NAMES ||
        SAB_COUNT(r) == SAB_ORDER_SEEN) {
        CHECK(kept(s.ours) && kept(s.theirs));
        return r;
    }
    CHECK(sab_show(s.log.bytes, SAB_LOG_BYTES, EMPTY_BASE, tree, SAB_TREE_BYTES) == SAB_OK);
    CHECK(memcmp(s.ours.bytes, tree, SAB_TREE_BYTES) == 0);
    return r;
}

static uint32_t answer(struct lents s, struct list list)
{
    return check_order(s, list.bytes, list.length);
}

/* The bench example: 0.1, then 0.2 and 1.1 of one label, which have both seen it. */
static void test_conditions(struct lents s)
{
    static uint8_t apart[SAB_LOG_BYTES];
    struct id a = id_of(0, 1), b = id_of(0, 2), c = id_of(1, 1), d = id_of(0, 3);
    struct list list = three(a, b, c);
    bench_logs(apart, s.log.bytes);
    CHECK(answer(s, list) == SAB_OK);
    CHECK(memcmp(s.ours.bytes, s.theirs.bytes, SAB_TREE_BYTES) == 0);
    CHECK(answer(s, three(a, c, b)) == SAB_ORDER_TREE << 16);
    CHECK(memcmp(s.ours.bytes, s.theirs.bytes, SAB_TREE_BYTES) != 0);
    CHECK(s.theirs.bytes[SAB_TREE_ENTRIES + SAB_ENTRY_BYTES + 4] == 1);
    CHECK(answer(s, three(b, a, c)) == SAB_ORDER_SEEN << 16);
    CHECK(answer(s, three(c, b, a)) == SAB_ORDER_SEEN << 16);
    CHECK(answer(s, three(a, b, b)) == SAB_ORDER_NAMES << 16);
    CHECK(answer(s, three(c, a, a)) == SAB_ORDER_NAMES << 16);
    CHECK(answer(s, three(a, b, d)) == SAB_ORDER_NAMES << 16);
    CHECK(answer(s, three(a, b, id_of(9, 1))) == SAB_ORDER_NAMES << 16);
    CHECK(check_order(s, list.bytes, 8) == SAB_ORDER_NAMES << 16);
    CHECK(check_order(s, list.bytes, 11) == SAB_ORDER_NAMES << 16);
    CHECK(check_order(s, list.bytes, 0) == SAB_ORDER_NAMES << 16);
    list.bytes[1] = 1;
    CHECK(answer(s, list) == SAB_ORDER_NAMES << 16);
    list.bytes[1] = 0;
    name(&list, 0, 0);
    CHECK(answer(s, list) == SAB_ORDER_NAMES << 16);
    CHECK(check_order(s, list.bytes, 13) == SAB_ORDER_NAMES << 16);
}

/* A full log by rank, and 513 names. */
static void test_full(struct lents s)
{
    struct list list;
    unsigned i;
    list.length = 0;
    full_log(s.log.bytes);
    for (i = 0; i < 512; i++) {
        const uint8_t *record = s.log.bytes + SAB_RECORD_BYTES * i;
        name(&list, record[0], get16(record + 2));
    }
    CHECK(answer(s, list) == SAB_OK);
    CHECK(memcmp(s.ours.bytes, s.theirs.bytes, SAB_TREE_BYTES) == 0);
    name(&list, 0, 1);
    CHECK(answer(s, list) == SAB_ORDER_NAMES << 16);
}

static void test_refusals(struct lents s)
{
    struct lent base = lend(SAB_BASE_BYTES);
    struct list list;
    int i;
    memset(s.log.bytes, 0, SAB_LOG_BYTES);
    CHECK(check_order(s, NULL, 0) == SAB_OK);
    CHECK(check_order(s, (const uint8_t *)"\0\0\1\0", 4) == SAB_ORDER_NAMES << 16);
    s.log.bytes[SAB_LOG_BYTES - 1] = 1;
    CHECK(check_order(s, NULL, 0) == SAB_UNSOUND_LOG);
    s.log.bytes[SAB_LOG_BYTES - 1] = 0;
    note(s.log);
    note(s.ours);
    note(s.theirs);
    for (i = 0; i < WRONG_LENGTHS; i++) {
        size_t log = wrong_length(SAB_LOG_BYTES, i), bytes = wrong_length(SAB_BASE_BYTES, i),
               tree = wrong_length(SAB_TREE_BYTES, i);
        CHECK(sab_check_order(nowhere(), log, EMPTY_BASE, nowhere(), 4, s.ours.bytes,
                              SAB_TREE_BYTES, s.theirs.bytes, SAB_TREE_BYTES) == SAB_BAD_BUFFER);
        CHECK(sab_check_order(s.log.bytes, SAB_LOG_BYTES, nowhere(), bytes, nowhere(), 4,
                              s.ours.bytes, SAB_TREE_BYTES, s.theirs.bytes,
                              SAB_TREE_BYTES) == SAB_BAD_BUFFER);
        CHECK(sab_check_order(s.log.bytes, SAB_LOG_BYTES, EMPTY_BASE, nowhere(), 4, nowhere(), tree,
                              s.theirs.bytes, SAB_TREE_BYTES) == SAB_BAD_BUFFER);
        CHECK(sab_check_order(s.log.bytes, SAB_LOG_BYTES, EMPTY_BASE, nowhere(), 4, s.ours.bytes,
                              SAB_TREE_BYTES, nowhere(), tree) == SAB_BAD_BUFFER);
    }
    CHECK(kept(s.log) && kept(s.ours) && kept(s.theirs));
    memcpy(base.bytes, empty_base(), SAB_BASE_BYTES);
    make(s.log.bytes, 0, SAB_MAKE_FOLDER, id_of(0, 0), "Bench");
    list.length = 0;
    name(&list, 0, 1);
    CHECK(answer(s, list) == SAB_OK);
    CHECK(sab_fold(s.log.bytes, SAB_LOG_BYTES, base.bytes, SAB_BASE_BYTES, ARCHIVE, 0, 1, WORK) ==
          1u << 16);
    note(s.ours);
    note(s.theirs);
    only_read(base, 1);
    for (i = 0; i < 2; i++)
        CHECK(sab_check_order(s.log.bytes, SAB_LOG_BYTES, base.bytes, SAB_BASE_BYTES, list.bytes,
                              i * list.length, s.ours.bytes, SAB_TREE_BYTES, s.theirs.bytes,
                              SAB_TREE_BYTES) == SAB_FOLDED);
    CHECK(kept(s.ours) && kept(s.theirs));
}

void test_check_order(void)
{
    struct lents s;
    s.log = lend(SAB_LOG_BYTES);
    s.ours = lend(SAB_TREE_BYTES);
    s.theirs = lend_low(SAB_TREE_BYTES);
    test_conditions(s);
    test_full(s);
    test_refusals(s);
}
