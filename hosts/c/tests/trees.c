/* Showing the tree and the listing. */

#include "check.h"
#include "lent.h"
#include "sab.h"
#include "make.h"
#include "tests.h"

#include <string.h>

/* The tree table of the bench example. */
static void expect_tree(uint8_t *tree, const uint8_t *log)
{
    uint8_t *folder = tree + SAB_TREE_ENTRIES, *trace = folder + SAB_ENTRY_BYTES,
            *aside = tree + SAB_TREE_ASIDES;
    memset(tree, 0, SAB_TREE_BYTES);
    put16(tree, 2);
    put16(tree + 2, 1);
    folder[0] = SAB_FOLDER;
    put16(folder + 6, 1);
    put16(folder + 14, 1);
    put16(folder + 18, 1);
    memcpy(folder + 20, log + 28, 4);
    memcpy(folder + 24, "Bench", 5);
    trace[0] = SAB_TRACE;
    trace[1] = 1;
    put16(trace + 6, 2);
    put16(trace + 10, 1);
    put16(trace + 14, 2);
    put16(trace + 18, 2);
    memcpy(trace + 20, log + SAB_RECORD_BYTES + 28, 4);
    memcpy(trace + 24, "Gain \"A\"", 8);
    memset(trace + 56, 0x11, 16);
    aside[0] = 1;
    put16(aside + 2, 1);
    aside[4] = SAB_LABEL_HELD;
    aside[5] = SAB_OPEN;
    put16(aside + 10, 2);
}

static uint32_t show(struct lent log, struct lent tree)
{
    uint32_t r;
    only_read(log, 1);
    note(tree);
    r = sab_show(log.bytes, SAB_LOG_BYTES, EMPTY_BASE, tree.bytes, SAB_TREE_BYTES);
    only_read(log, 0);
    CHECK(r == SAB_OK || kept(tree));
    return r;
}

void test_show(void)
{
    static uint8_t apart[SAB_LOG_BYTES], expected[SAB_TREE_BYTES];
    struct lent log = lend(SAB_LOG_BYTES), tree = lend(SAB_TREE_BYTES);
    int i;
    bench_logs(apart, log.bytes);
    expect_tree(expected, log.bytes);
    CHECK(show(log, tree) == SAB_OK);
    CHECK(memcmp(tree.bytes, expected, SAB_TREE_BYTES) == 0);
    change(log.bytes, 0, SAB_SETTLE, id_of(1, 1), "");
    expected[SAB_TREE_ENTRIES + SAB_ENTRY_BYTES + 1] = 0;
    expected[SAB_TREE_ASIDES + 5] = SAB_SETTLED;
    CHECK(show(log, tree) == SAB_OK);
    CHECK(memcmp(tree.bytes, expected, SAB_TREE_BYTES) == 0);
    full_log(log.bytes);
    CHECK(show(log, tree) == SAB_OK);
    CHECK(get16(tree.bytes) == 257 && get16(tree.bytes + 2) == 0);
    log.bytes[SAB_LOG_BYTES - 80 + 28] = 0;
    log.bytes[SAB_LOG_BYTES - 80 + 29] = 0;
    CHECK(show(log, tree) == SAB_UNSOUND_LOG);
    memset(log.bytes, 0, SAB_LOG_BYTES);
    fill(tree);
    memset(expected, 0, SAB_TREE_BYTES);
    CHECK(show(log, tree) == SAB_OK);
    CHECK(memcmp(tree.bytes, expected, SAB_TREE_BYTES) == 0);
    note(log);
    note(tree);
    for (i = 0; i < WRONG_LENGTHS; i++) {
        size_t no_log = wrong_length(SAB_LOG_BYTES, i), no_tree = wrong_length(SAB_TREE_BYTES, i);
        CHECK(sab_show(nowhere(), no_log, EMPTY_BASE, tree.bytes, SAB_TREE_BYTES) == SAB_BAD_BUFFER);
        CHECK(sab_show(log.bytes, SAB_LOG_BYTES, EMPTY_BASE, nowhere(), no_tree) == SAB_BAD_BUFFER);
        CHECK(sab_show(nowhere(), no_log, EMPTY_BASE, nowhere(), no_tree) == SAB_BAD_BUFFER);
    }
    CHECK(kept(log) && kept(tree));
}

/* The buffers of a listing. */
struct listing {
    struct lent file, log, base, tree, out, length;
};

/* Lists the end of the file's buffer, with stated lengths. */
static uint32_t list(struct listing l, size_t file_length)
{
    uint32_t r;
    fill(l.log);
    fill(l.base);
    fill(l.tree);
    fill(l.out);
    fill(l.length);
    note(l.log);
    note(l.base);
    note(l.tree);
    note(l.out);
    note(l.length);
    only_read(l.file, 1);
    r = sab_listing(l.file.bytes + l.file.length - file_length, file_length, l.log.bytes,
                    SAB_LOG_BYTES, l.base.bytes, SAB_BASE_BYTES, l.tree.bytes, SAB_TREE_BYTES,
                    l.out.bytes, SAB_LISTING_BYTES, l.length.bytes, SAB_LENGTH_BYTES);
    only_read(l.file, 0);
    return r;
}

/* The listing is this text, and the bytes behind it are as they were. */
static int listed(struct listing l, const char *text)
{
    size_t length = strlen(text);
    return l.length.bytes[0] == (length & 0xFF) && l.length.bytes[1] == length >> 8 &&
           get16(l.length.bytes + 2) == 0 && memcmp(l.out.bytes, text, length) == 0 &&
           memcmp(l.out.bytes + length, l.out.was + length, SAB_LISTING_BYTES - length) == 0;
}

/* Every byte is zero. */
static int cleared(struct lent l)
{
    size_t i;
    for (i = 0; i < l.length; i++)
        if (l.bytes[i] != 0)
            return 0;
    return 1;
}

static const char BENCH[] =
    "archive 7 unit 0 records 3\n"
    "seen 2 1 0 0 0 0 0 0\n"
    "folder 0.1 in 0.0 \"Bench\" 2025-03-03\n"
    "trace 0.2 in 0.1 \"Gain \\\"A\\\"\" 2025-03-04 11111111111111111111111111111111 disputed\n"
    "aside 1.1 reason 15 marks 0.2 open\n";

static void test_wrong_buffers(struct listing l)
{
    int i, wrong;
    for (i = 0; i < WRONG_LENGTHS; i++)
        for (wrong = 1; wrong < 32; wrong++) {
            int log = wrong & 1, tree = wrong & 2, out = wrong & 4, length = wrong & 8;
            int base = wrong & 16;
            CHECK(sab_listing(nowhere(), 0, log ? nowhere() : l.log.bytes,
                              log ? wrong_length(SAB_LOG_BYTES, i) : SAB_LOG_BYTES,
                              base ? nowhere() : l.base.bytes,
                              base ? wrong_length(SAB_BASE_BYTES, i) : SAB_BASE_BYTES,
                              tree ? nowhere() : l.tree.bytes,
                              tree ? wrong_length(SAB_TREE_BYTES, i) : SAB_TREE_BYTES,
                              out ? nowhere() : l.out.bytes,
                              out ? wrong_length(SAB_LISTING_BYTES, i) : SAB_LISTING_BYTES,
                              length ? nowhere() : l.length.bytes,
                              length ? wrong_length(SAB_LENGTH_BYTES, i) : SAB_LENGTH_BYTES) ==
                  SAB_BAD_BUFFER);
            CHECK(kept(l.log) && kept(l.base) && kept(l.tree) && kept(l.out) && kept(l.length));
        }
}

void test_listing(void)
{
    static uint8_t apart[SAB_LOG_BYTES], all[SAB_LOG_BYTES], whole[SAB_FILE_BYTES],
        tree[SAB_TREE_BYTES];
    static const size_t not_files[4] = {0, 1, 511, 2 * SAB_BLOCK_BYTES - 1};
    struct listing l;
    int i;
    l.file = lend(2 * SAB_BLOCK_BYTES);
    l.log = lend(SAB_LOG_BYTES);
    l.base = lend(SAB_BASE_BYTES);
    l.tree = lend(SAB_TREE_BYTES);
    l.out = lend(SAB_LISTING_BYTES);
    l.length = lend(SAB_LENGTH_BYTES);
    bench_logs(apart, all);
    CHECK(sab_write_file(all, SAB_LOG_BYTES, EMPTY_BASE, ARCHIVE, 0, whole, SAB_FILE_BYTES) == 1u << 16);
    memcpy(l.file.bytes + SAB_BLOCK_BYTES, whole, SAB_BLOCK_BYTES);
    CHECK(list(l, SAB_BLOCK_BYTES) == SAB_OK);
    CHECK(listed(l, BENCH));
    CHECK(memcmp(l.log.bytes, all, SAB_LOG_BYTES) == 0);
    CHECK(memcmp(l.base.bytes, empty_base(), SAB_BASE_BYTES) == 0);
    expect_tree(tree, all);
    CHECK(memcmp(l.tree.bytes, tree, SAB_TREE_BYTES) == 0);

    l.file.bytes[SAB_BLOCK_BYTES + 30] ^= 1;
    CHECK(list(l, SAB_BLOCK_BYTES) == SAB_BAD_SUM);
    CHECK(listed(l, "refused 4 at 0\n"));
    CHECK(kept(l.log) && kept(l.base) && cleared(l.tree));
    memcpy(l.file.bytes, whole, SAB_BLOCK_BYTES);
    CHECK(list(l, 2 * SAB_BLOCK_BYTES) == SAB_BAD_FILE);
    CHECK(listed(l, "refused 20 at 0\n"));
    for (i = 0; i < 4; i++) {
        CHECK(list(l, not_files[i]) == SAB_BAD_LENGTH);
        CHECK(listed(l, "refused 2 at 0\n"));
        CHECK(kept(l.log) && kept(l.base) && cleared(l.tree));
    }
    note(l.tree);
    note(l.out);
    note(l.length);
    test_wrong_buffers(l);
}
