/* SAB2 files: written, read, listed, converted, refused. */

#include "check.h"
#include "lent.h"
#include "sab.h"
#include "make.h"
#include "tests.h"

#include <string.h>

/* The log and the base of a unit, and where its file is written. */
struct state {
    struct lent log, base, file;
};

/* A refusal: number and place. */
static uint32_t at(unsigned number, unsigned place)
{
    return number + 256u * place;
}

static uint32_t write_sab2(struct state s, uint32_t unit)
{
    uint32_t r;
    only_read(s.log, 1);
    only_read(s.base, 1);
    note(s.file);
    r = sab_write_sab2(s.log.bytes, SAB_LOG_BYTES, s.base.bytes, SAB_BASE_BYTES, ARCHIVE, unit,
                       s.file.bytes, SAB_SAB2_BYTES);
    only_read(s.log, 0);
    only_read(s.base, 0);
    CHECK(SAB_NUMBER(r) == SAB_OK || kept(s.file));
    return r;
}

/* Row i of a base, by the words of the format. */
static void expect_row(uint8_t *row, const uint8_t *base, unsigned i)
{
    unsigned entries = get16(base + 2), left = 12 * get16(base + 4);
    memset(row, 0, SAB_RECORD_BYTES);
    if (i == 0)
        memcpy(row, base, 24);
    else if (i <= entries)
        memcpy(row, base + 24 + SAB_ENTRY_BYTES * (i - 1), SAB_ENTRY_BYTES);
    else {
        unsigned from = 72 * (i - 1 - entries);
        memcpy(row, base + 36888 + from, left - from > 72 ? 72 : left - from);
    }
}

/* The file of a state; how many blocks it has. */
static unsigned expect_sab2(uint8_t *file, struct state s, uint8_t unit)
{
    unsigned rows = 1 + get16(s.base.bytes + 2) + (get16(s.base.bytes + 4) + 5) / 6;
    unsigned n = held(s.log.bytes), place = 0, part, i, u;
    memset(file, 0, SAB_SAB2_BYTES);
    for (part = 0; part < 2; part++) {
        unsigned all = part == 0 ? rows : n, from;
        for (from = 0; from < all; from += 6, place++) {
            uint8_t *block = file + SAB_BLOCK_BYTES * place;
            unsigned count = all - from > 6 ? 6 : all - from;
            memcpy(block, "SAB2", 4);
            block[4] = ARCHIVE;
            block[8] = unit;
            block[9] = (uint8_t)count;
            put16(block + 10, place);
            counts(s.log.bytes, block + 12);
            for (u = 0; u < 8; u++)
                put16(block + 12 + 2 * u,
                      get16(block + 12 + 2 * u) + get16(s.base.bytes + 8 + 2 * u));
            for (i = 0; i < count; i++) {
                uint8_t *at = block + 28 + SAB_RECORD_BYTES * i;
                if (part == 0)
                    expect_row(at, s.base.bytes, from + i);
                else
                    memcpy(at, s.log.bytes + SAB_RECORD_BYTES * (from + i), SAB_RECORD_BYTES);
            }
            seal(block);
        }
    }
    return place;
}

/* The bench example at unit 0, units 0 and 1 listed: 0.1 is folded, 0.2 and 1.1
 * are left. */
static struct state folded(void)
{
    static uint8_t apart[SAB_LOG_BYTES];
    struct state s;
    s.log = lend(SAB_LOG_BYTES);
    s.base = lend(SAB_BASE_BYTES);
    s.file = lend(SAB_SAB2_BYTES);
    memcpy(s.base.bytes, empty_base(), SAB_BASE_BYTES);
    bench_logs(apart, s.log.bytes);
    CHECK(sab_fold(s.log.bytes, SAB_LOG_BYTES, s.base.bytes, SAB_BASE_BYTES, ARCHIVE, 0, 3, WORK) ==
          1u << 16);
    return s;
}

static void test_write(struct state s)
{
    static uint8_t expected[SAB_SAB2_BYTES];
    unsigned blocks;
    int i;
    blocks = expect_sab2(expected, s, 0);
    CHECK(blocks == 2 && write_sab2(s, 0) == blocks << 16);
    CHECK(memcmp(s.file.bytes, expected, SAB_SAB2_BYTES) == 0);
    /* The unit goes into the headers, and need not be listed. */
    expect_sab2(expected, s, 6);
    CHECK(write_sab2(s, 6) == blocks << 16);
    CHECK(memcmp(s.file.bytes, expected, SAB_SAB2_BYTES) == 0);
    for (i = 0; i < WIDE_UNITS; i++)
        CHECK(write_sab2(s, wide_unit(i)) == SAB_BAD_UNIT);
    s.base.bytes[1] = 1;
    CHECK(write_sab2(s, 8) == SAB_BAD_UNIT);
    CHECK(write_sab2(s, 0) == SAB_UNSOUND_LOG);
    s.base.bytes[1] = 0;
    note(s.log);
    note(s.base);
    note(s.file);
    for (i = 0; i < WRONG_LENGTHS; i++) {
        size_t no_log = wrong_length(SAB_LOG_BYTES, i), no_base = wrong_length(SAB_BASE_BYTES, i),
               no_file = wrong_length(SAB_SAB2_BYTES, i);
        CHECK(sab_write_sab2(nowhere(), no_log, s.base.bytes, SAB_BASE_BYTES, ARCHIVE, 8,
                             s.file.bytes, SAB_SAB2_BYTES) == SAB_BAD_BUFFER);
        CHECK(sab_write_sab2(s.log.bytes, SAB_LOG_BYTES, nowhere(), no_base, ARCHIVE, 8,
                             s.file.bytes, SAB_SAB2_BYTES) == SAB_BAD_BUFFER);
        CHECK(sab_write_sab2(s.log.bytes, SAB_LOG_BYTES, s.base.bytes, SAB_BASE_BYTES, ARCHIVE, 8,
                             nowhere(), no_file) == SAB_BAD_BUFFER);
    }
    CHECK(kept(s.log) && kept(s.base) && kept(s.file));
}

/* Where a file is read into, and the file at the end of its buffer. */
struct reading {
    struct lent log, base, head, file;
    size_t length;
};

static uint8_t *bytes_of(struct reading r)
{
    return r.file.bytes + r.file.length - r.length;
}

/* Reads the file; a refusal must leave log, base and head. The way back is refused
 * with the same, or with 29. */
static uint32_t read_sab2(struct reading r)
{
    static struct lent out;
    uint32_t answer, back;
    if (out.bytes == NULL)
        out = lend(SAB_FILE_BYTES);
    fill(r.log);
    fill(r.base);
    fill(r.head);
    note(r.log);
    note(r.base);
    note(r.head);
    only_read(r.file, 1);
    answer = sab_read_file(r.log.bytes, SAB_LOG_BYTES, r.base.bytes, SAB_BASE_BYTES, bytes_of(r),
                           r.length, r.head.bytes, SAB_HEAD_BYTES);
    note(out);
    back = sab_to_sab1(bytes_of(r), r.length, out.bytes, SAB_FILE_BYTES);
    only_read(r.file, 0);
    if (SAB_NUMBER(answer) != SAB_OK)
        CHECK(kept(r.log) && kept(r.base) && kept(r.head) && back == answer);
    else
        CHECK(back == SAB_FOLDED);
    CHECK(kept(out));
    return answer;
}

/* The file of the state, two blocks, with a byte of one changed and right sums. */
static uint32_t read_changed(struct state s, struct reading r, unsigned block, size_t offset,
                             uint8_t byte)
{
    uint8_t *changed = bytes_of(r) + SAB_BLOCK_BYTES * block;
    memcpy(bytes_of(r), s.file.bytes, r.length);
    changed[offset] = byte;
    seal(changed);
    return read_sab2(r);
}

enum { HEAD = 28, ENTRY = 28 + 80, RECORD = 28 };

static void test_read(struct state s)
{
    struct reading r;
    unsigned block;
    size_t i;
    r.log = lend(SAB_LOG_BYTES);
    r.base = lend(SAB_BASE_BYTES);
    r.head = lend(SAB_HEAD_BYTES);
    r.file = lend(2 * SAB_BLOCK_BYTES);
    r.length = 2 * SAB_BLOCK_BYTES;
    CHECK(write_sab2(s, 0) == 2u << 16);
    CHECK(read_changed(s, r, 0, 0, 'S') == 2u << 16);
    CHECK(memcmp(r.log.bytes, s.log.bytes, SAB_LOG_BYTES) == 0);
    CHECK(memcmp(r.base.bytes, s.base.bytes, SAB_BASE_BYTES) == 0);
    CHECK(memcmp(r.head.bytes, "\x07\0\0\0\0\0\x02\0\x02\0\x01\0\0\0\0\0", 16) == 0);

    /* Each byte changed alone is noticed, whatever form the file then has. */
    memcpy(bytes_of(r), s.file.bytes, r.length);
    for (i = 0; i < r.length; i++) {
        bytes_of(r)[i] ^= 1;
        CHECK(SAB_NUMBER(sab_read_file(r.log.bytes, SAB_LOG_BYTES, r.base.bytes, SAB_BASE_BYTES,
                                       bytes_of(r), r.length, r.head.bytes, SAB_HEAD_BYTES)) != SAB_OK);
        bytes_of(r)[i] ^= 1;
    }

    /* Block by block: 3, 4, 5, 20. */
    CHECK(read_changed(s, r, 1, 3, '1') == at(SAB_BAD_LETTERS, 1));
    for (block = 0; block < 2; block++) {
        memcpy(bytes_of(r), s.file.bytes, r.length);
        bytes_of(r)[SAB_BLOCK_BYTES * block + 511] ^= 1;
        CHECK(read_sab2(r) == at(SAB_BAD_SUM, block));
        CHECK(read_changed(s, r, block, 8, 8) == at(SAB_BAD_HEADER, block));
        CHECK(read_changed(s, r, block, 507, 1) == at(SAB_BAD_HEADER, block));
        CHECK(read_changed(s, r, block, 10, 2) == at(SAB_BAD_FILE, block));
    }
    CHECK(read_changed(s, r, 1, 8, 3) == at(SAB_BAD_FILE, 1));
    CHECK(read_changed(s, r, 1, 7, 1) == at(SAB_BAD_FILE, 1));
    CHECK(read_changed(s, r, 1, 27, 1) == at(SAB_BAD_FILE, 1));
    /* The head says other rows than there are. */
    CHECK(read_changed(s, r, 0, HEAD + 2, 0) == at(SAB_BAD_FILE, 0));
    CHECK(read_changed(s, r, 0, HEAD + 3, 2) == at(SAB_BAD_FILE, 0));
    CHECK(read_changed(s, r, 0, HEAD + 4, 1) == at(SAB_BAD_FILE, 0));
    CHECK(read_changed(s, r, 1, 9, 1) == at(SAB_BAD_HEADER, 1));

    /* List and base: 31 at place 0. */
    CHECK(read_changed(s, r, 0, HEAD, 2) == at(SAB_BAD_BASE, 0));
    CHECK(read_changed(s, r, 0, HEAD + 1, 1) == at(SAB_BAD_BASE, 0));
    CHECK(read_changed(s, r, 0, HEAD + 7, 1) == at(SAB_BAD_BASE, 0));
    CHECK(read_changed(s, r, 0, HEAD + 8, 0) == at(SAB_BAD_BASE, 0));
    CHECK(read_changed(s, r, 0, HEAD + 24, 1) == at(SAB_BAD_BASE, 0));
    CHECK(read_changed(s, r, 0, ENTRY, 3) == at(SAB_BAD_BASE, 0));
    CHECK(read_changed(s, r, 0, ENTRY + 10, 1) == at(SAB_BAD_BASE, 0));
    CHECK(read_changed(s, r, 0, ENTRY + 71, 1) == at(SAB_BAD_BASE, 0));
    CHECK(read_changed(s, r, 0, ENTRY + 79, 1) == at(SAB_BAD_BASE, 0));

    /* Records: 7, 26, 8, 20; at last the vector. */
    CHECK(read_changed(s, r, 1, RECORD + 31, 0) == at(SAB_MALFORMED, 1));
    CHECK(read_changed(s, r, 0, HEAD, 1) == at(SAB_UNLISTED, 1));
    CHECK(read_changed(s, r, 1, RECORD + 80 + 4, 3) == at(SAB_NOT_NEXT, 1));
    memcpy(bytes_of(r), s.file.bytes, r.length);
    memcpy(bytes_of(r) + SAB_BLOCK_BYTES + RECORD, s.log.bytes + 80, 80);
    memcpy(bytes_of(r) + SAB_BLOCK_BYTES + RECORD + 80, s.log.bytes, 80);
    seal(bytes_of(r) + SAB_BLOCK_BYTES);
    CHECK(read_sab2(r) == at(SAB_BAD_FILE, 1));
    memcpy(bytes_of(r), s.file.bytes, r.length);
    for (block = 0; block < 2; block++) {
        bytes_of(r)[SAB_BLOCK_BYTES * block + 12] = 3;
        seal(bytes_of(r) + SAB_BLOCK_BYTES * block);
    }
    CHECK(read_sab2(r) == at(SAB_BAD_FILE, 1));
    /* Cut between the blocks: the vector counts what is gone. */
    r.length = SAB_BLOCK_BYTES;
    memcpy(bytes_of(r), s.file.bytes, r.length);
    CHECK(read_sab2(r) == at(SAB_BAD_FILE, 0));
    r.length = SAB_BLOCK_BYTES + 511;
    memcpy(bytes_of(r), s.file.bytes, r.length);
    CHECK(read_sab2(r) == at(SAB_BAD_LENGTH, 0));
}

static void test_list(struct state s)
{
    static const char text[] =
        "archive 7 unit 0 records 2\n"
        "seen 2 1 0 0 0 0 0 0\n"
        "folder 0.1 in 0.0 \"Bench\" 2025-03-03\n"
        "trace 0.2 in 0.1 \"Gain \\\"A\\\"\" 2025-03-04 11111111111111111111111111111111 disputed\n"
        "aside 1.1 reason 15 marks 0.2 open\n";
    static uint8_t expected[SAB_TREE_BYTES], length[SAB_LENGTH_BYTES];
    struct lent log = lend(SAB_LOG_BYTES), base = lend(SAB_BASE_BYTES), tree = lend(SAB_TREE_BYTES),
                out = lend(SAB_LISTING_BYTES);
    uint32_t r = write_sab2(s, 0);
    CHECK(sab_listing(s.file.bytes, SAB_BLOCK_BYTES * SAB_COUNT(r), log.bytes, SAB_LOG_BYTES,
                      base.bytes, SAB_BASE_BYTES, tree.bytes, SAB_TREE_BYTES, out.bytes,
                      SAB_LISTING_BYTES, length, SAB_LENGTH_BYTES) == SAB_OK);
    CHECK(get16(length) == sizeof text - 1 && get16(length + 2) == 0);
    CHECK(memcmp(out.bytes, text, sizeof text - 1) == 0);
    CHECK(memcmp(log.bytes, s.log.bytes, SAB_LOG_BYTES) == 0);
    CHECK(memcmp(base.bytes, s.base.bytes, SAB_BASE_BYTES) == 0);
    CHECK(sab_show(s.log.bytes, SAB_LOG_BYTES, s.base.bytes, SAB_BASE_BYTES, expected,
                   SAB_TREE_BYTES) == SAB_OK);
    CHECK(memcmp(tree.bytes, expected, SAB_TREE_BYTES) == 0);
}

/* SAB1 to SAB2 and back, of so many records. */
static void test_both_ways(unsigned records)
{
    static uint8_t sab1[SAB_FILE_BYTES];
    struct state s;
    struct lent back = lend(SAB_FILE_BYTES), up = lend(SAB_SAB2_BYTES);
    unsigned n = records == 0 ? 1 : (records + 5) / 6, more = records == 0 ? 1 : n + 1;
    size_t i;
    s.log = lend(SAB_LOG_BYTES);
    s.base = lend(SAB_BASE_BYTES);
    s.file = lend(SAB_SAB2_BYTES);
    memcpy(s.base.bytes, empty_base(), SAB_BASE_BYTES);
    full_log(s.log.bytes);
    memset(s.log.bytes + SAB_RECORD_BYTES * records, 0,
           SAB_LOG_BYTES - SAB_RECORD_BYTES * records);
    CHECK(sab_write_file(s.log.bytes, SAB_LOG_BYTES, EMPTY_BASE, ARCHIVE, 4, sab1,
                         SAB_FILE_BYTES) == n << 16);
    CHECK(sab_to_sab2(sab1, SAB_BLOCK_BYTES * n, up.bytes, SAB_SAB2_BYTES) == more << 16);
    CHECK(write_sab2(s, 4) == more << 16);
    CHECK(memcmp(up.bytes, s.file.bytes, SAB_SAB2_BYTES) == 0);
    CHECK(sab_to_sab1(up.bytes, SAB_BLOCK_BYTES * more, back.bytes, SAB_FILE_BYTES) == n << 16);
    CHECK(memcmp(back.bytes, sab1, SAB_FILE_BYTES) == 0);

    /* Each takes its starting form alone; so does a merge. */
    note(back);
    note(up);
    CHECK(sab_to_sab2(s.file.bytes, SAB_BLOCK_BYTES * more, up.bytes, SAB_SAB2_BYTES) ==
          (more > 86 ? SAB_BAD_LENGTH : SAB_BAD_LETTERS));
    CHECK(sab_to_sab1(sab1, SAB_BLOCK_BYTES * n, back.bytes, SAB_FILE_BYTES) == SAB_BAD_LETTERS);
    CHECK(sab_merge(sab1, SAB_BLOCK_BYTES * n, s.file.bytes, SAB_BLOCK_BYTES * more, s.log.bytes,
                    SAB_LOG_BYTES, back.bytes, SAB_FILE_BYTES) ==
          ((more > 86 ? SAB_BAD_LENGTH : SAB_BAD_LETTERS) | 2u << 16));
    /* Any length is judged without a look at the bytes. */
    CHECK(sab_to_sab2(nowhere(), SAB_FILE_BYTES + 512, up.bytes, SAB_SAB2_BYTES) == SAB_BAD_LENGTH);
    CHECK(sab_to_sab1(nowhere(), SAB_SAB2_BYTES + 512, back.bytes, SAB_FILE_BYTES) == SAB_BAD_LENGTH);
    for (i = 0; i < 4; i++) {
        static const size_t not_files[4] = {0, 1, 511, 513};
        CHECK(sab_to_sab2(nowhere(), not_files[i], up.bytes, SAB_SAB2_BYTES) == SAB_BAD_LENGTH);
        CHECK(sab_to_sab1(nowhere(), not_files[i], back.bytes, SAB_FILE_BYTES) == SAB_BAD_LENGTH);
    }
    for (i = 0; i < WRONG_LENGTHS; i++) {
        CHECK(sab_to_sab2(nowhere(), 0, nowhere(), wrong_length(SAB_SAB2_BYTES, (int)i)) ==
              SAB_BAD_BUFFER);
        CHECK(sab_to_sab1(nowhere(), 0, nowhere(), wrong_length(SAB_FILE_BYTES, (int)i)) ==
              SAB_BAD_BUFFER);
    }
    CHECK(kept(back) && kept(up));
}

/* A list of units 0 and 1 with nothing folded is lost on the way back. */
static void test_lost_list(void)
{
    static uint8_t base[SAB_BASE_BYTES], log[SAB_LOG_BYTES], file[SAB_SAB2_BYTES],
        back[SAB_FILE_BYTES], head[SAB_HEAD_BYTES];
    memcpy(base, empty_base(), SAB_BASE_BYTES);
    make(log, 0, SAB_MAKE_FOLDER, id_of(0, 0), "Bench");
    CHECK(sab_fold(log, SAB_LOG_BYTES, base, SAB_BASE_BYTES, ARCHIVE, 0, 3, WORK) == SAB_OK);
    CHECK(sab_write_sab2(log, SAB_LOG_BYTES, base, SAB_BASE_BYTES, ARCHIVE, 0, file,
                         SAB_SAB2_BYTES) == 2u << 16);
    CHECK(sab_read_file(log, SAB_LOG_BYTES, base, SAB_BASE_BYTES, file, 2 * SAB_BLOCK_BYTES, head,
                        SAB_HEAD_BYTES) == 1u << 16);
    CHECK(base[0] == 3);
    CHECK(sab_to_sab1(file, 2 * SAB_BLOCK_BYTES, back, SAB_FILE_BYTES) == 1u << 16);
    CHECK(sab_read_file(log, SAB_LOG_BYTES, base, SAB_BASE_BYTES, back, SAB_BLOCK_BYTES, head,
                        SAB_HEAD_BYTES) == 1u << 16);
    CHECK(memcmp(base, empty_base(), SAB_BASE_BYTES) == 0);
}

/* An SAB2 block is not taken. */
static void test_not_taken(struct state s)
{
    static uint8_t log[SAB_LOG_BYTES];
    CHECK(write_sab2(s, 0) == 2u << 16);
    CHECK(sab_take(log, SAB_LOG_BYTES, EMPTY_BASE, NULL, 0, ARCHIVE, 0, s.file.bytes,
                   SAB_BLOCK_BYTES, NO_WORK) == SAB_BAD_LETTERS);
}

void test_sab2(void)
{
    struct state s = folded();
    test_write(s);
    test_read(s);
    test_list(s);
    test_not_taken(s);
    test_both_ways(512);
    test_both_ways(13);
    test_both_ways(6);
    test_both_ways(0);
    test_lost_list();
}
