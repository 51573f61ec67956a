/* Comparing, the vector of a log, starting. */

#include "check.h"
#include "lent.h"
#include "sab.h"
#include "make.h"
#include "tests.h"

#include <string.h>

static void put_vector(uint8_t *vector, const unsigned *counts)
{
    int u;
    for (u = 0; u < 8; u++)
        put16(vector + 2 * u, counts[u]);
}

/* How many records the first lacks: the sum, over the units, of what the second
 * has more. */
static unsigned long lacked(const unsigned *first, const unsigned *second)
{
    unsigned long sum = 0;
    int u;
    for (u = 0; u < 8; u++)
        sum += second[u] > first[u] ? second[u] - first[u] : 0;
    return sum;
}

static unsigned long get32(const uint8_t *bytes)
{
    return bytes[0] | (unsigned long)bytes[1] << 8 | (unsigned long)bytes[2] << 16 |
           (unsigned long)bytes[3] << 24;
}

/* The answer by the words of the paper. */
static unsigned answer(const unsigned *first, const unsigned *second)
{
    int u, first_ahead = 0, second_ahead = 0;
    for (u = 0; u < 8; u++) {
        first_ahead |= first[u] > second[u];
        second_ahead |= second[u] > first[u];
    }
    return (unsigned)(first_ahead + 2 * second_ahead);
}

static uint32_t compared(struct lent first, struct lent second, struct lent lacks)
{
    return sab_compare(first.bytes, SAB_VECTOR_BYTES, second.bytes, SAB_VECTOR_BYTES, lacks.bytes,
                       SAB_LACKS_BYTES);
}

void test_compare(void)
{
    static const unsigned edges[6] = {0, 1, 2, 255, 256, 65535};
    struct lent first = lend(SAB_VECTOR_BYTES), second = lend_low(SAB_VECTOR_BYTES);
    struct lent lacks = lend(SAB_LACKS_BYTES);
    unsigned a[8], b[8];
    int i, u, seed = 1;
    for (i = 0; i < 2000; i++) {
        for (u = 0; u < 8; u++) {
            seed = (seed * 1103 + 12345) % 1000003;
            a[u] = edges[seed % 6];
            b[u] = seed % 100 < i % 100 ? a[u] : edges[seed / 7 % 6];
        }
        put_vector(first.bytes, a);
        put_vector(second.bytes, b);
        only_read(first, 1);
        only_read(second, 1);
        fill(lacks);
        CHECK(compared(first, second, lacks) == answer(a, b) << 16);
        CHECK(get32(lacks.bytes) == lacked(a, b));
        CHECK(get32(lacks.bytes + 4) == lacked(b, a));
        only_read(first, 0);
        only_read(second, 0);
    }
    CHECK(SAB_COUNT(3u << 16) == SAB_BOTH_AHEAD);
    CHECK(SAB_NUMBER(0x00021405u) == 5 && SAB_PLACE(0x00021405u) == 20);
    for (i = 0; i < WRONG_LENGTHS; i++) {
        size_t wrong = wrong_length(SAB_VECTOR_BYTES, i);
        fill(lacks);
        note(lacks);
        CHECK(sab_compare(nowhere(), wrong, second.bytes, SAB_VECTOR_BYTES, lacks.bytes,
                          SAB_LACKS_BYTES) == SAB_BAD_BUFFER);
        CHECK(sab_compare(first.bytes, SAB_VECTOR_BYTES, nowhere(), wrong, lacks.bytes,
                          SAB_LACKS_BYTES) == SAB_BAD_BUFFER);
        CHECK(sab_compare(nowhere(), wrong, nowhere(), wrong, lacks.bytes, SAB_LACKS_BYTES) ==
              SAB_BAD_BUFFER);
        CHECK(kept(lacks));
        wrong = wrong_length(SAB_LACKS_BYTES, i);
        CHECK(sab_compare(first.bytes, SAB_VECTOR_BYTES, second.bytes, SAB_VECTOR_BYTES,
                          nowhere(), wrong) == SAB_BAD_BUFFER);
    }
    CHECK(sab_compare(NULL, 0, NULL, 0, NULL, 0) == SAB_BAD_BUFFER);
}

static uint32_t vector_of(struct lent log, struct lent vector)
{
    uint32_t r;
    only_read(log, 1);
    fill(vector);
    note(vector);
    r = sab_vector(log.bytes, SAB_LOG_BYTES, EMPTY_BASE, vector.bytes, SAB_VECTOR_BYTES);
    only_read(log, 0);
    CHECK(SAB_NUMBER(r) == SAB_OK || kept(vector));
    return r;
}

void test_vector(void)
{
    static uint8_t apart[SAB_LOG_BYTES];
    struct lent log = lend(SAB_LOG_BYTES), vector = lend_low(SAB_VECTOR_BYTES);
    uint8_t expected[SAB_VECTOR_BYTES] = {0};
    size_t at;
    int i;
    memset(log.bytes, 0, SAB_LOG_BYTES);
    CHECK(vector_of(log, vector) == SAB_OK);
    CHECK(memcmp(vector.bytes, expected, SAB_VECTOR_BYTES) == 0);
    bench_logs(apart, log.bytes);
    put16(expected, 2);
    put16(expected + 2, 1);
    CHECK(vector_of(log, vector) == 3u << 16);
    CHECK(memcmp(vector.bytes, expected, SAB_VECTOR_BYTES) == 0);
    for (at = 0; at < 4 * SAB_RECORD_BYTES; at += SAB_RECORD_BYTES) {
        log.bytes[at] ^= 0x80;
        CHECK(vector_of(log, vector) == SAB_UNSOUND_LOG);
        log.bytes[at] ^= 0x80;
    }
    full_log(log.bytes);
    counts(log.bytes, expected);
    CHECK(vector_of(log, vector) == 512u << 16);
    CHECK(memcmp(vector.bytes, expected, SAB_VECTOR_BYTES) == 0);
    fill(log);
    CHECK(vector_of(log, vector) == SAB_UNSOUND_LOG);
    note(log);
    note(vector);
    for (i = 0; i < WRONG_LENGTHS; i++) {
        size_t no_log = wrong_length(SAB_LOG_BYTES, i), no_vector = wrong_length(SAB_VECTOR_BYTES, i);
        CHECK(sab_vector(nowhere(), no_log, EMPTY_BASE, vector.bytes, SAB_VECTOR_BYTES) == SAB_BAD_BUFFER);
        CHECK(sab_vector(log.bytes, SAB_LOG_BYTES, EMPTY_BASE, nowhere(), no_vector) == SAB_BAD_BUFFER);
        CHECK(sab_vector(nowhere(), no_log, EMPTY_BASE, nowhere(), no_vector) == SAB_BAD_BUFFER);
    }
    CHECK(sab_vector(NULL, 0, EMPTY_BASE, NULL, 0) == SAB_BAD_BUFFER);
    CHECK(kept(log) && kept(vector));
}

void test_start(void)
{
    struct lent log = lend(SAB_LOG_BYTES);
    size_t i;
    int unit, zero;
    for (unit = 0; unit < 8; unit++) {
        fill(log);
        CHECK(sab_start(log.bytes, SAB_LOG_BYTES, SPARE_BASE, NULL, 0, 0xFFFFFFFFu,
                        (uint32_t)unit) == SAB_OK);
        for (i = 0, zero = 1; i < SAB_LOG_BYTES; i++)
            zero &= log.bytes[i] == 0;
        CHECK(zero);
    }
    fill(log);
    note(log);
    for (unit = 8; unit < 256; unit++)
        CHECK(sab_start(log.bytes, SAB_LOG_BYTES, SPARE_BASE, NULL, 0, 0, (uint32_t)unit) == SAB_BAD_UNIT);
    for (i = 0; i < WIDE_UNITS; i++)
        CHECK(sab_start(log.bytes, SAB_LOG_BYTES, SPARE_BASE, NULL, 0, 0, wide_unit((int)i)) == SAB_BAD_UNIT);
    for (i = 0; i < WRONG_LENGTHS; i++) {
        size_t wrong = wrong_length(SAB_LOG_BYTES, (int)i);
        CHECK(sab_start(nowhere(), wrong, SPARE_BASE, NULL, 0, ARCHIVE, 0) == SAB_BAD_BUFFER);
        CHECK(sab_start(nowhere(), wrong, SPARE_BASE, NULL, 0, ARCHIVE, 8) == SAB_BAD_BUFFER);
    }
    CHECK(sab_start(NULL, 0, SPARE_BASE, NULL, 0, ARCHIVE, 0) == SAB_BAD_BUFFER);
    CHECK(kept(log));
}
