#include "make.h"

#include "check.h"
#include "sab.h"

#include <stdio.h>
#include <string.h>

uint32_t wide_unit(int i)
{
    static const uint32_t units[WIDE_UNITS] = {8,          256,         65536 + 1,
                                               0x01000007u, 0xFFFFFF00u, 0xFFFFFFFFu};
    return units[i];
}

unsigned get16(const uint8_t *bytes)
{
    return (unsigned)bytes[0] + 256u * bytes[1];
}

void put16(uint8_t *bytes, unsigned number)
{
    bytes[0] = (uint8_t)(number & 0xFF);
    bytes[1] = (uint8_t)(number >> 8);
}

static void wish_of(uint8_t *wish, uint8_t unit, unsigned operation, const char *label)
{
    memset(wish, 0, SAB_RECORD_BYTES);
    wish[0] = unit;
    wish[1] = (uint8_t)operation;
    put16(wish + 28, 2025);
    wish[30] = 3;
    wish[31] = 4;
    memcpy(wish + 32, label, strlen(label));
    if (operation == SAB_MAKE_TRACE || operation == SAB_STORE)
        memset(wish + 64, 0x11, 16);
}

void wish_make(uint8_t *wish, uint8_t unit, unsigned operation, struct id folder, const char *label)
{
    wish_of(wish, unit, operation, label);
    wish[24] = folder.unit;
    put16(wish + 26, folder.number);
}

void wish_on(uint8_t *wish, uint8_t unit, unsigned operation, struct id object, const char *label)
{
    wish_of(wish, unit, operation, label);
    wish[20] = object.unit;
    put16(wish + 22, object.number);
}

void wish_move(uint8_t *wish, uint8_t unit, struct id object, struct id folder, const char *label)
{
    wish_on(wish, unit, SAB_MOVE, object, label);
    wish[24] = folder.unit;
    put16(wish + 26, folder.number);
}

struct id id_of(uint8_t unit, unsigned number)
{
    struct id id;
    id.unit = unit;
    id.number = number;
    return id;
}

const uint8_t *empty_base(void)
{
    static struct lent base;
    if (base.bytes == NULL) {
        base = lend(SAB_BASE_BYTES);
        memset(base.bytes, 0, SAB_BASE_BYTES);
        base.bytes[0] = 255;
        only_read(base, 1);
    }
    return base.bytes;
}

uint8_t *spare_base(void)
{
    static struct lent base;
    if (base.bytes == NULL)
        base = lend(SAB_BASE_BYTES);
    return base.bytes;
}

uint8_t *work_memory(void)
{
    static struct lent work;
    if (work.bytes == NULL)
        work = lend(SAB_WORK_BYTES);
    return work.bytes;
}

void act(uint8_t *log, uint8_t unit, const uint8_t *wish)
{
    CHECK(sab_act(log, SAB_LOG_BYTES, EMPTY_BASE, NULL, 0, ARCHIVE, unit, wish, SAB_RECORD_BYTES,
                  WORK) == SAB_OK);
}

void make(uint8_t *log, uint8_t unit, unsigned operation, struct id folder, const char *label)
{
    uint8_t wish[SAB_RECORD_BYTES];
    wish_make(wish, unit, operation, folder, label);
    act(log, unit, wish);
}

void change(uint8_t *log, uint8_t unit, unsigned operation, struct id object, const char *label)
{
    uint8_t wish[SAB_RECORD_BYTES];
    wish_on(wish, unit, operation, object, label);
    act(log, unit, wish);
}

unsigned held(const uint8_t *log)
{
    unsigned n = 0;
    while (n < 512 && get16(log + SAB_RECORD_BYTES * n + 2) != 0)
        n++;
    return n;
}

void counts(const uint8_t *log, uint8_t *vector)
{
    unsigned i;
    memset(vector, 0, SAB_VECTOR_BYTES);
    for (i = 0; i < held(log); i++) {
        uint8_t *count = vector + 2 * log[SAB_RECORD_BYTES * i];
        put16(count, get16(count) + 1);
    }
}

void pass(const uint8_t *from, uint8_t giver, uint8_t *to, uint8_t taker)
{
    uint8_t asked[SAB_VECTOR_BYTES], block[SAB_BLOCK_BYTES];
    do {
        counts(to, asked);
        CHECK(sab_hand_out(from, SAB_LOG_BYTES, EMPTY_BASE, ARCHIVE, giver, asked,
                           SAB_VECTOR_BYTES, block, SAB_BLOCK_BYTES) == SAB_OK);
        CHECK(sab_take(to, SAB_LOG_BYTES, EMPTY_BASE, NULL, 0, ARCHIVE, taker, block,
                       SAB_BLOCK_BYTES, NO_WORK) == SAB_OK);
    } while (block[9] != 0);
}

void sums(const uint8_t *block, unsigned *first, unsigned *second)
{
    int i;
    *first = 0;
    *second = 0;
    for (i = 0; i < 254; i++) {
        *first = (*first + get16(block + 2 * i)) % 65521;
        *second = (*second + *first) % 65521;
    }
}

void seal(uint8_t *block)
{
    unsigned first, second;
    sums(block, &first, &second);
    put16(block + 508, first);
    put16(block + 510, second);
}

void bench_logs(uint8_t *apart, uint8_t *all)
{
    static uint8_t other[SAB_LOG_BYTES];
    uint8_t wish[SAB_RECORD_BYTES];
    memset(apart, 0, SAB_LOG_BYTES);
    memset(other, 0, SAB_LOG_BYTES);
    wish_make(wish, 0, SAB_MAKE_FOLDER, id_of(0, 0), "Bench");
    wish[31] = 3;
    act(other, 0, wish);
    pass(other, 0, apart, 1);
    make(other, 0, SAB_MAKE_TRACE, id_of(0, 1), "Gain \"A\"");
    wish_make(wish, 1, SAB_MAKE_TRACE, id_of(0, 1), "Gain \"A\"");
    wish[31] = 5;
    memset(wish + 64, 0x22, 16);
    act(apart, 1, wish);
    memcpy(all, other, SAB_LOG_BYTES);
    pass(apart, 1, all, 0);
}

void full_log(uint8_t *log)
{
    char label[16];
    int i;
    memset(log, 0, SAB_LOG_BYTES);
    make(log, 0, SAB_MAKE_FOLDER, id_of(0, 0), "Bench");
    for (i = 1; i < 512; i++) {
        sprintf(label, "T%d", i);
        if (i % 2 == 1)
            make(log, (uint8_t)(i % 3), SAB_MAKE_TRACE, id_of(0, 1), label);
        else
            change(log, (uint8_t)(i % 3), SAB_STORE, id_of(1, 1), "");
    }
}
