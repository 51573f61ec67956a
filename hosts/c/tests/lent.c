#define _DEFAULT_SOURCE

#include "lent.h"

#include <stdio.h>
#include <stdlib.h>
#include <string.h>
#include <sys/mman.h>

enum { PAGE = 4096 };

static size_t pages(size_t length)
{
    return (length + PAGE - 1) / PAGE * PAGE;
}

static uint8_t *reserve(size_t length)
{
    void *at = mmap(NULL, length, PROT_NONE, MAP_PRIVATE | MAP_ANONYMOUS, -1, 0);
    if (at == MAP_FAILED) {
        perror("mmap");
        exit(1);
    }
    return (uint8_t *)at;
}

static void allow(void *at, size_t length, int how)
{
    if (mprotect(at, length, how) != 0) {
        perror("mprotect");
        exit(1);
    }
}

static struct lent lend_at(size_t length, int low)
{
    struct lent buffer;
    size_t room = pages(length);
    uint8_t *at = reserve(room + 2 * PAGE) + PAGE;
    allow(at, room, PROT_READ | PROT_WRITE);
    buffer.bytes = low ? at : at + room - length;
    buffer.length = length;
    buffer.was = (uint8_t *)malloc(length);
    if (buffer.was == NULL)
        exit(1);
    fill(buffer);
    return buffer;
}

struct lent lend(size_t length)
{
    return lend_at(length, 0);
}

struct lent lend_low(size_t length)
{
    return lend_at(length, 1);
}

void fill(struct lent buffer)
{
    size_t i;
    for (i = 0; i < buffer.length; i++)
        buffer.bytes[i] = (uint8_t)(11 + 31 * i);
}

void note(struct lent buffer)
{
    memcpy(buffer.was, buffer.bytes, buffer.length);
}

int kept(struct lent buffer)
{
    return memcmp(buffer.was, buffer.bytes, buffer.length) == 0;
}

void only_read(struct lent buffer, int on)
{
    uint8_t *first = buffer.bytes - (uintptr_t)buffer.bytes % PAGE;
    allow(first, pages((size_t)(buffer.bytes - first) + buffer.length),
          on ? PROT_READ : PROT_READ | PROT_WRITE);
}

uint8_t *nowhere(void)
{
    static uint8_t *at;
    if (at == NULL)
        at = reserve(PAGE);
    return at;
}

size_t wrong_length(size_t stated, int i)
{
    const size_t lengths[WRONG_LENGTHS] = {0, 1, stated - 1, stated + 1, 2 * stated, (size_t)1 << 40};
    return lengths[i];
}
