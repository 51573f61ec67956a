/* Wishes, logs and blocks to test with. */

#ifndef MAKE_H
#define MAKE_H

#include "lent.h"

enum { ARCHIVE = 7 };

/* An identity; the root is 0.0. */
struct id {
    uint8_t unit;
    unsigned number;
};

/* Units above 7; some would be a unit if they were cut to 8, 16 or 24 bits. */
enum { WIDE_UNITS = 6 };
uint32_t wide_unit(int i);

unsigned get16(const uint8_t *bytes);
void put16(uint8_t *bytes, unsigned number);

/* A wish of an operation that uses a label in a folder. */
void wish_make(uint8_t *wish, uint8_t unit, unsigned operation, struct id folder, const char *label);

/* A wish of an operation on an object; the label may be empty. */
void wish_on(uint8_t *wish, uint8_t unit, unsigned operation, struct id object, const char *label);

/* A wish to move an object into a folder. */
void wish_move(uint8_t *wish, uint8_t unit, struct id object, struct id folder, const char *label);

struct id id_of(uint8_t unit, unsigned number);

/* A base that holds nothing, with all eight units listed, in memory that may only be
 * read; one whose bytes mean nothing; and work memory. Each with its length. */
#define EMPTY_BASE empty_base(), SAB_BASE_BYTES
#define SPARE_BASE spare_base(), SAB_BASE_BYTES
#define WORK work_memory(), SAB_WORK_BYTES
#define NO_WORK NULL, 0
const uint8_t *empty_base(void);
uint8_t *spare_base(void);
uint8_t *work_memory(void);

/* Acts that must be accepted. */
void act(uint8_t *log, uint8_t unit, const uint8_t *wish);
void make(uint8_t *log, uint8_t unit, unsigned operation, struct id folder, const char *label);
void change(uint8_t *log, uint8_t unit, unsigned operation, struct id object, const char *label);

/* The vector of a log, by counting. */
void counts(const uint8_t *log, uint8_t *vector);

/* How many records a log holds. */
unsigned held(const uint8_t *log);

/* Passes all that the other log lacks; every take must be accepted. */
void pass(const uint8_t *from, uint8_t giver, uint8_t *to, uint8_t taker);

/* The two sums of a block, word by word, and a block or file with its sums put
 * right. */
void sums(const uint8_t *block, unsigned *first, unsigned *second);
void seal(uint8_t *block);

/* The logs of the bench example: folder 0.1 "Bench"; traces 0.2 and 1.1, both
 * Gain "A" in it. `apart` is unit 1's before it knows 0.2, `all` holds the
 * three. */
void bench_logs(uint8_t *apart, uint8_t *all);

/* A log of 512 records: a folder, traces in it and stores, by three units. */
void full_log(uint8_t *log);

#endif
