/* Buffers between pages that cannot be touched, so that a call that leaves a
 * buffer, or writes one that it may only read, ends the program. */

#ifndef LENT_H
#define LENT_H

#include <stddef.h>
#include <stdint.h>

struct lent {
    uint8_t *bytes;
    size_t length;
    uint8_t *was;
};

/* A buffer that ends where such a page begins, filled by a pattern. */
struct lent lend(size_t length);

/* A buffer that begins where such a page ends. */
struct lent lend_low(size_t length);

/* Fills a buffer with its first pattern again. */
void fill(struct lent buffer);

/* Notes a buffer's bytes, to be compared by `kept`. */
void note(struct lent buffer);

/* The buffer's bytes are those noted. */
int kept(struct lent buffer);

/* Makes a buffer's pages read-only, or writable again. */
void only_read(struct lent buffer, int on);

/* Memory that cannot be touched. */
uint8_t *nowhere(void);

/* Lengths that are wrong for a buffer of a stated length. */
enum { WRONG_LENGTHS = 6 };
size_t wrong_length(size_t stated, int i);

#endif
