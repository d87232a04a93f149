/*
 * Memory for the buffers of a call, with nothing accessible beside it.
 *
 * The library is not instrumented, so the processor has to see an access
 * outside of what was lent: a buffer ends, or begins, at a page that nobody
 * may touch. On its other side stand known bytes. What is lent for reading is
 * mapped read-only. Under valgrind every byte beside a buffer is forbidden, on
 * both sides, and what is lent to be written only counts as uninitialised.
 */
#ifndef LEND_H
#define LEND_H

#include <stddef.h>
#include <stdint.h>

enum { LEND_SIZE = 1 << 17 }; /* the longest buffer, in bytes */

/* For what a buffer is lent. */
enum lend_use { LEND_READ, LEND_WRITE, LEND_CHANGE };

struct lent {
    uint8_t *ours;   /* the buffer, as the test sees it */
    uint8_t *theirs; /* the same memory, as it is lent */
    size_t len;
    int at_start;
    enum lend_use use;
};

/* Lends `len` bytes of `data` from a place, at its start or at its end. Each
 * place holds one buffer at a time. */
struct lent lend(unsigned place, enum lend_use use, const void *data, size_t len, int at_start);

/* Whether the bytes beside a buffer are as they were. */
int lend_intact(const struct lent *lent);

/* Under valgrind: reports bytes of the first `len` that the library left uninitialised. */
void lend_written(const struct lent *lent, size_t len);

#endif
