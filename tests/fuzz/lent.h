/* Bytes lent to a function, hard against a page that nobody may touch: a read or
 * write outside of them is a crash also in code that no sanitizer has seen, as is
 * that of the proved archive. */
#ifndef LENT_H
#define LENT_H

#include <stddef.h>
#include <stdint.h>

/* Which end of the bytes the forbidden page is at. At the other end lies a fence,
 * which is looked at after the call. */
enum edge { EDGE_LOW, EDGE_HIGH, EDGES };

struct lent {
    size_t most;       /* bytes that can be lent */
    uint8_t *own;      /* where the harness writes them */
    uint8_t *shown;    /* where the function finds them */
};

/* Input is shown read only, room as it is. Ends the process if there is no memory. */
void lent_make(struct lent *lent, size_t most, int read_only);

/* Where `length` bytes begin that end or begin at the edge, counted from `own` and
 * from `shown`. */
size_t lent_offset(const struct lent *lent, size_t length, enum edge edge);

/* Fills the fence round such bytes; then tells whether it still is as filled. */
void lent_fence(const struct lent *lent, size_t length, enum edge edge, uint8_t fill);
int lent_fence_holds(const struct lent *lent, size_t length, enum edge edge, uint8_t fill);

/* Whether `length` bytes all have this value. */
int all_are(const uint8_t *bytes, size_t length, uint8_t value);

#endif
