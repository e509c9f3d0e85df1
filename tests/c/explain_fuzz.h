/* What the parts of explain_fuzz share. */
#ifndef EXPLAIN_FUZZ_H
#define EXPLAIN_FUZZ_H

#include "damage.h"
#include "explain.h"

/* The words last made, and the input mended as they say. */
extern char words[EXPLAIN_ROOM];
extern struct input mended;

/* How often words were held against the library, and how often they told of SMPTE time code. */
extern unsigned long mended_count, divisions_told;

uint64_t answer_to(const struct input *input);

/* Makes the words for an answer. */
void explain(enum read_as as, const struct input *input, uint64_t answer);

/* The words after what was really given. */
const char *after_given(void);

/* Tells of a fault in the words. */
void fail(const char *what);

/* The words about a refused file must be true. */
void look_at_file(const struct input *file, uint64_t answer);

#endif
