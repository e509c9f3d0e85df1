/* What the parts behind explain.h share. */
#ifndef NOFERKASH_PARTS_H
#define NOFERKASH_PARTS_H

#include <stddef.h>
#include <stdint.h>

#include "explain.h"

/* A part of the input, or all of it. */
struct part {
    const uint8_t *at;
    size_t length;
};

/* Words being written; `used` of the `room` bytes are. They are about what was read so. */
struct words {
    char *at;
    size_t room;
    size_t used;
    enum read_as read_as;
};

/* Adds to the words, as printf does, as far as there is room. The answer is
 * always 1, so that what has said something can end with `return say(..)`. */
__attribute__((format(printf, 2, 3))) int say(struct words *words, const char *format, ...);

/* How much is shown of a field, and the room for that. */
enum { MOST_SHOWN = 40, SHOWN_ROOM = MOST_SHOWN + 1 };

/* A number with a comma before each three digits: what counts bytes or pulses is
 * read so, what stands in a text is shown as it stands. */
enum { GROUPED_ROOM = 27 };
const char *grouped(uint64_t number, char shown[GROUPED_ROOM]);

/* "is" or "are", "" or "s", after such a number. */
const char *are(size_t count);
const char *plural(size_t count);

/* The least header. */
enum { HEADER_SIZE = 14 };

uint32_t big_endian(const uint8_t *bytes, size_t length);

/* A chunk. `number` is which track it is, counted from 1, or 0 for a chunk of another
 * kind; `content` is where its bytes begin behind tag and length. It may pass the
 * file's end. */
struct chunk {
    size_t number, content, end;
};

/* The track in which an event begins at the place, or that ends there; 0 if there is
 * none that is whole. */
int track_round(struct part file, size_t place, struct chunk *track);

/* From here on the 16 bits of a division are SMPTE time code; below, pulses per quarter
 * note. */
enum { LEAST_TIME_CODE = 0x8000 };

/* Whether such bits have a rate and ticks that are permitted. */
int is_time_code(uint32_t division);

/* Each of these adds words, or adds nothing and answers 0 if it has found none. */

/* What was really given, without the semicolon after it. */
int say_given(struct part input, struct words *words);

/* About 2 to 13 and 31 to 33. */
int explain_file(struct part file, int number, size_t place, struct words *words);

/* About 2 and 13, for the one above. */
int explain_chunks(struct part file, int number, size_t place, struct words *words);

/* About 22 to 25: one line alone. */
int explain_line(struct part text, int number, size_t place, struct words *words);

/* About 26 to 28: a line after all those before it. */
int explain_order(struct part text, int number, size_t place, struct words *words);

/* What is wrong with SMPTE time code, in a file (3) or in a text (25). */
int say_time_code(uint32_t division, struct words *words);

#endif
