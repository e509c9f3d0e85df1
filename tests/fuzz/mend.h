/* Mending: what a random change broke is set right at the place where the second
 * program refuses it, so that later parts of the input are reached too. */
#ifndef MEND_H
#define MEND_H

#include <stddef.h>
#include <stdint.h>

/* The input that is changed in place; `most` is all the room it has. */
struct input {
    uint8_t *bytes;
    size_t size;
    size_t most;
};

/* Puts `with` in place of the bytes from..to; 0 if there is no room for it. */
int splice(struct input *input, size_t from, size_t to, const char *with, size_t length);

/* Mends the earliest fault; 0 if there is none or it cannot be mended. */
int mend_file(struct input *file);
int mend_text(struct input *text, unsigned choice);

/* Puts a number at the end of some range, or past it, in place of one of the text. */
void change_number(struct input *text, unsigned choice);

#endif
