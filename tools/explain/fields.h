/* Lines and fields of a text, cut as the library cuts them. */
#ifndef NOFERKASH_FIELDS_H
#define NOFERKASH_FIELDS_H

#include "parts.h"

enum shape { NO_SHAPE, NUMBER, NAME, QUOTED };

struct field {
    /* As it stands, without the blanks round it. */
    struct part written;
    enum shape shape;
    /* The value of a NUMBER, else 0. */
    int64_t number;
};

/* The fields of a line that are still to come. */
struct fields {
    struct part rest;
    uint8_t separator;
    int more;
};

/* Takes a line off the front of the text, without its LF and one CR before that;
 * 0 at the text's end. */
int next_line(struct part *text, struct part *line);

/* Whether it is a line of blanks or a comment. */
int is_passed_over(struct part line);

/* The fields of a line; the library's separator is the comma. */
struct fields fields_of(struct part line, uint8_t separator);

/* Takes a field; 0 if there is no further one. A field of no shape goes to the
 * separator or the line's end, and quotes that are closed are kept together. */
int next_field(struct fields *fields, struct field *field);

/* The field with this number, from 1; 0 if the line has no such field. */
int field_at(struct part line, size_t number, struct field *field);

/* The bytes that a QUOTED field stands for, but no more than `most`; how many there are. */
size_t unquote(struct part written, uint8_t *bytes, size_t most);

/* Drops the blanks at both ends. */
struct part trimmed(struct part part);

/* The shape of what has no blanks round it, and the value if it is a number. */
enum shape shape_of(struct part written, int64_t *number);

#endif
