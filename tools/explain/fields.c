/* Lines and fields of a text. */
#include "fields.h"

#include <string.h>

static int is_blank(uint8_t byte) {
    return byte == ' ' || byte == '\t';
}

static int is_digit(uint8_t byte) {
    return byte >= '0' && byte <= '9';
}

static int is_letter(uint8_t byte) {
    return (byte >= 'A' && byte <= 'Z') || (byte >= 'a' && byte <= 'z') || byte == '_';
}

static struct part without_first(struct part part, size_t length) {
    return (struct part){part.at + length, part.length - length};
}

/* How far the byte is from the front, or the length if it is not there. */
static size_t distance(struct part part, uint8_t byte) {
    const uint8_t *found = part.length > 0 ? memchr(part.at, byte, part.length) : NULL;
    return found != NULL ? (size_t)(found - part.at) : part.length;
}

int next_line(struct part *text, struct part *line) {
    if (text->length == 0) {
        return 0;
    }
    *line = (struct part){text->at, distance(*text, '\n')};
    *text = without_first(*text, line->length + (line->length < text->length));
    if (line->length > 0 && line->at[line->length - 1] == '\r') {
        line->length--;
    }
    return 1;
}

struct part trimmed(struct part part) {
    while (part.length > 0 && is_blank(part.at[0])) {
        part = without_first(part, 1);
    }
    while (part.length > 0 && is_blank(part.at[part.length - 1])) {
        part.length--;
    }
    return part;
}

int is_passed_over(struct part line) {
    size_t at = 0;
    while (at < line.length && is_blank(line.at[at])) {
        at++;
    }
    return at == line.length || line.at[at] == '#' || line.at[at] == ';';
}

/* How many bytes spell the next byte of a quoted text; 0 at the closing quote
 * and at what is not permitted. */
static size_t spelling(struct part rest) {
    const uint8_t *at = rest.at;
    if (at[0] == '"') {
        return rest.length > 1 && at[1] == '"' ? 2 : 0;
    }
    if (at[0] != '\\') {
        return at[0] != '\r';
    }
    if (rest.length > 1 && at[1] == '\\') {
        return 2;
    }
    int octal = rest.length > 3 && at[1] >= '0' && at[1] <= '3' && at[2] >= '0' && at[2] <= '7' &&
                at[3] >= '0' && at[3] <= '7';
    return octal ? 4 : 0;
}

static int is_quoted(struct part written) {
    struct part rest = without_first(written, 1);
    size_t taken = 1;
    while (rest.length > 0 && taken > 0) {
        taken = spelling(rest);
        rest = without_first(rest, taken);
    }
    return rest.length == 1 && rest.at[0] == '"';
}

/* The byte that so many bytes spell. */
static uint8_t spelled(const uint8_t *at, size_t length) {
    if (length == 4) {
        return (uint8_t)((at[1] - '0') << 6 | (at[2] - '0') << 3 | (at[3] - '0'));
    }
    return at[length - 1];
}

size_t unquote(struct part written, uint8_t *bytes, size_t most) {
    struct part rest = without_first(written, 1);
    size_t count = 0;
    while (count < most && rest.length > 1) {
        size_t taken = spelling(rest);
        if (taken == 0) {
            break;
        }
        bytes[count++] = spelled(rest.at, taken);
        rest = without_first(rest, taken);
    }
    return count;
}

static int is_name(struct part written) {
    size_t at = 0;
    while (at < written.length && is_letter(written.at[at])) {
        at++;
    }
    return at > 0 && at == written.length;
}

static int is_number(struct part written, int64_t *number) {
    int minus = written.length > 0 && written.at[0] == '-';
    struct part digits = without_first(written, (size_t)minus);
    int64_t size = 0;
    if (digits.length < 1 || digits.length > 10) {
        return 0;
    }
    for (size_t at = 0; at < digits.length; at++) {
        if (!is_digit(digits.at[at])) {
            return 0;
        }
        size = 10 * size + (digits.at[at] - '0');
    }
    if (size > UINT32_MAX) {
        return 0;
    }
    *number = minus ? -size : size;
    return 1;
}

enum shape shape_of(struct part written, int64_t *number) {
    *number = 0;
    if (written.length > 0 && written.at[0] == '"') {
        return is_quoted(written) ? QUOTED : NO_SHAPE;
    }
    if (is_name(written)) {
        return NAME;
    }
    return is_number(written, number) ? NUMBER : NO_SHAPE;
}

struct fields fields_of(struct part line, uint8_t separator) {
    return (struct fields){line, separator, 1};
}

/* How long the field is that begins here. In good quoted texts no backslash
 * stands before a quote, so quotes alone tell where they end; and in a bad one it
 * is only to be shown. */
static size_t field_length(struct part rest, uint8_t separator) {
    size_t at = 0;
    if (rest.length > 0 && rest.at[0] == '"') {
        int doubled = 1;
        for (at = 1; at < rest.length && doubled; at++) {
            at += distance(without_first(rest, at), '"');
            doubled = at + 1 < rest.length && rest.at[at + 1] == '"';
            at += (size_t)doubled;
        }
        /* One that is never closed goes to the line's end. */
        at = at < rest.length ? at : rest.length;
    }
    return at + distance(without_first(rest, at), separator);
}

int next_field(struct fields *fields, struct field *field) {
    if (!fields->more) {
        return 0;
    }
    struct part rest = fields->rest;
    /* A tab is a blank, unless it is what fields are cut at. */
    while (rest.length > 0 && is_blank(rest.at[0]) && rest.at[0] != fields->separator) {
        rest = without_first(rest, 1);
    }
    size_t length = field_length(rest, fields->separator);
    field->written = trimmed((struct part){rest.at, length});
    field->shape = shape_of(field->written, &field->number);
    fields->more = length < rest.length;
    fields->rest = without_first(rest, length + (size_t)fields->more);
    return 1;
}

int field_at(struct part line, size_t number, struct field *field) {
    struct fields fields = fields_of(line, ',');
    for (size_t at = 1; next_field(&fields, field); at++) {
        if (at == number) {
            return 1;
        }
    }
    return 0;
}
