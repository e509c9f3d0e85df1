/* Words about one line of a text: its fields, their number, shapes and ranges. */
#include <inttypes.h>
#include <string.h>

#include "parts.h"
#include "fields.h"
#include "noferkash.h"
#include "records.h"

static const char *shown(struct part part, char room[SHOWN_ROOM]) {
    show_bytes(part.at, part.length, MOST_SHOWN, room);
    return room;
}

/* Whether it is all digits, but for a minus: a number of no permitted size. */
static int is_too_great(struct part written) {
    size_t at = written.length > 0 && written.at[0] == '-';
    size_t digits = at;
    while (digits < written.length && written.at[digits] >= '0' && written.at[digits] <= '9') {
        digits++;
    }
    return digits > at && digits == written.length;
}

/* The line that the library makes of a row which cannot be cut into cells. */
static int is_uncut(struct part line) {
    return line.length == 1 && line.at[0] == '"';
}

/* 22: the first field of none of the three shapes. */
static int say_shape(struct part line, struct words *words) {
    if (words->read_as == AS_TABLE && is_uncut(line)) {
        return say(words, "a quote is not closed, or something stands behind the closing one "
                          "(a line break in a cell?)");
    }
    struct fields fields = fields_of(line, ',');
    struct field field;
    char room[SHOWN_ROOM];
    size_t number = 1;
    while (next_field(&fields, &field) && field.shape != NO_SHAPE) {
        number++;
    }
    if (field.shape != NO_SHAPE) {
        return 0;
    }
    if (field.written.length == 0) {
        return say(words, "field %zu is empty", number);
    }
    if (is_too_great(field.written)) {
        return say(words, "field %zu: %s is over 4294967295 or has more than 10 digits", number,
                   shown(field.written, room));
    }
    return say(words, "field %zu: %s is no number, name or text in \"straight quotes\"", number,
               shown(field.written, room));
}

/* 23. */
static int say_name(struct part line, struct words *words) {
    struct field name;
    char room[SHOWN_ROOM];
    return field_at(line, 3, &name) &&
           say(words, "field 3: %s is no record name", shown(name.written, room));
}

static size_t count_fields(struct part line) {
    struct fields fields = fields_of(line, ',');
    struct field field;
    size_t count = 0;
    while (next_field(&fields, &field)) {
        count++;
    }
    return count;
}

static const struct record *record_of(struct part line) {
    struct field name;
    return field_at(line, 3, &name) ? find_record(name.written) : NULL;
}

/* 24: how many fields there are, and how many are due. */
static int say_count(struct part line, struct words *words) {
    size_t count = count_fields(line);
    if (count < 3) {
        return say(words, "%zu field%s, not 3 or more", count, count == 1 ? "" : "s");
    }
    const struct record *record = record_of(line);
    if (record == NULL) {
        return 0;
    }
    size_t due = fields_due(record);
    if (!has_length(record)) {
        return count != due && say(words, "%s has %zu fields, not %zu", record->name, count, due);
    }
    struct field length;
    if (!field_at(line, due, &length)) {
        return say(words, "%s has no Length", record->name);
    }
    return say(words, "%s has Length %" PRId64 ", but %zu data", record->name, length.number,
               count - due);
}

/* A number that is no division of either kind. Below 0 its 16 bits are SMPTE time code. */
static int say_division(size_t at, const struct field *field, const struct column *column,
                        struct words *words) {
    char room[SHOWN_ROOM];
    int64_t number = field->number;
    if (number >= INT16_MIN && number < 0) {
        return !is_time_code((uint16_t)number) &&
               say(words, "field %zu: %s: ", at, shown(field->written, room)) &&
               say_time_code((uint16_t)number, words);
    }
    return (number < column->least || number > column->greatest) &&
           say(words,
               "field %zu: %s is not %" PRId64 "..%" PRId64 ", nor SMPTE time code (below 0)", at,
               shown(field->written, room), column->least, column->greatest);
}

/* A column that is to hold a number. `before` is the number in the column before. */
static int say_number(size_t at, const struct field *field, int64_t before,
                      const struct column *column, struct words *words) {
    char room[SHOWN_ROOM];
    int64_t number = field->number;
    if (field->shape != NUMBER) {
        return say(words, "field %zu: %s is no number", at, shown(field->written, room));
    }
    if (column->kind == A_DIVISION) {
        return say_division(at, field, column, words);
    }
    if (number < column->least || number > column->greatest) {
        return say(words, "field %zu: %s is not %" PRId64 "..%" PRId64, at,
                   shown(field->written, room), column->least, column->greatest);
    }
    if (column->kind == A_META_TYPE && has_own_record(number)) {
        return say(words, "field %zu: type %" PRId64 " has a record of its own", at, number);
    }
    if (column->kind == A_TRACK_COUNT && before == 0 && number != 1) {
        return say(words, "field %zu: %" PRId64 " tracks in format 0, not 1", at, number);
    }
    return 0;
}

/* Whether a field is the word in quotes. Its escapes need not be undone: the
 * mode is the last column, so where all before it are good, it is at fault. */
static int is_word(const struct field *field, const char *word) {
    return field->written.length == strlen(word) &&
           memcmp(field->written.at, word, field->written.length) == 0;
}

/* A field that is not what is due in its column; 0 if it is. */
static int say_column(size_t at, const struct field *field, int64_t before,
                      const struct column *column, struct words *words) {
    char room[SHOWN_ROOM];
    switch (column->kind) {
    case NO_COLUMN:
        return 0;
    case A_TEXT:
        return field->shape != QUOTED &&
               say(words, "field %zu: %s is no text in \"straight quotes\"", at,
                   shown(field->written, room));
    case A_MODE:
        return !is_word(field, "\"major\"") && !is_word(field, "\"minor\"") &&
               say(words, "field %zu: %s is not \"major\" or \"minor\"%s", at,
                   shown(field->written, room),
                   words->read_as == AS_TABLE ? "" : " with its quotes");
    default:
        return say_number(at, field, before, column, words);
    }
}

/* 25: the first field that is not what is due; a Length before all others. */
static int say_range(struct part line, struct words *words) {
    const struct record *record = record_of(line);
    if (record == NULL) {
        return 0;
    }
    struct field field;
    size_t due = fields_due(record);
    if (has_length(record) && field_at(line, due, &field)) {
        struct column length = column_at(record, due);
        if (say_column(due, &field, 0, &length, words)) {
            return 1;
        }
    }
    struct fields fields = fields_of(line, ',');
    int64_t before = 0;
    for (size_t at = 1; next_field(&fields, &field); at++) {
        struct column column = column_at(record, at);
        if (say_column(at, &field, before, &column, words)) {
            return 1;
        }
        before = field.number;
    }
    return 0;
}

static int find_line(struct part text, size_t place, struct part *line) {
    for (size_t at = 1; next_line(&text, line); at++) {
        if (at == place) {
            return 1;
        }
    }
    return 0;
}

int explain_line(struct part text, int number, size_t place, struct words *words) {
    struct part line;
    if (!find_line(text, place, &line)) {
        return 0;
    }
    switch (number) {
    case NOFERKASH_BAD_FIELD:
        return say_shape(line, words);
    case NOFERKASH_UNKNOWN_RECORD:
        return say_name(line, words);
    case NOFERKASH_WRONG_FIELD_COUNT:
        return say_count(line, words);
    case NOFERKASH_FIELD_OUT_OF_RANGE:
        return say_range(line, words);
    default:
        return 0;
    }
}
