/* The 29 records of a text, their columns and ranges. */
#ifndef NOFERKASH_RECORDS_H
#define NOFERKASH_RECORDS_H

#include "parts.h"
#include "fields.h"

enum column_kind {
    NO_COLUMN,
    A_NUMBER,
    A_TRACK_COUNT, /* a number, and 1 where the column before is 0 */
    A_DIVISION,    /* a number of pulses, or SMPTE time code as 16 bits read as signed */
    A_META_TYPE,   /* a number, and none that has a record of its own */
    A_LENGTH,      /* a number; as many data follow */
    A_TEXT,
    A_MODE,
};

struct column {
    enum column_kind kind;
    int64_t least, greatest;
};

/* Where in a text a record stands. */
enum role { FIRST, STARTS_TRACK, IN_TRACK, ENDS_TRACK, LAST };

/* The most columns after Track, Time and name, and one that says there are no more. */
enum { COLUMNS = 6 };

struct record {
    const char *name;
    enum role role;
    struct column columns[COLUMNS];
};

/* NULL if it is none of the names; capital and small letters are the same. */
const struct record *find_record(struct part name);

/* How many fields the record has; with a Length, up to that. */
size_t fields_due(const struct record *record);

/* Whether the last of these fields is a Length. */
int has_length(const struct record *record);

/* What is due in the field with this number, from 1. */
struct column column_at(const struct record *record, size_t field);

/* Whether a record of its own stands for this type of meta event. */
int has_own_record(int64_t type);

/* The first three fields of a record. */
struct head {
    int64_t track;
    int64_t time;
    const struct record *record;
};

/* 0 if the line does not begin with two numbers and the name of a record. */
int read_head(struct part line, struct head *head);

#endif
