/* Calls the functions of noferkash.h from C on files and texts written by hand. */
#include "noferkash.h"

#include <stdio.h>
#include <stdlib.h>
#include <string.h>

#include "list_cases.h"

static unsigned count, failed;

struct due {
    int number;
    size_t place;
    size_t length;
};

/* Whether it is the answer due, as a whole and as the macros take it apart. */
static int is_due(uint64_t answer, struct due due)
{
    return answer == ((uint64_t)due.number << 56) + ((uint64_t)due.place << 28) + due.length &&
           NOFERKASH_NUMBER(answer) == due.number && NOFERKASH_PLACE(answer) == due.place &&
           NOFERKASH_LENGTH(answer) == due.length;
}

static void report(const char *operation, size_t room, const char *what, uint64_t answer,
                   struct due due, int good)
{
    count++;
    failed += !good;
    printf("%s: %s, room %lu: %s: %d at %lu, length %lu\n", good ? "ok" : "FAILED", operation,
           (unsigned long)room, what, NOFERKASH_NUMBER(answer),
           (unsigned long)NOFERKASH_PLACE(answer), (unsigned long)NOFERKASH_LENGTH(answer));
    if (!good)
        printf("    due: %d at %lu, length %lu\n", due.number, (unsigned long)due.place,
               (unsigned long)due.length);
}

static void try_case(const char *what, const uint8_t *file, size_t length, int number, size_t place)
{
    struct due due = {number, place, 0};
    uint64_t answer = noferkash_check(file, length);

    report("check", 0, what, answer, due, is_due(answer, due));
}

#define GUARD 0xA5
#define FENCE 16

/* Whether all bytes from `start` to `end` are guards. */
static int untouched(const uint8_t *start, const uint8_t *end)
{
    while (start < end && *start == GUARD)
        start++;
    return start == end;
}

/* An operation that takes a file or a text and writes into lent room. */
struct operation {
    const char *name;
    uint64_t (*run)(const uint8_t *file, size_t file_len, uint8_t *out, size_t out_len);
};

static const struct operation tidy = {"tidy", noferkash_tidy};
static const struct operation fold = {"fold", noferkash_fold};
static const struct operation to_text = {"file_to_text", noferkash_file_to_text};
static const struct operation to_sheet = {"file_to_sheet", noferkash_file_to_sheet};
static const struct operation from_sheet = {"sheet_to_text", noferkash_sheet_to_text};

/* The manner in which `to_file` runs. */
static uint32_t manner;

static uint64_t run_to_file(const uint8_t *text, size_t text_len, uint8_t *out, size_t out_len)
{
    return noferkash_text_to_file(text, text_len, manner, out, out_len);
}

static const struct operation to_file = {"text_to_file", run_to_file};

static void try_written(const struct operation *operation, const char *what, const uint8_t *file,
                        size_t length, size_t room, int number, size_t place, const uint8_t *due,
                        size_t due_length)
{
    static uint8_t lent[FENCE + TEXT_LIMIT + FENCE], given[READ_LIMIT + 1];
    struct due answer_due = {number, place, due_length};
    uint8_t *out = lent + FENCE;
    size_t written = number == NOFERKASH_OK ? due_length : 0;
    uint64_t answer;
    int good;

    memset(lent, GUARD, FENCE + room + FENCE);
    memcpy(given, file, length);
    answer = operation->run(given, length, out, room);
    good = is_due(answer, answer_due) && memcmp(given, file, length) == 0 &&
           memcmp(out, due, written) == 0 && untouched(lent, out) &&
           untouched(out + written, out + room + FENCE);
    report(operation->name, room, what, answer, answer_due, good);
}

/* The length of a chunk, which is under 2^24. */
static void put_length(uint8_t *at, size_t length)
{
    at[1] = (uint8_t)(length >> 16);
    at[2] = (uint8_t)(length >> 8);
    at[3] = (uint8_t)length;
}

/* A good file of `length` bytes: one system exclusive event fills it. */
static void fill(uint8_t *file, size_t length)
{
    size_t body = length - 22, data = body - 10;

    memset(file, 0, length);
    memcpy(file, HEADER "MTrk", 18);
    put_length(file + 18, body);
    file[23] = 0xF0;
    file[24] = 0x80;
    file[25] = (uint8_t)(data >> 14 | 0x80);
    file[26] = (uint8_t)(data >> 7 | 0x80);
    file[27] = (uint8_t)(data & 0x7F);
    memcpy(file + length - 4, END, 4);
}

static void try_cases(const struct operation *operation, const struct written_case *c,
                      size_t cases_left)
{
    for (; cases_left > 0; cases_left--, c++)
        try_written(operation, c->what, (const uint8_t *)c->bytes, c->length, c->room, c->number,
                    c->place, (const uint8_t *)c->due, c->due_length);
}

static void check_cases(uint8_t *file)
{
    size_t i;

    for (i = 0; i < sizeof cases / sizeof cases[0]; i++)
        try_case(cases[i].what, (const uint8_t *)cases[i].bytes, cases[i].length, cases[i].number,
                 cases[i].place);

    memset(file, 0, LIMIT + 1);
    try_case("all 0, the limit", file, LIMIT, NOFERKASH_BAD_HEADER, 0);
    try_case("all 0, one over the limit", file, LIMIT + 1, NOFERKASH_FILE_TOO_LONG, 0);
    fill(file, LIMIT);
    try_case("good, the limit", file, LIMIT, NOFERKASH_OK, 0);
    file[LIMIT - 1] = 1;
    try_case("fault in the last byte", file, LIMIT, NOFERKASH_BAD_META_LENGTH, LIMIT - 4);
    fill(file, LIMIT - 1);
    try_case("one byte more, the limit", file, LIMIT, NOFERKASH_FILE_CUT_SHORT, LIMIT - 1);
    memcpy(file + 14, "XFIH", 4);
    try_case("another chunk in place of the track", file, LIMIT - 1, NOFERKASH_FILE_CUT_SHORT,
             LIMIT - 1);
    put_length(file + 18, LIMIT - 34);
    memcpy(file + LIMIT - 12, CHUNK("\4", END), 12);
    try_case("another chunk before the track, the limit", file, LIMIT, NOFERKASH_OK, 0);
    fill(file, LIMIT + 1);
    try_case("good but one over the limit", file, LIMIT + 1, NOFERKASH_FILE_TOO_LONG, 0);
}

static void tidy_limit_cases(uint8_t *file)
{
    static uint8_t tidied[LIMIT - 1];

    fill(file, LIMIT + 1);
    try_written(&tidy, "good but one over the limit", file, LIMIT + 1, LIMIT,
                NOFERKASH_FILE_TOO_LONG, 0, tidied, 0);
    /* The length at byte 24 has a leading 80h, without which the track is one shorter. */
    fill(file, LIMIT);
    memcpy(tidied, file, 24);
    tidied[21]--;
    memcpy(tidied + 24, file + 25, LIMIT - 25);
    try_written(&tidy, "good, the limit", file, LIMIT, LIMIT, NOFERKASH_OK, 0, tidied, LIMIT - 1);
    try_written(&tidy, "good, the limit", file, LIMIT, LIMIT - 2, NOFERKASH_ROOM_TOO_SMALL, 0,
                tidied, LIMIT - 1);
    file[LIMIT - 1] = 1;
    try_written(&tidy, "fault in the last byte", file, LIMIT, LIMIT, NOFERKASH_BAD_META_LENGTH,
                LIMIT - 4, tidied, 0);
}

/* A file of so many tracks, each only an End_track; its length. */
static size_t fill_tracks(uint8_t *file, int format, int tracks)
{
    static const char chunk[] = CHUNK("\4", END);
    size_t at = 14;

    memcpy(file, HEADER, 14);
    file[9] = (uint8_t)format;
    file[11] = (uint8_t)tracks;
    for (; tracks > 0; tracks--, at += sizeof chunk - 1)
        memcpy(file + at, chunk, sizeof chunk - 1);
    return at;
}

static void fold_track_cases(uint8_t *file)
{
    const uint8_t *only_end = (const uint8_t *)ONLY_END;

    try_written(&fold, "64 tracks", file, fill_tracks(file, 1, 64), 26, NOFERKASH_OK, 0, only_end,
                26);
    try_written(&fold, "64 tracks", file, fill_tracks(file, 1, 64), 25, NOFERKASH_ROOM_TOO_SMALL,
                0, only_end, 26);
    try_written(&fold, "65 tracks", file, fill_tracks(file, 1, 65), 26,
                NOFERKASH_TOO_MANY_TRACKS, 10, only_end, 0);
    try_written(&fold, "65 tracks, no room", file, fill_tracks(file, 1, 65), 0,
                NOFERKASH_TOO_MANY_TRACKS, 10, only_end, 0);
    try_written(&fold, "65 tracks of format 2", file, fill_tracks(file, 2, 65), 26,
                NOFERKASH_FORMAT_2, 8, only_end, 0);
}

/* The text of a file made by `fill`; its length. */
static size_t text_of_filled(char *text, size_t length)
{
    size_t data = length - 32, i;
    char *at = text + sprintf(text, HEADER_LINE START_LINE "1, 0, System_exclusive, %lu",
                              (unsigned long)data);

    for (i = 0; i < data; i++, at += 3)
        memcpy(at, ", 0", 3);
    memcpy(at, "\n" END_LINES, sizeof "\n" END_LINES - 1);
    return (size_t)(at - text) + sizeof "\n" END_LINES - 1;
}

static void text_limit_cases(uint8_t *file)
{
    static char text[3 * LIMIT + 200];
    const uint8_t *due = (const uint8_t *)text;
    size_t length = text_of_filled(text, LIMIT);

    fill(file, LIMIT + 1);
    try_written(&to_text, "good but one over the limit", file, LIMIT + 1, TEXT_LIMIT,
                NOFERKASH_FILE_TOO_LONG, 0, due, 0);
    fill(file, LIMIT);
    try_written(&to_text, "good, the limit", file, LIMIT, length, NOFERKASH_OK, 0, due, length);
    try_written(&to_text, "good, the limit", file, LIMIT, TEXT_LIMIT, NOFERKASH_OK, 0, due,
                length);
    try_written(&to_text, "good, the limit", file, LIMIT, length - 1, NOFERKASH_ROOM_TOO_SMALL, 0,
                due, length);
    file[LIMIT - 1] = 1;
    try_written(&to_text, "fault in the last byte", file, LIMIT, length, NOFERKASH_BAD_META_LENGTH,
                LIMIT - 4, due, 0);
    try_written(&to_text, "fault in the last byte", file, LIMIT, TEXT_LIMIT,
                NOFERKASH_BAD_META_LENGTH, LIMIT - 4, due, 0);
}

static void read_cases(void)
{
    const struct read_case *c = file_cases;
    size_t cases_left = sizeof file_cases / sizeof file_cases[0];

    for (; cases_left > 0; cases_left--, c++) {
        manner = c->manner;
        try_written(&to_file, c->what, (const uint8_t *)c->bytes, c->length, c->room, c->number,
                    c->place, (const uint8_t *)c->due, c->due_length);
    }
}

/* The sheet of a file made by `fill`, in which nothing is longer than in its text. */
static void sheet_limit_cases(uint8_t *file)
{
    static char sheet[3 * LIMIT + 200];
    const uint8_t *due = (const uint8_t *)sheet;
    size_t length = text_of_filled(sheet, LIMIT), from, to = 0;

    for (from = 0; from < length; from++)
        if (sheet[from] != ' ')
            sheet[to++] = sheet[from];
    length = to;
    fill(file, LIMIT);
    try_written(&to_sheet, "good, the limit", file, LIMIT, length, NOFERKASH_OK, 0, due, length);
    try_written(&to_sheet, "good, the limit", file, LIMIT, 23 * LIMIT, NOFERKASH_OK, 0, due,
                length);
    try_written(&to_sheet, "good, the limit", file, LIMIT, length - 1, NOFERKASH_ROOM_TOO_SMALL, 0,
                due, length);
    try_written(&from_sheet, "its sheet", due, length, length, NOFERKASH_OK, 0, due, length);
    file[LIMIT - 1] = 1;
    try_written(&to_sheet, "fault in the last byte", file, LIMIT, length,
                NOFERKASH_BAD_META_LENGTH, LIMIT - 4, due, 0);
    fill(file, LIMIT + 1);
    try_written(&to_sheet, "good but one over the limit", file, LIMIT + 1, 23 * LIMIT,
                NOFERKASH_FILE_TOO_LONG, 0, due, 0);
}

/* A table that is longer than any other input, so its bytes are not looked at afterwards. */
static void try_long(const char *what, const uint8_t *table, size_t length, size_t room, int number,
                     size_t written)
{
    static uint8_t lent[FENCE + 8 + FENCE];
    struct due due = {number, 0, written};
    uint8_t *out = lent + FENCE;
    uint64_t answer;
    int good;

    memset(lent, GUARD, sizeof lent);
    answer = noferkash_sheet_to_text(table, length, out, room);
    written = number == NOFERKASH_OK ? written : 0;
    good = is_due(answer, due) && untouched(lent, out) &&
           untouched(out + written, lent + sizeof lent);
    report("sheet_to_text", room, what, answer, due, good);
}

static void table_limit_cases(void)
{
    uint8_t *table = malloc(TABLE_LIMIT + 1);

    if (table == NULL) {
        printf("no memory for a table\n");
        failed++;
        return;
    }
    /* A row of empty cells is an empty line. */
    memset(table, ',', TABLE_LIMIT + 1);
    try_long("empty cells, the limit", table, TABLE_LIMIT, 8, NOFERKASH_OK, 1);
    try_long("empty cells, the limit, no room", table, TABLE_LIMIT, 0, NOFERKASH_ROOM_TOO_SMALL,
             1);
    try_long("empty cells, past the limit", table, TABLE_LIMIT + 1, 8, NOFERKASH_TABLE_TOO_LONG,
             0);
    try_long("past the limit, no room", table, TABLE_LIMIT + 1, 0, NOFERKASH_TABLE_TOO_LONG, 0);
    table[0] = '#';
    try_long("a note whose text has the limit", table, READ_LIMIT - 1, 8,
             NOFERKASH_ROOM_TOO_SMALL, READ_LIMIT);
    try_long("a note whose text passes it", table, READ_LIMIT, 8, NOFERKASH_TEXT_TOO_LONG, 0);
    try_long("such a note, no room", table, READ_LIMIT, 0, NOFERKASH_TEXT_TOO_LONG, 0);
    try_long("such a note, past the table's limit", table, TABLE_LIMIT + 1, 0,
             NOFERKASH_TABLE_TOO_LONG, 0);
    free(table);
}

/* A file of `length` bytes with data as `fill` makes it, its length in three bytes;
 * and its text, whose length is the answer. */
static size_t filled_and_text(uint8_t *file, char *text, size_t length)
{
    fill(file, length + 1);
    memmove(file + 24, file + 25, length - 24);
    put_length(file + 18, length - 22);
    return text_of_filled(text, length + 1);
}

static void read_limit_cases(uint8_t *file)
{
    static uint8_t text[READ_LIMIT + 1];
    static const char whole[] = TEXT("");
    const uint8_t *only_end = (const uint8_t *)ONLY_END;
    size_t length = filled_and_text(file, (char *)text, LIMIT);

    manner = 1;
    try_written(&to_file, "a file at the limit", text, length, LIMIT, NOFERKASH_OK, 0, file,
                LIMIT);
    try_written(&to_file, "a file at the limit", text, length, LIMIT - 1,
                NOFERKASH_ROOM_TOO_SMALL, 0, file, LIMIT);
    manner = 0;
    try_written(&to_file, "a file at the limit, manner 0", text, length, LIMIT + 9, NOFERKASH_OK,
                0, file, LIMIT);
    length = text_of_filled((char *)text, LIMIT + 2);
    try_written(&to_file, "a file past the limit", text, length, LIMIT + 1,
                NOFERKASH_WRITTEN_TOO_LONG, 0, file, 0);
    text[length - 1] = '+';
    try_written(&to_file, "a file past the limit, a fault in the last line", text, length, 0,
                NOFERKASH_BAD_FIELD, 5, file, 0);

    memset(text, '#', READ_LIMIT + 1);
    memcpy(text, whole, sizeof whole - 1);
    manner = 1;
    try_written(&to_file, "a text at the limit", text, READ_LIMIT, 26, NOFERKASH_OK, 0, only_end,
                26);
    try_written(&to_file, "a text past the limit", text, READ_LIMIT + 1, 26,
                NOFERKASH_TEXT_TOO_LONG, 0, only_end, 0);
    manner = 3;
    try_written(&to_file, "a text past the limit, manner 3", text, READ_LIMIT + 1, 26,
                NOFERKASH_BAD_MANNER, 0, only_end, 0);
    manner = 0;
    memset(text, '\n', READ_LIMIT);
    try_written(&to_file, "nothing but LF, the limit", text, READ_LIMIT, 26,
                NOFERKASH_TEXT_CUT_SHORT, READ_LIMIT + 1, only_end, 0);
}

#define LIST_LIMIT 65535

/* A list with guards round it. */
struct lent_list {
    uint32_t before[FENCE], at[LIST_LIMIT + FENCE];
};

static struct lent_list lists[LISTS];

/* Whether all that is lent holds what is due, or guards where nothing is. */
static int is_listed(const struct lent_list *list, const uint32_t *due, size_t count)
{
    return untouched((const uint8_t *)list->before, (const uint8_t *)list->at) &&
           memcmp(list->at, due, count * sizeof *due) == 0 &&
           untouched((const uint8_t *)(list->at + count),
                     (const uint8_t *)(list->at + LIST_LIMIT + FENCE));
}

static uint64_t list_tracks(const uint8_t *file, size_t length, const size_t rooms[LISTS])
{
    uint32_t *at[LISTS];
    size_t i;

    memset(lists, GUARD, sizeof lists);
    for (i = 0; i < LISTS; i++)
        at[i] = rooms[i] > 0 ? lists[i].at : NULL;
    return noferkash_list_tracks(file, length, at[0], rooms[0], at[1], rooms[1], at[2], rooms[2]);
}

static void try_listed(const char *what, const uint8_t *file, size_t length,
                       const size_t rooms[LISTS], struct due due, const uint32_t *const numbers[LISTS])
{
    static uint8_t given[LIMIT + 1];
    size_t written = due.number == NOFERKASH_OK ? due.length : 0, i;
    uint64_t answer;
    int good;

    memcpy(given, file, length);
    answer = list_tracks(given, length, rooms);
    good = is_due(answer, due) && memcmp(given, file, length) == 0;
    for (i = 0; i < LISTS; i++)
        good = good && is_listed(&lists[i], numbers[i], written);
    report("list_tracks", rooms[0], what, answer, due, good);
}

static void listed_cases(void)
{
    const struct list_case *c = list_cases;
    size_t cases_left = sizeof list_cases / sizeof list_cases[0];

    for (; cases_left > 0; cases_left--, c++) {
        struct due due = {c->number, c->place, c->count};
        const uint32_t *const numbers[LISTS] = {c->due[0], c->due[1], c->due[2]};

        try_listed(c->what, (const uint8_t *)c->bytes, c->length, c->rooms, due, numbers);
    }
}

/* A file of as many tracks as there can be, all empty but the last, which has two events at 3. */
static size_t fill_most_tracks(uint8_t *file)
{
    static const char chunk[] = CHUNK("\4", END), last[] = CHUNK("\10", "\3\x90\1\1" END);
    size_t at = 14, tracks;

    memcpy(file, TWO_TRACKS, 14);
    file[10] = file[11] = 0xFF;
    for (tracks = 1; tracks < LIST_LIMIT; tracks++, at += sizeof chunk - 1)
        memcpy(file + at, chunk, sizeof chunk - 1);
    memcpy(file + at, last, sizeof last - 1);
    return at + sizeof last - 1;
}

static void list_limit_cases(uint8_t *file)
{
    static uint32_t ends[LIST_LIMIT], events[LIST_LIMIT], padding[LIST_LIMIT];
    const uint32_t *const numbers[LISTS] = {ends, events, padding};
    struct due most = {NOFERKASH_OK, 0, LIST_LIMIT}, few = {NOFERKASH_ROOM_TOO_SMALL, 0, LIST_LIMIT};
    struct due one = {NOFERKASH_OK, 0, 1}, too_long = {NOFERKASH_FILE_TOO_LONG, 0, 0};
    size_t length = fill_most_tracks(file), rooms[LISTS] = {LIST_LIMIT, LIST_LIMIT, LIST_LIMIT}, i;

    for (i = 0; i < LIST_LIMIT; i++)
        events[i] = 1;
    ends[LIST_LIMIT - 1] = 3;
    events[LIST_LIMIT - 1] = 2;
    try_listed("65,535 tracks", file, length, rooms, most, numbers);
    for (i = 0; i < LISTS; i++) {
        rooms[i]--;
        try_listed("65,535 tracks, a list one short", file, length, rooms, few, numbers);
        rooms[i]++;
    }
    /* The length at byte 24 has a leading 80h. */
    fill(file, LIMIT);
    ends[0] = 0;
    events[0] = 2;
    padding[0] = 1;
    try_listed("good, the limit", file, LIMIT, rooms, one, numbers);
    fill(file, LIMIT + 1);
    try_listed("good but one over the limit", file, LIMIT + 1, rooms, too_long, numbers);
}

int main(void)
{
    /* One more than any file tried, for `filled_and_text`. */
    static uint8_t file[LIMIT + 1];

    printf("noferkash %s\n", NOFERKASH_VERSION);
    check_cases(file);
    listed_cases();
    list_limit_cases(file);
    try_cases(&tidy, tidy_cases, sizeof tidy_cases / sizeof tidy_cases[0]);
    tidy_limit_cases(file);
    try_cases(&fold, fold_cases, sizeof fold_cases / sizeof fold_cases[0]);
    fold_track_cases(file);
    try_cases(&to_text, text_cases, sizeof text_cases / sizeof text_cases[0]);
    text_limit_cases(file);
    try_cases(&to_sheet, sheet_cases, sizeof sheet_cases / sizeof sheet_cases[0]);
    sheet_limit_cases(file);
    try_cases(&from_sheet, table_cases, sizeof table_cases / sizeof table_cases[0]);
    table_limit_cases();
    read_cases();
    read_limit_cases(file);

    printf("%u cases, %u failed\n", count, failed);
    return failed != 0;
}
