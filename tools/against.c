/* The records in which a new piece differs from an old one: whoever mends one lyric sees that,
 * and nothing else, before the file goes out. */
#include <stdio.h>
#include <stdlib.h>

#include "explain/fields.h"
#include "noferkash.h"
#include "tool.h"

/* The texts of both pieces, as the library writes them: so what is only spelled otherwise is
 * no change. `rows` has the row of the table for each record of the new one. */
struct comparison {
    struct bytes old_text, new_text;
    struct lines old, new;
    size_t *rows;
    FILE *stream;
};

/* How many records were changed, added and removed. */
struct tally {
    size_t changed, added, removed;
};

static uint64_t text_of(struct bytes file, struct bytes *text) {
    uint64_t answer = noferkash_file_to_text(file.at, file.length, text->at, text->length);
    text->length = NOFERKASH_LENGTH(answer);
    return answer;
}

/* FAILED or REFUSED, with a line on standard error, if the old file has no text. */
static enum outcome read_old(const char *name, struct bytes *text) {
    struct input in;
    enum outcome outcome = FAILED;
    if (read_input(name, NOFERKASH_FILE_LIMIT, &in) &&
        make_room(name, 25 * in.bytes.length, text)) {
        uint64_t answer = text_of(in.bytes, text);
        outcome = NOFERKASH_NUMBER(answer) == NOFERKASH_OK ? GOOD : REFUSED;
        if (outcome == REFUSED) {
            say_refused(AS_FILE, name, in.bytes, answer);
        }
    }
    free(in.bytes.at);
    return outcome;
}

/* Rows that hold no record, empty ones and notes, are passed over. */
static int find_rows(struct bytes table_text, size_t count, size_t **rows) {
    struct part rest = {table_text.at, table_text.length};
    struct part line;
    size_t found = 0;
    *rows = calloc(count + 1, sizeof **rows);
    for (size_t row = 1; *rows != NULL && found < count && next_line(&rest, &line); row++) {
        if (!is_passed_over(line)) {
            (*rows)[found++] = row;
        }
    }
    return *rows != NULL;
}

static enum outcome compare(const char *old_name, struct bytes table_text, struct bytes file,
                            struct comparison *comparison) {
    enum outcome outcome = read_old(old_name, &comparison->old_text);
    if (outcome != GOOD) {
        return outcome;
    }
    if (!make_room("memory", 25 * file.length, &comparison->new_text)) {
        return FAILED;
    }
    text_of(file, &comparison->new_text);
    if (!cut_lines(comparison->old_text, &comparison->old) ||
        !cut_lines(comparison->new_text, &comparison->new) ||
        !find_rows(table_text, comparison->new.count, &comparison->rows) ||
        !find_changes(comparison->old, comparison->new)) {
        say_failed("memory");
        return FAILED;
    }
    return GOOD;
}

static void print_record(const struct comparison *comparison, size_t new, char sign,
                         const struct line *line) {
    char *shown = show_all(line->at, line->length);
    fprintf(comparison->stream, "row %zu: %c %s\n", comparison->rows[new], sign, shown);
    release(shown);
}

/* How long the Track, the Time and the name are together. */
static size_t head_length(const struct line *line) {
    size_t at = 0;
    for (int commas = 0; at < line->length; at++) {
        commas += line->at[at] == ',';
        if (commas == 3) {
            break;
        }
    }
    return at;
}

static int have_one_head(const struct line *one, const struct line *other) {
    size_t length = head_length(one);
    return length == head_length(other) && memcmp(one->at, other->at, length) == 0;
}

/* Old and new records that stand where nothing is kept. Where there are as many of both, each
 * was changed; else those with the same Track, Time and name. A record that is gone has the
 * row of the one that now stands there. */
static void print_gap(const struct comparison *comparison, size_t old, size_t old_left,
                      size_t new, size_t new_left, struct tally *tally) {
    while (old_left > 0 || new_left > 0) {
        const struct line *gone = &comparison->old.at[old];
        const struct line *come = &comparison->new.at[new];
        int is_changed = old_left > 0 && new_left > 0 &&
                         (old_left == new_left || have_one_head(gone, come));
        int takes_old = is_changed || old_left > new_left;
        int takes_new = is_changed || old_left < new_left;
        if (takes_old) {
            print_record(comparison, new, '-', gone);
        }
        if (takes_new) {
            print_record(comparison, new, '+', come);
        }
        tally->changed += is_changed;
        tally->removed += takes_old && !is_changed;
        tally->added += takes_new && !is_changed;
        old += takes_old;
        old_left -= takes_old;
        new += takes_new;
        new_left -= takes_new;
    }
}

/* ", 1 added", or before anything else "1 record added". */
static void print_count(FILE *stream, size_t count, const char *what, int *begun) {
    if (count > 0 && *begun) {
        fprintf(stream, ", %zu %s", count, what);
    } else if (count > 0) {
        fprintf(stream, "%zu record%s %s", count, count == 1 ? "" : "s", what);
        *begun = 1;
    }
}

static void print_tally(FILE *stream, const struct tally *tally) {
    int begun = 0;
    print_count(stream, tally->changed, "changed", &begun);
    print_count(stream, tally->added, "added", &begun);
    print_count(stream, tally->removed, "removed", &begun);
    fputs(begun ? "\n" : "no record changed\n", stream);
}

static int print_changes(const struct comparison *comparison) {
    struct tally tally = {0, 0, 0};
    size_t old = 0;
    size_t new = 0;
    while (old < comparison->old.count || new < comparison->new.count) {
        size_t gone = count_changed(comparison->old, old);
        size_t come = count_changed(comparison->new, new);
        print_gap(comparison, old, gone, new, come, &tally);
        old += gone + 1;
        new += come + 1;
    }
    print_tally(comparison->stream, &tally);
    return (fflush(comparison->stream) == 0 && !ferror(comparison->stream)) ||
           say_failed("standard output");
}

/* Everything is found before anything is written, and printed after. It goes to standard
 * output, unless that is where OUT goes. */
enum outcome put_against(const struct request *request, const char *name, struct bytes text,
                         struct bytes file, const struct input *in, struct files *files) {
    struct comparison comparison = {.rows = NULL};
    int is_taken = request->folder == NULL && is_standard_output(request->out);
    comparison.stream = is_taken ? stderr : stdout;
    enum outcome outcome = compare(request->against, text, file, &comparison);
    if (outcome == GOOD) {
        outcome = put_made(request, name, request->as_text ? text : file, in, files);
    }
    if (outcome == GOOD && !print_changes(&comparison)) {
        outcome = FAILED;
    }
    free(comparison.old_text.at);
    free(comparison.new_text.at);
    free(comparison.old.at);
    free(comparison.new.at);
    free(comparison.rows);
    return outcome;
}
