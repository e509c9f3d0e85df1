/* A table that a spreadsheet saved becomes a text, row for line, and that a file. */
#include <stdlib.h>

#include "noferkash.h"
#include "tool.h"

/* As the header promises: more is never needed, or refused. */
static size_t enough_for_text(size_t table_length) {
    size_t most = 2 * table_length + 2;
    return most < NOFERKASH_TEXT_LIMIT ? most : NOFERKASH_TEXT_LIMIT;
}

/* The text and the file of the table, in their rooms, whose lengths become theirs. Where the
 * table itself is refused the text is empty. */
static uint64_t read_table(struct bytes table, uint32_t manner, struct bytes *text,
                           struct bytes *file) {
    uint64_t answer = noferkash_sheet_to_text(table.at, table.length, text->at, text->length);
    text->length = 0;
    if (NOFERKASH_NUMBER(answer) != NOFERKASH_OK) {
        return answer;
    }
    text->length = NOFERKASH_LENGTH(answer);
    answer = noferkash_text_to_file(text->at, text->length, manner, file->at, file->length);
    file->length = NOFERKASH_LENGTH(answer);
    return answer;
}

/* Also where only the text is asked for the file is made: a text that has none is not written. */
static enum outcome convert_into(const struct request *request, const char *name,
                                 const struct input *in, struct bytes text, struct bytes file,
                                 struct files *files) {
    uint64_t answer = read_table(in->bytes, request->manner, &text, &file);
    if (NOFERKASH_NUMBER(answer) != NOFERKASH_OK) {
        say_table_refused(name, in->bytes, text, answer);
        return REFUSED;
    }
    ask_about_words(input_name(name), text);
    if (request->against != NULL) {
        return put_against(request, name, text, file, in, files);
    }
    return put_made(request, name, request->as_text ? text : file, in, files);
}

enum outcome convert_table(const struct request *request, const char *name,
                           const struct input *in, struct files *files) {
    struct bytes text;
    struct bytes file = {NULL, 0};
    enum outcome outcome = FAILED;
    if (make_room(name, enough_for_text(in->bytes.length), &text) &&
        make_room(name, NOFERKASH_FILE_LIMIT, &file)) {
        outcome = convert_into(request, name, in, text, file, files);
    }
    free(text.at);
    free(file.at);
    return outcome;
}
