/* Words that spreadsheets take for booleans. Which these are only the library knows; so it is
 * asked how it spells a text in a sheet. */
#include <stdio.h>

#include "explain/fields.h"
#include "explain/records.h"
#include "noferkash.h"
#include "tool.h"

/* Spreadsheets show their booleans in capitals; the library has none that is shorter or longer. */
enum { LEAST = 2, GREATEST = 12 };
/* For a piece of one such text: as a text or a sheet, where each of its bytes takes four at
 * most, and as a file. */
enum { TEXT_ROOM = 256, FILE_ROOM = 64 };
/* "row 33554432: ", the word and the question take less. */
enum { QUESTION_ROOM = 80 };

static int is_capital(uint8_t byte) {
    return byte >= 'A' && byte <= 'Z';
}

/* Whether it may be asked about: then only being such a word keeps it from standing as it is. */
static int may_be_word(struct part text) {
    if (text.length < LEAST || text.length > GREATEST || !is_capital(text.at[0]) ||
        !is_capital(text.at[text.length - 1])) {
        return 0;
    }
    size_t at = 0;
    while (at < text.length &&
           (is_capital(text.at[at]) || text.at[at] == ' ' || text.at[at] == '\'')) {
        at++;
    }
    return at == text.length;
}

/* Whether the sheet of a little piece with that lyric has it spelled otherwise. The text is
 * written just as a sheet is, so that the two are the same for any other lyric. */
static int is_word(struct part text) {
    char asked[TEXT_ROOM];
    uint8_t file[FILE_ROOM];
    uint8_t sheet[TEXT_ROOM];
    int length = snprintf(asked, sizeof asked,
                          "0,0,Header,0,1,96\n1,0,Start_track\n1,0,Lyric_t,\"%.*s\"\n"
                          "1,0,End_track\n0,0,End_of_file\n",
                          (int)text.length, (const char *)text.at);
    uint64_t answer =
        noferkash_text_to_file((const uint8_t *)asked, (size_t)length, 1, file, sizeof file);
    if (NOFERKASH_NUMBER(answer) != NOFERKASH_OK) {
        return 0;
    }
    answer = noferkash_file_to_sheet(file, NOFERKASH_LENGTH(answer), sheet, sizeof sheet);
    int is_same = NOFERKASH_LENGTH(answer) == (size_t)length &&
                  memcmp(sheet, asked, (size_t)length) == 0;
    return NOFERKASH_NUMBER(answer) == NOFERKASH_OK && !is_same;
}

/* The text of a record that has one, as it stands between its quotes; 0 if there is none. */
static int text_of(struct part line, struct part *text) {
    struct head head;
    struct field field;
    if (is_passed_over(line) || !read_head(line, &head) ||
        column_at(head.record, 4).kind != A_TEXT || !field_at(line, 4, &field) ||
        field.shape != QUOTED) {
        return 0;
    }
    *text = (struct part){field.written.at + 1, field.written.length - 2};
    return 1;
}

void ask_about_words(const char *name, struct bytes text) {
    struct part rest = {text.at, text.length};
    struct part line;
    struct part word;
    for (size_t row = 1; next_line(&rest, &line); row++) {
        if (text_of(line, &word) && may_be_word(word) && is_word(word)) {
            char question[QUESTION_ROOM];
            snprintf(question, sizeof question, "row %zu: %.*s: did the spreadsheet change it?",
                     row, (int)word.length, (const char *)word.at);
            say_of_file(name, question);
        }
    }
}
