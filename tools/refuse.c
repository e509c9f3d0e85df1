/* One line for what is refused. */
#include <stdio.h>

#include "noferkash.h"
#include "tool.h"

/* "refused 28 at line 33554433: " and the words take less. */
#define LINE_ROOM (EXPLAIN_ROOM + 64)
/* " at line 33554433" takes less. */
#define PLACE_ROOM 32

/* Bytes count from 0, lines from 1. Of the other numbers, which are about the whole,
 * the place, 0, would only mislead. */
static void place_words(uint64_t answer, const char *line, char place[PLACE_ROOM]) {
    int number = NOFERKASH_NUMBER(answer);
    int of_file =
        number >= NOFERKASH_FILE_CUT_SHORT && number <= NOFERKASH_BYTES_AFTER_LAST_TRACK;
    int of_folding = number >= NOFERKASH_TOO_MANY_TRACKS && number <= NOFERKASH_PREFIX_OR_PORT;
    int of_text = number >= NOFERKASH_BAD_FIELD && number <= NOFERKASH_TEXT_CUT_SHORT;
    place[0] = '\0';
    if (of_file || of_folding || of_text) {
        snprintf(place, PLACE_ROOM, " at %s %zu", of_text ? line : "byte",
                 NOFERKASH_PLACE(answer));
    }
}

static void say_line(const char *name, uint64_t answer, const char *line, const char *words) {
    char place[PLACE_ROOM];
    place_words(answer, line, place);
    char whole[LINE_ROOM];
    snprintf(whole, sizeof whole, "refused %d%s: %s", NOFERKASH_NUMBER(answer), place, words);
    say_of_file(input_name(name), whole);
}

void say_refused(enum read_as read_as, const char *name, struct bytes in, uint64_t answer) {
    char words[EXPLAIN_ROOM];
    explain_refusal(read_as, in.at, in.length, answer, words, sizeof words);
    say_line(name, answer, "line", words);
}

void say_table_refused(const char *name, struct bytes table, struct bytes text, uint64_t answer) {
    char words[EXPLAIN_ROOM];
    explain_table(table.at, table.length, text.at, text.length, answer, words, sizeof words);
    say_line(name, answer, "row", words);
}
