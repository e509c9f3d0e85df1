/* NULL with length 0 in place of each buffer of each function: the answers are those of a pointer
 * that is not NULL, and every refusal is met so. Linux has nothing at NULL: to touch it is to die. */
#include "noferkash.h"

#include <stdio.h>
#include <string.h>

#include "text_cases.h"

static unsigned count, failed;
static int met[256];

static void due(const char *what, uint64_t answer, uint64_t due) {
    count++;
    met[NOFERKASH_NUMBER(answer)]++;
    if (answer != due) {
        failed++;
        printf("FAILED: %s: %d at %zu, length %zu; due: %d at %zu, length %zu\n", what,
               NOFERKASH_NUMBER(answer), NOFERKASH_PLACE(answer), NOFERKASH_LENGTH(answer),
               NOFERKASH_NUMBER(due), NOFERKASH_PLACE(due), NOFERKASH_LENGTH(due));
    }
}

static uint64_t answer_of(uint64_t number, uint64_t place, uint64_t length) {
    return (number << 56) + (place << 28) + length;
}

static uint8_t one[1];
static uint32_t one_number[1];

/* Each of the three lists by itself, and all. */
static void no_lists(const char *what, const void *bytes, size_t length) {
    uint32_t *some = one_number;
    uint64_t answer = noferkash_list_tracks(bytes, length, some, 0, some, 0, some, 0);
    due(what, noferkash_list_tracks(bytes, length, NULL, 0, some, 0, some, 0), answer);
    due(what, noferkash_list_tracks(bytes, length, some, 0, NULL, 0, some, 0), answer);
    due(what, noferkash_list_tracks(bytes, length, some, 0, some, 0, NULL, 0), answer);
    due(what, noferkash_list_tracks(bytes, length, NULL, 0, NULL, 0, NULL, 0), answer);
}

static void no_output(const char *what, const void *bytes, size_t length) {
    no_lists(what, bytes, length);
    due(what, noferkash_file_to_text(bytes, length, NULL, 0),
        noferkash_file_to_text(bytes, length, one, 0));
    due(what, noferkash_tidy(bytes, length, NULL, 0), noferkash_tidy(bytes, length, one, 0));
    due(what, noferkash_fold(bytes, length, NULL, 0), noferkash_fold(bytes, length, one, 0));
    due(what, noferkash_file_to_sheet(bytes, length, NULL, 0),
        noferkash_file_to_sheet(bytes, length, one, 0));
    due(what, noferkash_sheet_to_text(bytes, length, NULL, 0),
        noferkash_sheet_to_text(bytes, length, one, 0));
    for (uint32_t manner = 0; manner <= 2; manner++) {
        due(what, noferkash_text_to_file(bytes, length, manner, NULL, 0),
            noferkash_text_to_file(bytes, length, manner, one, 0));
    }
}

/* Nothing is read, and nothing may be written: no file and no text is empty, and the text of an
 * empty table is. */
static void no_input(uint8_t *out, size_t out_len) {
    uint64_t no_file = answer_of(NOFERKASH_FILE_CUT_SHORT, 0, 0);
    uint64_t no_text = answer_of(NOFERKASH_TEXT_CUT_SHORT, 1, 0);
    due("no file", noferkash_check(NULL, 0), no_file);
    due("no file", noferkash_list_tracks(NULL, 0, NULL, 0, NULL, 0, NULL, 0), no_file);
    due("no file", noferkash_file_to_text(NULL, 0, out, out_len), no_file);
    due("no file", noferkash_tidy(NULL, 0, out, out_len), no_file);
    due("no file", noferkash_fold(NULL, 0, out, out_len), no_file);
    due("no file", noferkash_file_to_sheet(NULL, 0, out, out_len), no_file);
    due("no table", noferkash_sheet_to_text(NULL, 0, out, out_len), answer_of(NOFERKASH_OK, 0, 0));
    due("no text", noferkash_text_to_file(NULL, 0, 0, out, out_len), no_text);
    due("no text", noferkash_text_to_file(NULL, 0, 1, out, out_len), no_text);
    due("no text", noferkash_text_to_file(NULL, 0, 2, out, out_len),
        answer_of(NOFERKASH_BAD_MANNER, 0, 0));
}

/* A file of tracks that hold nothing. */
static size_t many_tracks(int format, int count, uint8_t *file) {
    size_t length = sizeof TWO_TRACKS - 1;
    memcpy(file, TWO_TRACKS, length);
    file[9] = (uint8_t)format;
    file[11] = (uint8_t)count;
    for (; count > 0; count--, length += sizeof CHUNK("\4", END) - 1) {
        memcpy(file + length, CHUNK("\4", END), sizeof CHUNK("\4", END) - 1);
    }
    return length;
}

/* What cannot be folded, and what can: without room the answer is 14 and the length. */
static void foldings(void) {
    static uint8_t file[14 + 12 * 65];
    static const char port[] = TWO_TRACKS CHUNK("\4", END) CHUNK("\11", "\0\xFF\x21\1\0" END);
    size_t length = many_tracks(1, 65, file);
    due("65 tracks", noferkash_fold(file, length, NULL, 0),
        answer_of(NOFERKASH_TOO_MANY_TRACKS, 10, 0));
    length = many_tracks(1, 64, file);
    due("64 tracks", noferkash_fold(file, length, NULL, 0),
        answer_of(NOFERKASH_ROOM_TOO_SMALL, 0, sizeof ONLY_END - 1));
    length = many_tracks(2, 2, file);
    due("format 2", noferkash_fold(file, length, NULL, 0), answer_of(NOFERKASH_FORMAT_2, 8, 0));
    due("a port", noferkash_fold((const uint8_t *)port, sizeof port - 1, NULL, 0),
        answer_of(NOFERKASH_PREFIX_OR_PORT, 34, 0));
}

/* The number of tracks that are to be listed. */
static void listings(void) {
    static uint8_t file[14 + 12 * 65];
    size_t length = many_tracks(1, 65, file);
    due("65 tracks", noferkash_list_tracks(file, length, NULL, 0, NULL, 0, NULL, 0),
        answer_of(NOFERKASH_ROOM_TOO_SMALL, 0, 65));
    due("one list", noferkash_list_tracks(file, length, one_number, 1, NULL, 0, NULL, 0),
        answer_of(NOFERKASH_ROOM_TOO_SMALL, 0, 65));
    due("no file, one list", noferkash_list_tracks(NULL, 0, one_number, 1, NULL, 0, NULL, 0),
        answer_of(NOFERKASH_FILE_CUT_SHORT, 0, 0));
    if (one_number[0] != 0) {
        failed++;
        printf("FAILED: a refusal wrote into a list\n");
    }
}

/* What is refused of tables; the length needed of others. */
static void tables(void) {
    static uint8_t table[TABLE_LIMIT + 1];
    due("a table too long", noferkash_sheet_to_text(table, sizeof table, NULL, 0),
        answer_of(NOFERKASH_TABLE_TOO_LONG, 0, 0));
    due("a text too long", noferkash_sheet_to_text(table, READ_LIMIT, NULL, 0),
        answer_of(NOFERKASH_TEXT_TOO_LONG, 0, 0));
    due("a table", noferkash_sheet_to_text((const uint8_t *)EXAMPLE_SHEET,
                                           sizeof EXAMPLE_SHEET - 1, NULL, 0),
        answer_of(NOFERKASH_ROOM_TOO_SMALL, 0, sizeof EXAMPLE_SHEET - 1));
    due("a mark alone", noferkash_sheet_to_text((const uint8_t *)MARK, 3, NULL, 0),
        answer_of(NOFERKASH_OK, 0, 0));
    due("a file", noferkash_file_to_sheet((const uint8_t *)SHORT, sizeof SHORT - 1, NULL, 0),
        answer_of(NOFERKASH_ROOM_TOO_SMALL, 0, sizeof EXAMPLE_SHEET - 1));
}

#define EACH(array, i) (size_t i = 0; i < sizeof array / sizeof array[0]; i++)

int main(void) {
    static uint8_t much[READ_LIMIT + 1];
    uint8_t out[64], before[64];
    memset(out, 0xA5, sizeof out);
    memcpy(before, out, sizeof out);
    no_input(NULL, 0);
    no_input(out, 0);
    no_input(out, sizeof out);
    if (memcmp(out, before, sizeof out) != 0) {
        failed++;
        printf("FAILED: a refusal wrote something\n");
    }

    for EACH(cases, i) {
        no_output(cases[i].what, cases[i].bytes, cases[i].length);
    }
    for EACH(tidy_cases, i) {
        no_output(tidy_cases[i].what, tidy_cases[i].bytes, tidy_cases[i].length);
    }
    for EACH(text_cases, i) {
        no_output(text_cases[i].what, text_cases[i].bytes, text_cases[i].length);
    }
    for EACH(table_cases, i) {
        no_output(table_cases[i].what, table_cases[i].bytes, table_cases[i].length);
    }
    for EACH(file_cases, i) {
        no_output(file_cases[i].what, file_cases[i].bytes, file_cases[i].length);
    }
    no_output("too long", much, sizeof much);
    /* A text whose file would be too long. */
    int written = sprintf((char *)much, HEADER_LINE START_LINE "1, 0, System_exclusive, %d", LIMIT);
    for (int i = 0; i < LIMIT; i++, written += 3) {
        memcpy(much + written, ", 0", 3);
    }
    strcpy((char *)much + written, "\n" END_LINES);
    no_output("file too long", much, strlen((char *)much));
    foldings();
    listings();
    tables();

    for (int number = 1; number <= NOFERKASH_PREFIX_OR_PORT; number++) {
        /* 4 is given no more. */
        int known = number != 4 && (number <= 14 || number >= 21);
        if (known != (met[number] > 0)) {
            failed++;
            printf("FAILED: %d was %s\n", number, known ? "never met" : "met");
        }
    }
    if (met[NOFERKASH_TABLE_TOO_LONG] == 0) {
        failed++;
        printf("FAILED: %d was never met\n", NOFERKASH_TABLE_TOO_LONG);
    }
    if (met[NOFERKASH_TOO_FEW_ROWS] > 0) {
        failed++;
        printf("FAILED: %d was met\n", NOFERKASH_TOO_FEW_ROWS);
    }
    printf("%u calls, %u failed\n", count, failed);
    return failed != 0;
}
