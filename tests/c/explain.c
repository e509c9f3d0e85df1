/* Prints the words of tools/explain for inputs from standard input:
 *   explain file|fold|text    the input, checked, folded or made a file: refused N at P: WORDS, or good
 *   explain table             the input, made a text and that a file: the same of a table
 *   explain lines N           each line of the input as line N of a good text
 *   explain show MOST         the input, shown in at most so many bytes
 *   explain answer file|text|table N P   the input, with a made-up answer
 *   explain slow              long texts of all sorts: the processor time taken for each */
#include <stdio.h>
#include <stdlib.h>
#include <string.h>
#include <time.h>

#include "explain.h"
#include "noferkash.h"

struct input {
    uint8_t *at;
    size_t length;
};

static uint8_t file_room[NOFERKASH_FILE_LIMIT];

static void *lent(size_t length)
{
    /* Exactly so much: a sanitizer then sees each byte too far. */
    void *room = malloc(length > 0 ? length : 1);

    if (room == NULL) {
        fprintf(stderr, "explain: no memory\n");
        exit(2);
    }
    return room;
}

static struct input read_all(void)
{
    static uint8_t room[NOFERKASH_TEXT_LIMIT + 1];
    struct input input = {NULL, fread(room, 1, sizeof room, stdin)};

    input.at = lent(input.length);
    memcpy(input.at, room, input.length);
    return input;
}

static int folds;

static uint64_t answer_to(enum read_as read_as, struct input input)
{
    if (folds)
        return noferkash_fold(input.at, input.length, file_room, sizeof file_room);
    return read_as == AS_FILE
               ? noferkash_check(input.at, input.length)
               : noferkash_text_to_file(input.at, input.length, 1, file_room, sizeof file_room);
}

static void print_words(enum read_as read_as, struct input input, uint64_t answer)
{
    char *words = lent(EXPLAIN_ROOM);

    explain_refusal(read_as, input.at, input.length, answer, words, EXPLAIN_ROOM);
    printf("refused %d at %zu: %s\n", NOFERKASH_NUMBER(answer), NOFERKASH_PLACE(answer), words);
    free(words);
}

static void print(enum read_as read_as, struct input input)
{
    uint64_t answer = answer_to(read_as, input);

    if (NOFERKASH_NUMBER(answer) == NOFERKASH_OK)
        puts("good");
    else
        print_words(read_as, input, answer);
}

/* The text of a table; the answer is that about the table, or else about the text. */
static struct input text_of_table(struct input table, uint64_t *answer)
{
    struct input text = {NULL, NOFERKASH_LENGTH(noferkash_sheet_to_text(table.at, table.length, NULL, 0))};

    text.at = lent(text.length);
    *answer = noferkash_sheet_to_text(table.at, table.length, text.at, text.length);
    if (NOFERKASH_NUMBER(*answer) == NOFERKASH_OK)
        *answer = answer_to(AS_TEXT, text);
    return text;
}

static void print_table_words(struct input table, struct input text, uint64_t answer)
{
    char *words = lent(EXPLAIN_ROOM);

    explain_table(table.at, table.length, text.at, text.length, answer, words, EXPLAIN_ROOM);
    printf("refused %d at %zu: %s\n", NOFERKASH_NUMBER(answer), NOFERKASH_PLACE(answer), words);
    free(words);
}

/* `made_up` takes the place of the answer, unless it is 0. */
static void print_table(struct input table, uint64_t made_up)
{
    uint64_t answer;
    struct input text = text_of_table(table, &answer);

    answer = made_up != 0 ? made_up : answer;
    if (NOFERKASH_NUMBER(answer) == NOFERKASH_OK)
        puts("good");
    else
        print_table_words(table, text, answer);
    free(text.at);
}

static void print_lines(int number)
{
    static const char *const good[] = {"0, 0, Header, 0, 1, 96", "1, 0, Start_track", "",
                                       "1, 0, End_track", "0, 0, End_of_file"};
    static char line[4096], text[8192];

    while (fgets(line, sizeof line, stdin) != NULL) {
        struct input input;
        int length = 0, i;

        line[strcspn(line, "\n")] = '\0';
        for (i = 0; i < 5; i++)
            length += sprintf(text + length, "%s\n", i + 1 == number ? line : good[i]);
        input.length = (size_t)length;
        input.at = lent(input.length);
        memcpy(input.at, text, input.length);
        print(AS_TEXT, input);
        free(input.at);
    }
}

static void print_shown(size_t most)
{
    struct input input = read_all();
    char *shown = lent(most + 1);

    show_bytes(input.at, input.length, most, shown);
    puts(shown);
    free(shown);
    free(input.at);
}

/* A text of the greatest length: the start, then the part again and again, then the end. */
static struct input long_text(const char *start, const char *part, const char *end)
{
    struct input text = {lent(NOFERKASH_TEXT_LIMIT), NOFERKASH_TEXT_LIMIT};
    size_t first = strlen(start), last = NOFERKASH_TEXT_LIMIT - strlen(end), at;

    memcpy(text.at, start, first);
    for (at = first; at + strlen(part) <= last; at += strlen(part))
        memcpy(text.at + at, part, strlen(part));
    memset(text.at + at, ' ', last - at);
    memcpy(text.at + last, end, strlen(end));
    return text;
}

static void time_one(const char *what, const char *start, const char *part, const char *end)
{
    struct input text = long_text(start, part, end);
    uint64_t answer = answer_to(AS_TEXT, text);
    static char words[EXPLAIN_ROOM];
    clock_t before = clock();

    explain_refusal(AS_TEXT, text.at, text.length, answer, words, sizeof words);
    printf("%ld ms: %s: refused %d at %zu: %s\n",
           (long)((clock() - before) * 1000 / CLOCKS_PER_SEC), what, NOFERKASH_NUMBER(answer),
           NOFERKASH_PLACE(answer), words);
    free(text.at);
}

static void time_all(void)
{
    static const char start[] = "0, 0, Header, 0, 1, 96\n1, 0, Start_track\n";

    time_one("records, 22", start, "1, 0, Tempo, 5\n", "\n+");
    time_one("records, 26", start, "1, 0, Tempo, 5\n", "\n2,0,Tempo,1");
    time_one("records, 27", start, "1, 0, Tempo, 5\n", "\n1,999999999,Tempo,5");
    time_one("records, 28", start, "1, 0, Tempo, 5\n", "");
    time_one("short lines, 28", start, "\n", "");
    time_one("comments", "", "#\n", "");
    time_one("commas", "0", ",", "");
    time_one("numbers", "0", ",0", "");
    time_one("data", "1, 0, System_exclusive, 0", ",0", "");
    time_one("data and their Length", "1, 0, System_exclusive, 16777203", ",0", "");
    time_one("quotes", "", "\"", "");
    time_one("quotes and commas", "", "\"\",", "");
    time_one("one quote", "\"", "a", "");
    time_one("backslashes", "\"", "\\", "");
    time_one("blanks", "0,", "\t", "0");
    time_one("semicolons", "0", ";0", "");
    time_one("tabs", "0", "\t0", "");
    time_one("a long name", "0,0,", "a", "");
    time_one("zip", "PK\3\4", "xl", "");
    time_one("compound file", "\xD0\xCF\x11\xE0\xA1\xB1\x1A\xE1", "WB", "");
    time_one("bytes over 127", "", "\xC3", "");
}

int main(int argc, char **argv)
{
    const char *what = argc > 1 ? argv[1] : "";

    if (strcmp(what, "lines") == 0 && argc == 3) {
        print_lines(atoi(argv[2]));
    } else if (strcmp(what, "show") == 0 && argc == 3) {
        print_shown((size_t)atoi(argv[2]));
    } else if (strcmp(what, "slow") == 0) {
        time_all();
    } else if (strcmp(what, "answer") == 0 && argc == 5) {
        struct input input = read_all();
        uint64_t answer = (uint64_t)atoi(argv[3]) << 56 | (uint64_t)atol(argv[4]) << 28;
        if (strcmp(argv[2], "table") == 0)
            print_table(input, answer);
        else
            print_words(strcmp(argv[2], "file") == 0 ? AS_FILE : AS_TEXT, input, answer);
        free(input.at);
    } else if (strcmp(what, "table") == 0) {
        struct input input = read_all();
        print_table(input, 0);
        free(input.at);
    } else if (strcmp(what, "file") == 0 || strcmp(what, "fold") == 0 || strcmp(what, "text") == 0) {
        struct input input = read_all();
        folds = strcmp(what, "fold") == 0;
        print(strcmp(what, "text") == 0 ? AS_TEXT : AS_FILE, input);
        free(input.at);
    } else {
        fprintf(stderr, "explain: wrong usage\n");
        return 2;
    }
    return 0;
}
