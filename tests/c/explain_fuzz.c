/* Damages files or texts, and looks at the words about each refusal:
 *   explain_fuzz file|fold|text|table SEED COUNT FILE..
 * Words are one line without control bytes and never empty; and they must be true, as the library
 * itself says: what they call missing mends the file when it is added, what they call due mends the
 * field when it is written there, and the text of a file that cannot be folded has what they name.
 * Made-up answers are tried too, for reading outside the input.
 * Prints for each number how many were refused, and how many got the words by number alone; and how
 * often SMPTE time code was told of. */
#include <stdio.h>
#include <stdlib.h>
#include <string.h>

#include "damage.h"
#include "explain_fuzz.h"
#include "fields.h"
#include "noferkash.h"

#define MOST_INPUTS 64

struct input mended;
char words[EXPLAIN_ROOM];
unsigned long mended_count, divisions_told;

static struct input inputs[MOST_INPUTS], damaged;
static size_t inputs_count;
static enum read_as read_as;
static int folds;
/* What is damaged is a table, which the text was made of. */
static struct input table;
static int has_table;
static unsigned long refused[256], by_number[256], failures;

uint64_t answer_to(const struct input *input)
{
    static uint8_t room[NOFERKASH_FILE_LIMIT];

    if (folds)
        return noferkash_fold(input->at, input->length, room, sizeof room);
    return read_as == AS_FILE
               ? noferkash_check(input->at, input->length)
               : noferkash_text_to_file(input->at, input->length, 1, room, sizeof room);
}

void fail(const char *what)
{
    failures++;
    printf("FAILED: %s: %s\n", what, words);
}

static uint8_t *copy_of(const struct input *input)
{
    uint8_t *bytes = malloc(input->length > 0 ? input->length : 1);

    if (bytes == NULL)
        exit(2);
    return memcpy(bytes, input->at, input->length);
}

/* For these bytes exactly, in a room of exactly the size: the sanitizer sees each byte too far. */
void explain(enum read_as as, const struct input *input, uint64_t answer)
{
    uint8_t *bytes = copy_of(input), *saved = copy_of(&table);
    char *room = malloc(EXPLAIN_ROOM);
    size_t i;

    if (room == NULL)
        exit(2);
    memset(room, 'x', EXPLAIN_ROOM);
    if (as == AS_TABLE)
        explain_table(saved, table.length, bytes, input->length, answer, room, EXPLAIN_ROOM);
    else
        explain_refusal(as, bytes, input->length, answer, room, EXPLAIN_ROOM);
    memcpy(words, room, EXPLAIN_ROOM);
    free(bytes);
    free(saved);
    free(room);
    if (memchr(words, 0, EXPLAIN_ROOM) == NULL || words[0] == 0) {
        words[EXPLAIN_ROOM - 1] = 0;
        fail("no words, or no end of them");
    }
    for (i = 0; words[i] != 0; i++)
        if ((unsigned char)words[i] < ' ' || words[i] == 127) {
            fail("a control byte");
            return;
        }
}

const char *after_given(void)
{
    const char *semicolon = strncmp(words, "this ", 5) == 0 ? strstr(words, "; ") : NULL;

    return semicolon != NULL ? semicolon + 2 : words;
}

/* The first line with this record, or NULL, and what its name ends before. */
static const char *line_with(const char *text, const char *name, const char **rest)
{
    const char *at = strstr(text, name);

    if (at == NULL)
        return NULL;
    *rest = at + strlen(name);
    while (at > text && at[-1] != '\n')
        at--;
    return at;
}

/* The words by the text of the file, which is good but cannot be folded. */
static void look_at_folding(const struct input *file, uint64_t answer)
{
    static char text[25 * ROOM + 1];
    char due[EXPLAIN_ROOM] = "";
    const char *channel, *port, *prefix, *number;
    unsigned long format = 0, tracks = 0;
    uint64_t made = noferkash_file_to_text(file->at, file->length, (uint8_t *)text, 25 * ROOM);

    text[NOFERKASH_LENGTH(made)] = 0;
    sscanf(text, "0, 0, Header, %lu, %lu", &format, &tracks);
    prefix = line_with(text, ", Channel_prefix, ", &channel);
    port = line_with(text, ", MIDI_port, ", &number);
    if (NOFERKASH_NUMBER(answer) == NOFERKASH_FORMAT_2 && format == 2)
        strcpy(due, "format 2: its tracks are pieces of their own");
    else if (NOFERKASH_NUMBER(answer) == NOFERKASH_TOO_MANY_TRACKS)
        sprintf(due, "%lu tracks, and at most 64 can be folded", tracks);
    else if (prefix != NULL && (port == NULL || prefix < port))
        sprintf(due, "track %lu has a Channel_prefix (channel %lu), which speaks of its own track only",
                strtoul(prefix, NULL, 10), strtoul(channel, NULL, 10));
    else if (port != NULL)
        sprintf(due, "track %lu has a MIDI_port (port %lu), which speaks of its own track only",
                strtoul(port, NULL, 10), strtoul(number, NULL, 10));
    mended_count++;
    if (strcmp(after_given(), due) != 0)
        fail("the text says otherwise");
}

static int find_written(const struct input *text, size_t place, size_t number, struct part *written)
{
    struct part rest = {text->at, text->length}, line;
    struct field field;

    while (place > 0 && next_line(&rest, &line))
        place--;
    if (place > 0 || !field_at(line, number, &field))
        return 0;
    *written = field.written;
    return 1;
}

/* The words name a field, and what is due there: with that in its place another field is named, or
 * nothing. */
static void mend_field(const struct input *text, uint64_t answer, size_t number, const char *due)
{
    char named[32];
    struct part written;

    if (!find_written(text, NOFERKASH_PLACE(answer), number, &written)) {
        fail("no such field");
        return;
    }
    mended = *text;
    splice(&mended, (size_t)(written.at - text->at), written.length, due, strlen(due));
    mended_count++;
    if (answer_to(&mended) != answer)
        return;
    sprintf(named, "field %zu: ", number);
    explain(has_table ? AS_TABLE : AS_TEXT, &mended, answer);
    if (strncmp(after_given(), named, strlen(named)) == 0 && strstr(words, "of its own") == NULL)
        fail("what is due does not mend it");
}

/* 22: the line up to the field before has good shapes, up to this field it has not. */
static void cut_at_field(const struct input *text, uint64_t answer, size_t number)
{
    struct part written;
    size_t at, i;

    for (i = number > 1 ? number - 1 : 1; i <= number; i++) {
        if (!find_written(text, NOFERKASH_PLACE(answer), i, &written)) {
            fail("no such field");
            return;
        }
        mended = *text;
        at = (size_t)(written.at + written.length - text->at);
        /* A good field behind it: a CR at the line's end would be dropped. */
        splice(&mended, at, line_length(text, at), ",0", 2);
        mended_count++;
        if ((answer_to(&mended) == answer) != (i == number))
            fail("another field is of no shape");
    }
}

/* The number or name after these words, if they are said. "an event" is neither. */
static int due_after(const char *said, const char *before, char due[32])
{
    const char *found = strstr(said, before);

    return found != NULL && sscanf(found + strlen(before), "%31[0-9A-Za-z_-]", due) == 1 &&
           strcmp(due, "an") != 0;
}

/* SMPTE time code that is refused: what is told of it is in its number, and a permitted rate mends it,
 * or ticks where there are none. */
static void look_at_time_code(const struct input *text, uint64_t answer, const char *said)
{
    int no_ticks = strstr(said, " with 0 ticks ") != NULL;
    long number, frames, ticks;
    char due[32];

    divisions_told++;
    if (sscanf(said, "field 6: %ld: SMPTE time code of %ld frame", &number, &frames) != 2) {
        fail("no number, or another field");
        return;
    }
    ticks = number + 256 * frames;
    if (number < -32768 || number > -1 || ticks < 0 || ticks > 255 || (no_ticks && ticks != 0))
        fail("the number says otherwise");
    sprintf(due, "%ld", no_ticks ? 1 - 256 * frames : (ticks > 0 ? ticks : 1) - 256 * 29);
    mend_field(text, answer, 6, due);
}

static void look_at_text(const struct input *text, uint64_t answer)
{
    const char *said = after_given();
    char due[32];
    unsigned long field;

    if (sscanf(said, "field %lu", &field) != 1)
        return;
    if (NOFERKASH_NUMBER(answer) == NOFERKASH_BAD_FIELD)
        cut_at_field(text, answer, field);
    else if (strstr(said, " is no text") != NULL)
        mend_field(text, answer, field, "\"\"");
    else if (strstr(said, " is not \"major\"") != NULL)
        mend_field(text, answer, field, "\"major\"");
    else if (strstr(said, " is no record name") != NULL)
        mend_field(text, answer, field, "Tempo");
    else if (strstr(said, ": SMPTE time code of ") != NULL)
        look_at_time_code(text, answer, said);
    else if (due_after(said, " is not ", due) || due_after(said, "after Time ", due) ||
             due_after(said, "backwards, after ", due) || due_after(said, ", not ", due))
        mend_field(text, answer, field, due);
}

/* An answer that the library would not give. */
static void make_up(const struct input *input)
{
    uint64_t number = below(8) ? 1 + below(38) : below(256);
    uint64_t place = below(8) ? below(input->length + 8) : below(1 << 28);

    if (below(2))
        place = below(300);
    explain(has_table ? AS_TABLE : below(2) ? AS_FILE : AS_TEXT, input,
            number << 56 | place << 28 | below(1 << 28));
}

/* The row that cannot be cut is told by its line, which nothing mends but another. */
static void look_at_uncut(const struct input *text, uint64_t answer)
{
    struct part rest = {text->at, text->length}, line;
    size_t place = NOFERKASH_PLACE(answer);

    while (place > 0 && next_line(&rest, &line))
        place--;
    mended_count++;
    if (place > 0 || line.length != 1 || line.at[0] != '"')
        fail("another line");
}

/* A table damaged as a text is; then its text is what is looked at. */
static int make_text(void)
{
    uint64_t answer;

    table = damaged;
    answer = noferkash_sheet_to_text(table.at, table.length, damaged.at, sizeof damaged.at);
    damaged.length = NOFERKASH_LENGTH(answer);
    return NOFERKASH_NUMBER(answer) == NOFERKASH_OK;
}

static void try_one(void)
{
    uint64_t answer;
    size_t times = 1 + below(3);
    int number;

    damaged = inputs[below(inputs_count)];
    for (; times > 0; times--)
        read_as == AS_FILE ? damage_file(&damaged) : damage_text(&damaged);
    if (has_table && !make_text())
        return;
    make_up(&damaged);
    answer = answer_to(&damaged);
    number = NOFERKASH_NUMBER(answer);
    if (number == NOFERKASH_OK)
        return;
    refused[number]++;
    explain(has_table ? AS_TABLE : read_as, &damaged, answer);
    by_number[number] += strcmp(after_given(), noferkash_refusal_words(number)) == 0;
    if (number >= NOFERKASH_TOO_MANY_TRACKS)
        look_at_folding(&damaged, answer);
    else if (strncmp(after_given(), "a quote is not closed", 21) == 0)
        look_at_uncut(&damaged, answer);
    else
        read_as == AS_FILE ? look_at_file(&damaged, answer) : look_at_text(&damaged, answer);
}

static void load(const char *name)
{
    FILE *stream = fopen(name, "rb");
    struct input *input = &inputs[inputs_count];

    if (stream == NULL || inputs_count == MOST_INPUTS) {
        fprintf(stderr, "explain_fuzz: %s cannot be taken\n", name);
        exit(2);
    }
    input->length = fread(input->at, 1, ROOM, stream);
    fclose(stream);
    /* Small ones: more cases in the same time. */
    inputs_count += input->length < 1 << 16;
}

int main(int argc, char **argv)
{
    unsigned long count;
    int i;

    if (argc < 5)
        return 2;
    folds = strcmp(argv[1], "fold") == 0;
    has_table = strcmp(argv[1], "table") == 0;
    read_as = strcmp(argv[1], "text") == 0 || has_table ? AS_TEXT : AS_FILE;
    seed_with(strtoull(argv[2], NULL, 10));
    for (i = 4; i < argc; i++)
        load(argv[i]);
    if (inputs_count == 0)
        return 2;
    for (count = strtoul(argv[3], NULL, 10); count > 0; count--)
        try_one();
    for (i = 0; i < 256; i++)
        if (refused[i] > 0)
            printf("%d: %lu refused, %lu by number alone\n", i, refused[i], by_number[i]);
    printf("%lu words about SMPTE time code\n", divisions_told);
    printf("%lu mended, %lu failed\n", mended_count, failures);
    return failures > 0;
}
