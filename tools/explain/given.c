/* What was really given, where it can be told: another kind of file, or a table
 * that a spreadsheet has saved. */
#include <string.h>

#include "parts.h"
#include "fields.h"
#include "records.h"

/* How many lines are looked at to tell a table: Excel gives each block of so many
 * rows the same number of cells. */
enum { LOOKED_AT = 16 };

/* What the first three cells of a row take at most. */
enum { HEAD_ROOM = 256 };

#define BYTE_ORDER_MARK "\xEF\xBB\xBF"

static int has_at(struct part input, size_t at, const char *bytes, size_t length) {
    return at <= input.length && length <= input.length - at &&
           memcmp(input.at + at, bytes, length) == 0;
}

/* For string constants, which may hold 0 bytes. */
#define HAS_AT(input, at, constant) has_at(input, at, constant, sizeof(constant) - 1)
#define HOLDS(input, constant) holds(input, constant, sizeof(constant) - 1)

static int holds(struct part input, const char *bytes, size_t length) {
    size_t at = 0;
    while (at < input.length) {
        const uint8_t *first = memchr(input.at + at, bytes[0], input.length - at);
        if (first == NULL) {
            return 0;
        }
        at = (size_t)(first - input.at);
        if (has_at(input, at, bytes, length)) {
            return 1;
        }
        at++;
    }
    return 0;
}

/* The ending of a workbook's name, or NULL. Other files are made in the same
 * ways, so something that only a workbook has must be there too. */
static const char *workbook(struct part input) {
    if (HAS_AT(input, 30, "mimetypeapplication/vnd.oasis.opendocument.spreadsheet")) {
        return ".ods";
    }
    if (HAS_AT(input, 0, "PK\3\4") && HOLDS(input, "xl/workbook")) {
        return ".xlsx";
    }
    /* The stream that holds the cells, by its name in UTF-16; Book before 1997. */
    if (HAS_AT(input, 0, "\xD0\xCF\x11\xE0\xA1\xB1\x1A\xE1") &&
        (HOLDS(input, "W\0o\0r\0k\0b\0o\0o\0k\0\0\0") || HOLDS(input, "B\0o\0o\0k\0\0\0"))) {
        return ".xls";
    }
    return NULL;
}

static int is_printable(uint8_t byte) {
    return byte >= ' ' && byte <= '~';
}

/* By its byte order mark, or by its first two letters. */
static int is_utf_16(struct part input) {
    const uint8_t *at = input.at;
    if (HAS_AT(input, 0, "\xFF\xFE") || HAS_AT(input, 0, "\xFE\xFF")) {
        return 1;
    }
    if (input.length < 4) {
        return 0;
    }
    return (is_printable(at[0]) && at[1] == 0 && is_printable(at[2]) && at[3] == 0) ||
           (at[0] == 0 && is_printable(at[1]) && at[2] == 0 && is_printable(at[3]));
}

static struct part without_mark(struct part text) {
    size_t mark = HAS_AT(text, 0, BYTE_ORDER_MARK) ? sizeof BYTE_ORDER_MARK - 1 : 0;
    return (struct part){text.at + mark, text.length - mark};
}

/* Takes a line that is not passed over. */
static int next_record(struct part *text, struct part *line) {
    int found = next_line(text, line);
    while (found && is_passed_over(*line)) {
        found = next_line(text, line);
    }
    return found;
}

/* What stands in a cell: its quotes and the blanks round it are not part of it. */
static struct part cell_of(const struct field *field) {
    struct part cell = field->written;
    if (cell.length > 1 && cell.at[0] == '"' && cell.at[cell.length - 1] == '"') {
        cell = (struct part){cell.at + 1, cell.length - 2};
    }
    return trimmed(cell);
}

/* Whether the line, cut so, begins with two numbers and the name of a record.
 * These are short: a line of millions of bytes need not be looked through. */
static int begins_record(struct part line, uint8_t separator) {
    line.length = line.length < HEAD_ROOM ? line.length : HEAD_ROOM;
    struct fields fields = fields_of(line, separator);
    struct field field;
    for (int i = 0; i < 3; i++) {
        int64_t number;
        if (!next_field(&fields, &field)) {
            return 0;
        }
        struct part cell = cell_of(&field);
        int good = i < 2 ? shape_of(cell, &number) == NUMBER : find_record(cell) != NULL;
        if (!good) {
            return 0;
        }
    }
    return 1;
}

/* How a table is cut. */
enum cut { NOT_CUT, AT_COMMAS, AT_SEMICOLONS, AT_TABS, IN_QUOTES };

static const uint8_t separators[] = {[AT_COMMAS] = ',', [AT_SEMICOLONS] = ';', [AT_TABS] = '\t'};

/* Whether a quoted text stands first, with a record in it. */
static int is_in_quotes(struct part line) {
    line = trimmed(line);
    if (line.length < 2 || line.at[0] != '"') {
        return 0;
    }
    struct part inside = {line.at + 1, line.length - 1};
    const uint8_t *quote = memchr(inside.at, '"', inside.length);
    inside.length = quote != NULL ? (size_t)(quote - inside.at) : inside.length;
    return begins_record(inside, ',');
}

static enum cut cut_of(struct part line) {
    for (enum cut cut = AT_COMMAS; cut <= AT_TABS; cut++) {
        if (begins_record(line, separators[cut])) {
            return cut;
        }
    }
    return is_in_quotes(line) ? IN_QUOTES : NOT_CUT;
}

/* The first lines may be notes that the spreadsheet has put in quotes. */
static enum cut find_cut(struct part text) {
    struct part line;
    enum cut cut = NOT_CUT;
    for (int i = 0; i < LOOKED_AT && cut == NOT_CUT && next_record(&text, &line); i++) {
        cut = cut_of(line);
    }
    return cut;
}

static size_t count_cells(struct part line, uint8_t separator, int *last_is_empty) {
    struct fields fields = fields_of(line, separator);
    struct field field;
    size_t count = 0;
    while (next_field(&fields, &field)) {
        count++;
    }
    *last_is_empty = cell_of(&field).length == 0;
    return count;
}

/* Whether short rows are filled with empty cells. A comma too many after one
 * record is no table: with commas, all rows must have the same number of cells. */
static int is_filled(struct part text, enum cut cut) {
    if (cut == NOT_CUT || cut == IN_QUOTES) {
        return 0;
    }
    struct part line;
    size_t width = 0;
    int rows = 0;
    int filled = 0;
    int same = 1;
    for (; rows < LOOKED_AT && next_record(&text, &line); rows++) {
        int last_is_empty;
        size_t cells = count_cells(line, separators[cut], &last_is_empty);
        width = rows == 0 ? cells : width;
        same = same && cells == width;
        filled = filled || last_is_empty;
    }
    return filled && (cut != AT_COMMAS || (same && rows > 1));
}

/* Adds a reason in the parentheses, which the first one opens. */
static void say_why(int holds_here, const char *why, int *reasons, struct words *words) {
    if (holds_here) {
        say(words, "%s%s",
            *reasons == 0 ? "this looks like a table saved by a spreadsheet (" : ", ", why);
        (*reasons)++;
    }
}

static int say_table(struct part input, struct words *words) {
    struct part text = without_mark(input);
    enum cut cut = find_cut(text);
    int reasons = 0;
    say_why(text.length < input.length, "byte order mark", &reasons, words);
    say_why(cut == AT_SEMICOLONS, "semicolons between fields", &reasons, words);
    say_why(cut == AT_TABS, "tabs between fields", &reasons, words);
    say_why(is_filled(text, cut), "empty fields at the line's end", &reasons, words);
    say_why(cut == IN_QUOTES, "a whole line in quotes", &reasons, words);
    return reasons > 0 && say(words, "), which from-sheet reads");
}

static int is_midicsv(struct part input) {
    struct part text = without_mark(input);
    struct part line;
    struct head head;
    return next_record(&text, &line) && read_head(line, &head);
}

/* Of a file of under four bytes it cannot be told if these are its tag's. */
static int may_be_midi(struct part input) {
    size_t length = input.length < 4 ? input.length : 4;
    return has_at(input, 0, "MThd", length);
}

/* To a command that reads files. */
static int say_given_file(struct part input, struct words *words) {
    if (input.length == 0) {
        return say(words, "the file is empty");
    }
    if (HAS_AT(input, 0, "RIFF") && HAS_AT(input, 8, "RMID")) {
        return say(words, "this is a RIFF file (.rmi)");
    }
    if (is_midicsv(input)) {
        return say(words, "this is a MIDICSV text, which to-midi reads");
    }
    return !may_be_midi(input) && say(words, "this is no MIDI file");
}

/* To a command that reads texts or tables; a table is what the second expects. */
static int say_given_text(struct part input, struct words *words) {
    if (is_utf_16(input)) {
        return say(words, "this is UTF-16 text, not plain bytes");
    }
    return words->read_as == AS_TEXT && say_table(input, words);
}

int say_given(struct part input, struct words *words) {
    if (HAS_AT(input, 0, "MThd")) {
        return words->read_as != AS_FILE &&
               say(words, "this is a MIDI file, which to-%s reads",
                   words->read_as == AS_TEXT ? "text" : "sheet");
    }
    const char *ending = workbook(input);
    if (ending != NULL) {
        return say(words, "this is an %s workbook: docs/SPREADSHEET.md says how to save it as text", ending);
    }
    return words->read_as == AS_FILE ? say_given_file(input, words) : say_given_text(input, words);
}
