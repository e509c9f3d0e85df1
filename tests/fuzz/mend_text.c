#include "mend.h"

#include "../../include/noferkash.h"

#include <ctype.h>
#include <stdio.h>
#include <stdlib.h>
#include <string.h>
#include <strings.h>

uint64_t second_text_to_file(const uint8_t *text, size_t text_len, uint32_t manner, uint8_t *out,
                             size_t out_len);

/* A line as far as it has the plain shape: Track, Time, Name and the rest. */
struct line {
    size_t start, end; /* the LF included */
    unsigned long time;
    size_t name; /* 0: not of this shape */
};

static size_t past_spaces(const struct input *text, size_t at, size_t end)
{
    while (at < end && (text->bytes[at] == ' ' || text->bytes[at] == '\t'))
        at++;
    return at;
}

/* Reads a number and the comma after it; 0 if there is none. */
static size_t past_number(const struct input *text, size_t at, size_t end, unsigned long *number)
{
    size_t digits = 0;

    *number = 0;
    at = past_spaces(text, at, end);
    for (; at < end && isdigit(text->bytes[at]) && digits < 10; digits++)
        *number = *number * 10 + (unsigned long)(text->bytes[at++] - '0');
    at = past_spaces(text, at, end);
    if (digits == 0 || at == end || text->bytes[at] != ',')
        return 0;
    return past_spaces(text, at + 1, end);
}

static struct line line_at(const struct input *text, size_t start)
{
    const uint8_t *feed = memchr(text->bytes + start, '\n', text->size - start);
    size_t end = feed == NULL ? text->size : (size_t)(feed - text->bytes) + 1;
    struct line line = { start, end, 0, 0 };
    unsigned long track;
    size_t at = past_number(text, start, end, &track);

    if (at != 0)
        line.name = past_number(text, at, end, &line.time);
    return line;
}

static int is_named(const struct input *text, const struct line *line, const char *name)
{
    size_t length = strlen(name);

    return line->name != 0 && line->end - line->name > length
        && strncasecmp((const char *)text->bytes + line->name, name, length) == 0;
}

/* Where a line stands: the track, 0 before the first, and the last Time in it. */
struct place {
    unsigned long track, time;
};

/* Gives the line the Track and a Time that its place permits; 0 if there is no room. */
static int put_in_place(struct input *text, const struct line *line, struct place *place)
{
    struct place here = { 0, 0 };
    char prefix[48];
    int length;

    if (is_named(text, line, "Start_track")) {
        place->track++;
        place->time = 0;
        here = *place;
    } else if (!is_named(text, line, "Header") && !is_named(text, line, "End_of_file")) {
        if (line->time > place->time)
            place->time = line->time;
        here = *place;
    }
    length = snprintf(prefix, sizeof prefix, "%lu, %lu, ", here.track, here.time);
    return splice(text, line->start, line->name, prefix, (size_t)length);
}

/* Numbers the tracks 1, 2, .. and lets no Time fall. */
static int put_in_order(struct input *text)
{
    struct place place = { 0, 0 };
    struct line line;
    size_t at;

    for (at = 0; at < text->size; at = line.end) {
        line = line_at(text, at);
        if (line.name == 0)
            continue;
        if (!put_in_place(text, &line, &place))
            return 0;
        line = line_at(text, at);
    }
    return 1;
}

/* Lets the Header count the tracks that begin. */
static int count_tracks(struct input *text)
{
    struct line line, header = { 0, 0, 0, 0 };
    unsigned count = 0;
    char whole[64];
    size_t at;

    for (at = 0; at < text->size; at = line.end) {
        line = line_at(text, at);
        count += (unsigned)is_named(text, &line, "Start_track");
        if (header.name == 0 && is_named(text, &line, "Header"))
            header = line;
    }
    snprintf(whole, sizeof whole, "0, 0, Header, 1, %u, 96\n", count > 0 ? count : 1);
    return splice(text, header.start, header.end, whole, strlen(whole));
}

static int append(struct input *text, const char *words)
{
    if (text->size > 0 && text->bytes[text->size - 1] != '\n'
        && !splice(text, text->size, text->size, "\n", 1))
        return 0;
    return splice(text, text->size, text->size, words, strlen(words));
}

static int drop_line(struct input *text, size_t number)
{
    struct line line = { 0, 0, 0, 0 };

    for (; number > 0 && line.end < text->size; number--)
        line = line_at(text, line.end);
    return number == 0 && splice(text, line.start, line.end, "", 0);
}

/* Where the digits from `at` on end. */
static size_t past_digits(const struct input *text, size_t at)
{
    while (at < text->size && isdigit(text->bytes[at]))
        at++;
    return at;
}

void change_number(struct input *text, unsigned choice)
{
    static const char *const numbers[] = {
        "0", "1", "7", "8", "99", "100", "127", "128", "255", "256", "16383", "16384", "32767",
        "32768", "65535", "65536", "16777215", "16777216", "268435455", "268435456",
        "4294967295", "4294967296", "-1", "00000000000",
    };
    const char *number = numbers[choice % (sizeof numbers / sizeof *numbers)];
    size_t from = text->size == 0 ? 0 : choice / 32 % text->size;

    /* The next number from a place on, or none. */
    while (from < text->size && !isdigit(text->bytes[from]))
        from++;
    splice(text, from, past_digits(text, from), number, strlen(number));
}

int mend_text(struct input *text, unsigned choice)
{
    uint8_t none;
    uint64_t answer = second_text_to_file(text->bytes, text->size, 0, &none, 0);

    switch (NOFERKASH_NUMBER(answer)) {
    case NOFERKASH_TEXT_CUT_SHORT:
        return append(text, choice % 3 == 0 ? "1, 0, End_track\n" : "0, 0, End_of_file\n");
    case NOFERKASH_RECORD_OUT_OF_ORDER:
        switch (choice % 4) {
        case 0:
            return drop_line(text, NOFERKASH_PLACE(answer));
        case 1:
            return count_tracks(text);
        default:
            return put_in_order(text);
        }
    case NOFERKASH_ROOM_TOO_SMALL:
    case NOFERKASH_TEXT_TOO_LONG:
    case NOFERKASH_WRITTEN_TOO_LONG:
        return 0;
    default:
        return drop_line(text, NOFERKASH_PLACE(answer));
    }
}
