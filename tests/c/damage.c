/* Damage to files and texts, by a seed. */
#include "damage.h"

#include <string.h>

static uint64_t state;

void seed_with(uint64_t seed)
{
    state = seed;
}

size_t below(size_t limit)
{
    /* splitmix64 */
    uint64_t z = state += 0x9E3779B97F4A7C15;

    z = (z ^ z >> 30) * 0xBF58476D1CE4E5B9;
    z = (z ^ z >> 27) * 0x94D049BB133111EB;
    return (size_t)((z ^ z >> 31) % limit);
}

void splice(struct input *input, size_t at, size_t out, const void *bytes, size_t in)
{
    if (at > input->length || out > input->length - at || input->length - out + in > ROOM)
        return;
    memmove(input->at + at + in, input->at + at + out, input->length - at - out);
    memcpy(input->at + at, bytes, in);
    input->length = input->length - out + in;
}

uint32_t four_bytes(const uint8_t *at)
{
    return (uint32_t)at[0] << 24 | (uint32_t)at[1] << 16 | (uint32_t)at[2] << 8 | at[3];
}

size_t first_chunk(const struct input *file)
{
    return file->length < 14 ? 14 : 8 + (size_t)four_bytes(file->at + 4);
}

size_t chunk_of(const struct input *file, size_t place, size_t *end)
{
    size_t start = first_chunk(file);

    while (start + 8 <= file->length) {
        *end = start + 8 + four_bytes(file->at + start + 4);
        if (place <= *end)
            return start;
        start = *end;
    }
    return 0;
}

void lengthen(struct input *file, size_t start, size_t more)
{
    uint32_t length = four_bytes(file->at + start + 4) + (uint32_t)more;
    size_t i;

    for (i = 0; i < 4; i++)
        file->at[start + 4 + i] = (uint8_t)(length >> (24 - 8 * i));
}

static void insert_events(struct input *file)
{
    static const char *const bytes[] = {
        "\xFF\xFF\xFF\x7F\xC0\x01", "\x80\x80\x80\x80", "\x01\xFF\x2F", "\x01\xFF\x51\x03",
        "\x01\xF0\x7F", "\x01\x90\x3C", "\x01\xF4", "\x01\xFF\x59\x02\x09\x01",
        "\x01\xFF\x58\x03", "\x01\xFF\x90"};
    const char *chosen = bytes[below(sizeof bytes / sizeof bytes[0])];
    size_t end = 0, at = below(file->length + 1), start = chunk_of(file, at, &end), i;

    if (start == 0 || end > file->length)
        return;
    at = below(2) ? end : start + 8;
    /* Seventeen of the first pass the greatest Time. */
    for (i = below(2) ? 17 : 1; i > 0 && file->length + 8 < ROOM; i--) {
        splice(file, at, 0, chosen, strlen(chosen));
        lengthen(file, start, strlen(chosen));
    }
}

/* Before the chunk that holds the place, or at the end of the file: a chunk of another kind, or a
 * track that the header may not count. It may be too long. */
static void insert_chunk(struct input *file, size_t place)
{
    static const char tags[][5] = {"XFIH", "MThd", "data", "mtrk", "MTrl", "\xFF\n M", "MTrk"};
    static const char content[] = "\0\x90\x3C\x80MTrk\0\0\0\4\0\xFF\x2F\0MThd\0\0\0\6\0\1";
    char chunk[8 + sizeof content] = {0};
    size_t end, at = chunk_of(file, place, &end), length = below(sizeof content);

    memcpy(chunk, tags[below(sizeof tags / sizeof tags[0])], 4);
    memcpy(chunk + 8, content, length);
    chunk[7] = (char)(length + (below(4) == 0 ? below(8) : 0));
    splice(file, at == 0 || below(3) == 0 ? file->length : at, 0, chunk, 8 + length);
}

/* Makes the header longer, most often by bytes that are there. */
static void lengthen_header(struct input *file)
{
    static const char bytes[] = "MTrk\0\0\0\4\0\xFF\x2F\0";
    size_t more = 1 + below(sizeof bytes - 1);

    if (file->length < 14)
        return;
    if (below(4) > 0)
        splice(file, 14, 0, bytes, more);
    lengthen(file, 0, more);
}

/* Changes one chunk: its length, its tag, a byte of either, or cuts the file in it. */
static void damage_chunk(struct input *file, size_t place, uint8_t byte)
{
    size_t end, at = chunk_of(file, place, &end);

    switch (below(4)) {
    case 0:
        if (at != 0)
            lengthen(file, at, below(9) - 4);
        break;
    case 1:
        splice(file, at + below(8), 1, &byte, 1);
        break;
    case 2:
        splice(file, at + below(4), 1, below(2) ? "x" : "\xFF", 1);
        break;
    default:
        if (at != 0 && below(2))
            file->length = at + below(9) < file->length ? at + below(9) : file->length;
        break;
    }
}

void damage_file(struct input *file)
{
    static const uint8_t bytes[] = {0,    1,    2,    3,    5,    0x2F, 0x7F, 0x80, 0x81,
                                    0x90, 0xC0, 0xE6, 0xE7, 0xF0, 0xF7, 0xFE, 0xFF};
    uint8_t byte = bytes[below(sizeof bytes)];
    size_t at = file->length > 0 ? below(file->length) : 0, how = below(18);

    if (how == 0)
        file->length = at;
    else if (how == 1)
        splice(file, at, below(4), "", 0);
    else if (how == 2)
        splice(file, at, 0, &byte, 1);
    else if (how == 3)
        splice(file, below(14), 1, &byte, 1);
    else if (how == 4)
        splice(file, at, 1, &byte, 1);
    else if (how == 5)
        splice(file, file->length, 0, &byte, 1);
    else if (how == 6)
        lengthen_header(file);
    else if (how < 10)
        insert_chunk(file, at);
    else if (how < 14)
        damage_chunk(file, at, byte);
    else
        insert_events(file);
}

static size_t line_start(const struct input *text, size_t at)
{
    while (at > 0 && text->at[at - 1] != '\n')
        at--;
    return at;
}

size_t line_length(const struct input *text, size_t start)
{
    size_t at = start;

    while (at < text->length && text->at[at] != '\n')
        at++;
    return at - start;
}

/* Another field in place of one. */
static void change_field(struct input *text, size_t at)
{
    static const char *const fields[] = {
        "0", "1", "2", "-1", "-0", "15", "16", "100", "127", "128", "255", "256", "16383", "16384",
        "32768", "65535", "65536", "16777216", "268435455", "268435456", "4294967295", "4294967296",
        "00000000000", "+1", "", "x", "\"x\"", "\"\"", "\"", "\"\\377\"", "\"\\400\"", "\"a\"b",
        "\"a\r\"", "major", "\"major\"", "\"minor\"", "\"Major\"", "Header", "Start_track",
        "End_track", "END_OF_FILE", "Tempo", "System_exclusive", "Unknown_meta_event", "Text_t",
        "Key_signature", "\xE2\x80\x9Cla\xE2\x80\x9D", "\xFF\x01", " \t", "0 0", "47", "1,2",
        "0;0"};
    const char *field = fields[below(sizeof fields / sizeof fields[0])];
    size_t start = at, end = at;

    while (start > 0 && text->at[start - 1] != ',' && text->at[start - 1] != '\n')
        start--;
    while (end < text->length && text->at[end] != ',' && text->at[end] != '\n')
        end++;
    splice(text, start, end - start, field, strlen(field));
}

/* A Time that goes far, or backwards. */
static void change_time(struct input *text, size_t start)
{
    static const char *const times[] = {"268435455",  "268435456", "300000000",
                                        "4294967295", "0",         "1"};
    const char *time = times[below(sizeof times / sizeof times[0])];
    size_t length = line_length(text, start), first = 0, second;

    while (first < length && text->at[start + first] != ',')
        first++;
    for (second = first + 1; second < length && text->at[start + second] != ',';)
        second++;
    if (second < length)
        splice(text, start + first + 1, second - first - 1, time, strlen(time));
}

/* Another division: the last field of the first line, whatever that is. */
static void change_division(struct input *text)
{
    static const char *const divisions[] = {"-6360", "-6400", "-6616", "-1",     "-256", "-7424",
                                            "59176", "-0",    "32767", "-32768", "-32769"};
    const char *division = divisions[below(sizeof divisions / sizeof divisions[0])];
    size_t length = line_length(text, 0), start = length;

    while (start > 0 && text->at[start - 1] != ',' && text->at[start - 1] != ';')
        start--;
    splice(text, start, length - start, division, strlen(division));
}

void damage_text(struct input *text)
{
    static const char bytes[] = ",;\"\\\t \r\n#-+09aZ_\x80\xFF\x01";
    size_t at = text->length > 0 ? below(text->length) : 0;
    size_t start = line_start(text, at), length = line_length(text, start);
    uint8_t line[256];

    switch (below(13)) {
    case 0:
        text->length = below(2) ? at : start;
        break;
    case 1:
        splice(text, at, below(4), "", 0);
        break;
    case 2:
        splice(text, at, below(2), bytes + below(sizeof bytes), 1);
        break;
    case 3:
        splice(text, start, length + 1, "", 0);
        break;
    case 4:
        if (length + 1 <= sizeof line && start + length < text->length) {
            memcpy(line, text->at + start, length + 1);
            at = line_start(text, below(text->length));
            splice(text, at, 0, line, length + 1);
        }
        break;
    case 5:
        splice(text, start + length, 0, ", 1, 2, 3", 3 * (1 + below(3)));
        break;
    case 6:
        change_time(text, start);
        break;
    case 7:
        splice(text, 0, 0, below(2) ? "\xEF\xBB\xBF" : "# x\n\n", 3);
        break;
    case 8:
        change_division(text);
        break;
    default:
        change_field(text, at);
        break;
    }
}
