#include "mend.h"

#include "../../include/noferkash.h"

#include <string.h>

uint64_t second_check(const uint8_t *file, size_t file_len);

enum { HEADER = 14, LEAST_LENGTH = 6, CHUNK_START = 8 };

static void put(uint8_t *bytes, size_t count, size_t value)
{
    for (; count > 0; count--, value >>= 8)
        bytes[count - 1] = (uint8_t)value;
}

static size_t get(const uint8_t *bytes, size_t count)
{
    size_t value = 0;

    for (; count > 0; count--, bytes++)
        value = value << 8 | *bytes;
    return value;
}

static size_t end_of_chunk(const struct input *file, size_t chunk)
{
    return chunk + CHUNK_START + get(file->bytes + chunk + 4, 4);
}

static int is_track(const struct input *file, size_t chunk)
{
    return memcmp(file->bytes + chunk, "MTrk", 4) == 0;
}

/* The chunk that `place` is in, the place after its last byte included; 0 if none. The
 * header is a chunk too. All chunks before the earliest fault are whole. */
static size_t chunk_at(const struct input *file, size_t place)
{
    size_t chunk = 0;

    while (chunk + CHUNK_START <= place) {
        size_t end = end_of_chunk(file, chunk);

        if (place <= end)
            return end <= file->size ? chunk : 0;
        chunk = end;
    }
    return 0;
}

/* Whether fewer tracks than the header counts stand before the place, where a chunk
 * begins or must begin. */
static int is_track_due(const struct input *file, size_t place)
{
    size_t chunk, tracks = 0;

    for (chunk = 0; chunk + CHUNK_START <= place; chunk = end_of_chunk(file, chunk))
        tracks += (size_t)is_track(file, chunk);
    return tracks < get(file->bytes + 10, 2);
}

/* Ends the track at `place`, with an End_track of Time 0 there or without. */
static int end_track(struct input *file, size_t place, int with_event)
{
    static const char event[] = "\0\xFF\x2F";
    size_t chunk = chunk_at(file, place);
    size_t length = with_event ? 4 : 0;

    if (chunk == 0)
        return 0;
    if (!splice(file, place, end_of_chunk(file, chunk), event, length))
        return 0;
    put(file->bytes + chunk + 4, 4, place + length - chunk - CHUNK_START);
    return 1;
}

/* One below 0 becomes frames, 0 pulses. */
static void mend_division(uint8_t *field)
{
    static const uint8_t rates[] = { 0xE8, 0xE7, 0xE3, 0xE2 };

    if (field[0] < 0x80) {
        put(field, 2, 96);
        return;
    }
    field[0] = rates[field[0] % sizeof rates];
    if (field[1] == 0)
        field[1] = 40;
}

static int mend_header(struct input *file, size_t place)
{
    uint8_t *field = file->bytes + place;

    switch (place) {
    case 0:
        memcpy(field, "MThd", 4);
        return 1;
    case 4:
        put(field, 4, LEAST_LENGTH);
        return 1;
    case 8:
        put(field, 2, get(field, 2) % 3);
        return 1;
    case 10:
        put(field, 2, 1);
        return 1;
    default:
        mend_division(field);
        return 1;
    }
}

/* A header that goes past the end becomes one that does not, most often a longer one. */
static int shorten_header(struct input *file)
{
    size_t most = file->size - CHUNK_START - LEAST_LENGTH;

    put(file->bytes + 4, 4, LEAST_LENGTH + get(file->bytes + 4, 4) % (most + 1));
    return 1;
}

/* A file, or a chunk of it, that ends too early. */
static int mend_cut(struct input *file, size_t place)
{
    static const char track[] = "MTrk\0\0\0\x04\0\xFF\x2F";
    static const char header[] = "MThd\0\0\0\x06\0\0\0\1\0";

    if (file->size < HEADER)
        return splice(file, 0, file->size, header, HEADER);
    if (place == 0)
        return shorten_header(file);
    /* The chunk's length, whatever its tag is. */
    if (file->size - place >= CHUNK_START) {
        put(file->bytes + place + 4, 4, file->size - place - CHUNK_START);
        return 1;
    }
    if (is_track_due(file, place))
        return splice(file, place, file->size, track, sizeof track);
    file->size = place;
    return 1;
}

/* A track that the header does not count: it counts it, as far as it can. */
static int count_track(struct input *file, size_t place)
{
    size_t count = get(file->bytes + 10, 2);

    if (count == 0xFFFF) {
        file->size = place;
        return 1;
    }
    if (get(file->bytes + 8, 2) == 0)
        put(file->bytes + 8, 2, 1);
    put(file->bytes + 10, 2, count + 1);
    return 1;
}

int mend_file(struct input *file)
{
    uint64_t answer = second_check(file->bytes, file->size);
    size_t place = NOFERKASH_PLACE(answer);

    switch (NOFERKASH_NUMBER(answer)) {
    case NOFERKASH_OK:
    case NOFERKASH_FILE_TOO_LONG:
        return 0;
    case NOFERKASH_FILE_CUT_SHORT:
        return mend_cut(file, place);
    case NOFERKASH_BAD_HEADER:
        return mend_header(file, place);
    case NOFERKASH_BYTES_AFTER_END_TRACK:
        return end_track(file, place, 0);
    case NOFERKASH_BYTES_AFTER_LAST_TRACK:
        return count_track(file, place);
    default:
        return end_track(file, place, 1);
    }
}
