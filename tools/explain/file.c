/* Words about a file's bytes: its header, the event at the place. The events before
 * the place are good, so they can be walked over; but every step is held against the
 * end all the same. */
#include <inttypes.h>

#include "parts.h"
#include "noferkash.h"

/* The least length that a header declares, types of meta events, and how many tracks
 * fold into one. */
enum { LEAST_LENGTH = 6, CHANNEL_PREFIX = 0x20, MIDI_PORT = 0x21, MOST_FOLDED = 64 };

static int say_division(struct part file, struct words *words) {
    uint32_t division = big_endian(file.at + 12, 2);
    if (division >= LEAST_TIME_CODE) {
        return say_time_code(division, words);
    }
    return division == 0 && say(words, "division 0, not 1..32767");
}

/* 3, by its place. */
static int say_header(struct part file, size_t place, struct words *words) {
    if (file.length < HEADER_SIZE) {
        return 0;
    }
    uint32_t length = big_endian(file.at + 4, 4);
    uint32_t format = big_endian(file.at + 8, 2);
    uint32_t tracks = big_endian(file.at + 10, 2);
    switch (place) {
    case 0:
        return say(words, "it does not begin with MThd");
    case 4:
        return length < LEAST_LENGTH &&
               say(words, "header length %" PRIu32 ", under %d", length, LEAST_LENGTH);
    case 8:
        return say(words, "format %" PRIu32 ", not 0, 1 or 2", format);
    case 10:
        return tracks == 0 ? say(words, "no tracks")
                           : say(words, "format %" PRIu32 " with %" PRIu32 " tracks, not 1", format,
                                 tracks);
    case 12:
        return say_division(file, words);
    default:
        return 0;
    }
}

/* Reads a variable-length number and steps behind it; 0 if it does not end. */
static int read_variable(const uint8_t *file, size_t *at, size_t end, uint32_t *value) {
    *value = 0;
    for (int i = 0; i < 4 && *at < end; i++) {
        uint8_t byte = file[(*at)++];
        *value = *value << 7 | (byte & 0x7F);
        if (byte < 0x80) {
            return 1;
        }
    }
    return 0;
}

/* Steps over an event, and behind the track's end if the event passes it. 0 if
 * its size cannot be told from what is there. */
static int pass_event(const uint8_t *file, size_t *at, size_t end, uint8_t *status) {
    uint32_t value;
    if (!read_variable(file, at, end, &value) || *at >= end) {
        return 0;
    }
    if (file[*at] < 0xF0) {
        if (file[*at] >= 0x80) {
            *status = file[(*at)++];
        }
        /* Program_c and Channel_aftertouch_c have one data byte, the others two. */
        *at += *status >= 0xC0 && *status <= 0xDF ? 1 : 2;
        return *status != 0;
    }
    *at += file[*at] == 0xFF ? 2 : 1;
    *status = 0;
    int known = read_variable(file, at, end, &value);
    *at += value;
    return known;
}

/* Whether an event begins at the place, and the running status there. */
static int begins_at(struct part file, const struct chunk *track, size_t place, uint8_t *status) {
    size_t at = track->content;
    int good = 1;
    *status = 0;
    while (good && at < place) {
        good = pass_event(file.at, &at, track->end, status);
    }
    return good && at == place;
}

/* 6. */
static int say_missing(struct part file, size_t place, struct words *words) {
    struct chunk track;
    char shown[GROUPED_ROOM];
    if (!track_round(file, place, &track)) {
        return 0;
    }
    if (place == track.end) {
        return say(words, "track %zu ends without End_track", track.number);
    }
    uint8_t status;
    size_t at = place;
    if (!begins_at(file, &track, place, &status)) {
        return 0;
    }
    if (!pass_event(file.at, &at, track.end, &status)) {
        return say(words, "track %zu ends inside an event: 1 byte or more is missing",
                   track.number);
    }
    size_t missing = at > track.end ? at - track.end : 0;
    return missing > 0 && say(words, "track %zu ends inside an event: %s byte%s %s missing",
                              track.number, grouped(missing, shown), plural(missing), are(missing));
}

/* The others that stand in a track. */
static int say_track(struct part file, int number, size_t place, struct words *words) {
    struct chunk track;
    return track_round(file, place, &track) &&
           say(words, "track %zu: %s", track.number, noferkash_refusal_words(number));
}

/* 31. */
static int say_many(struct part file, struct words *words) {
    uint32_t tracks = file.length < HEADER_SIZE ? 0 : big_endian(file.at + 10, 2);
    return tracks > MOST_FOLDED && say(words, "%" PRIu32 " tracks, and at most %d can be folded",
                                       tracks, MOST_FOLDED);
}

/* 32. */
static int say_format(struct part file, struct words *words) {
    uint32_t format = file.length < HEADER_SIZE ? 0 : big_endian(file.at + 8, 2);
    return format == 2 && say(words, "format 2: its tracks are pieces of their own");
}

/* The type and the value of a meta event of one byte at the place; 0 if there is none. */
static int read_small_meta(struct part file, const struct chunk *track, size_t at, uint8_t *type,
                           uint8_t *value) {
    uint32_t number;
    if (!read_variable(file.at, &at, track->end, &number) || at + 2 > track->end ||
        file.at[at] != 0xFF) {
        return 0;
    }
    *type = file.at[at + 1];
    at += 2;
    if (!read_variable(file.at, &at, track->end, &number) || number != 1 || at >= track->end) {
        return 0;
    }
    *value = file.at[at];
    return 1;
}

/* 33. */
static int say_aimed(struct part file, size_t place, struct words *words) {
    struct chunk track;
    uint8_t status;
    uint8_t type;
    uint8_t value;
    if (!track_round(file, place, &track) || !begins_at(file, &track, place, &status) ||
        !read_small_meta(file, &track, place, &type, &value) ||
        (type != CHANNEL_PREFIX && type != MIDI_PORT)) {
        return 0;
    }
    return say(words, "track %zu has a %s %d), which speaks of its own track only", track.number,
               type == MIDI_PORT ? "MIDI_port (port" : "Channel_prefix (channel", value);
}

int explain_file(struct part file, int number, size_t place, struct words *words) {
    switch (number) {
    case NOFERKASH_FILE_CUT_SHORT:
    case NOFERKASH_BYTES_AFTER_LAST_TRACK:
        return explain_chunks(file, number, place, words);
    case NOFERKASH_BAD_HEADER:
        return say_header(file, place, words);
    case NOFERKASH_EVENT_CUT_SHORT:
        return say_missing(file, place, words);
    case NOFERKASH_TOO_MANY_TRACKS:
        return say_many(file, words);
    case NOFERKASH_FORMAT_2:
        return say_format(file, words);
    case NOFERKASH_PREFIX_OR_PORT:
        return say_aimed(file, place, words);
    default:
        return number >= NOFERKASH_VARIABLE_TOO_LONG && number <= NOFERKASH_BYTES_AFTER_END_TRACK &&
               say_track(file, number, place, words);
    }
}
