/* Walking over a file's chunks, and words about those that are missing, cut short or
 * too many. Only chunks with the tag MTrk are tracks; what others hold is never looked
 * at. Those before the place are whole, but every step is held against the end all the
 * same. */
#include <string.h>

#include "parts.h"
#include "noferkash.h"

enum { CHUNK_START = 8 };

/* What was passed over up to `at`, where a chunk begins or must begin. */
struct passed {
    size_t at;
    size_t tracks;
    size_t others;
    size_t first_other;
};

uint32_t big_endian(const uint8_t *bytes, size_t length) {
    uint32_t value = 0;
    for (size_t i = 0; i < length; i++) {
        value = value << 8 | bytes[i];
    }
    return value;
}

/* A header may be longer than what is known of it. */
static size_t header_end(struct part file) {
    return CHUNK_START + (size_t)big_endian(file.at + 4, 4);
}

static size_t tracks_counted(struct part file) {
    return big_endian(file.at + 10, 2);
}

/* The chunk that begins there; 0 if not even its tag and length are in the file. */
static int read_chunk(struct part file, const struct passed *passed, struct chunk *chunk) {
    size_t content = passed->at + CHUNK_START;
    if (content > file.length) {
        return 0;
    }
    const uint8_t *tag = file.at + passed->at;
    int is_track = memcmp(tag, "MTrk", 4) == 0;
    *chunk = (struct chunk){is_track ? passed->tracks + 1 : 0, content,
                            content + big_endian(tag + 4, 4)};
    return 1;
}

static void pass_chunk(struct passed *passed, const struct chunk *chunk) {
    if (chunk->number != 0) {
        passed->tracks = chunk->number;
    } else if (passed->others++ == 0) {
        passed->first_other = passed->at;
    }
    passed->at = chunk->end;
}

/* Passes over all chunks before the place; 0 if none begins or must begin there. */
static int pass_to(struct part file, size_t place, struct passed *passed) {
    struct chunk chunk;
    *passed = (struct passed){header_end(file), 0, 0, 0};
    while (passed->at < place && read_chunk(file, passed, &chunk)) {
        pass_chunk(passed, &chunk);
    }
    return passed->at == place && place <= file.length;
}

int track_round(struct part file, size_t place, struct chunk *track) {
    if (file.length < HEADER_SIZE) {
        return 0;
    }
    struct passed passed = {header_end(file), 0, 0, 0};
    while (read_chunk(file, &passed, track)) {
        /* Where a track ends and the next chunk begins, the place is the track's. */
        if (track->end >= place) {
            return track->number != 0 && track->content <= place && track->end <= file.length;
        }
        pass_chunk(&passed, track);
    }
    return 0;
}

/* One of them may be a track whose tag is damaged. */
static int say_passed_over(const struct passed *passed, struct words *words) {
    if (passed->others == 0) {
        return 1;
    }
    return passed->others == 1
               ? say(words, "; a chunk of another kind was passed over, at byte %zu",
                     passed->first_other)
               : say(words, "; %zu chunks of other kinds were passed over, the first at byte %zu",
                     passed->others, passed->first_other);
}

/* A track must begin there, and has not even the bytes for its tag and length. */
static int say_due(size_t counted, const struct passed *passed, size_t left, struct words *words) {
    say(words, "cut short: track %zu of %zu ", passed->tracks + 1, counted);
    if (left == 0) {
        say(words, "is missing");
    } else {
        say(words, "needs 8 bytes to begin, %zu %s there", left, are(left));
    }
    return say_passed_over(passed, words);
}

/* The file's end is in a chunk, behind its tag and length. */
static int say_too_long(struct part file, size_t place, const struct chunk *chunk,
                        struct words *words) {
    char needed[GROUPED_ROOM];
    char there[GROUPED_ROOM];
    char tag[SHOWN_ROOM];
    size_t length = chunk->end - chunk->content;
    size_t left = file.length - chunk->content;
    if (chunk->number != 0) {
        say(words, "cut short: track %zu", chunk->number);
    } else {
        show_bytes(file.at + place, 4, MOST_SHOWN, tag);
        say(words, "cut short: chunk %s", tag);
    }
    return say(words, " needs %s byte%s, %s %s there", grouped(length, needed), plural(length),
               grouped(left, there), are(left));
}

/* 2, the header. */
static int say_header_cut(struct part file, struct words *words) {
    char needed[GROUPED_ROOM];
    char there[GROUPED_ROOM];
    size_t end = file.length < HEADER_SIZE ? HEADER_SIZE : header_end(file);
    return end > file.length &&
           say(words, "cut short: the header needs %s bytes, %s %s there", grouped(end, needed),
               grouped(file.length, there), are(file.length));
}

/* 2, a chunk. */
static int say_chunk_cut(struct part file, size_t place, struct words *words) {
    struct passed passed;
    struct chunk chunk;
    if (!pass_to(file, place, &passed)) {
        return 0;
    }
    size_t counted = tracks_counted(file);
    size_t left = file.length - place;
    if (read_chunk(file, &passed, &chunk)) {
        return chunk.end > file.length && chunk.number <= counted &&
               say_too_long(file, place, &chunk, words);
    }
    if (passed.tracks < counted) {
        return say_due(counted, &passed, left, words);
    }
    return left > 0 &&
           say(words, "cut short: %zu byte%s after the last track, and a chunk needs 8 to begin",
               left, plural(left));
}

/* 13. */
static int say_one_more(struct part file, size_t place, struct words *words) {
    struct passed passed;
    struct chunk chunk;
    size_t counted = tracks_counted(file);
    return pass_to(file, place, &passed) && read_chunk(file, &passed, &chunk) &&
           chunk.number > counted &&
           say(words, "track %zu, but the header counts %zu", chunk.number, counted);
}

int explain_chunks(struct part file, int number, size_t place, struct words *words) {
    int is_cut = number == NOFERKASH_FILE_CUT_SHORT;
    if (is_cut && (place == 0 || file.length < HEADER_SIZE)) {
        return say_header_cut(file, words);
    }
    if (file.length < HEADER_SIZE) {
        return 0;
    }
    return is_cut ? say_chunk_cut(file, place, words) : say_one_more(file, place, words);
}
