/* One call of the library for a file, and what it made of that. What is good and what is
 * not only the library knows. */
#include <stdio.h>
#include <stdlib.h>

#include "noferkash.h"
#include "tool.h"

/* "good: 65535 tracks, 1048576 bytes" takes less. */
#define GOOD_ROOM 64
/* Where the header of a good file counts its tracks. */
#define TRACK_COUNT_AT 10

/* Buffers that are always large enough, as the header promises: so the library need
 * not be asked first, which would cost the time of the work. */
static size_t enough_room(enum command command, size_t input_length) {
    switch (command) {
    case TO_TEXT:
        return 25 * input_length;
    case TO_SHEET:
        return 23 * input_length;
    case TO_MIDI:
    case TIDY:
    case FOLD:
        return NOFERKASH_FILE_LIMIT;
    default:
        return 0;
    }
}

static uint64_t call(const struct request *request, struct bytes in, struct bytes out) {
    switch (request->command) {
    case TO_TEXT:
        return noferkash_file_to_text(in.at, in.length, out.at, out.length);
    case TO_MIDI:
        return noferkash_text_to_file(in.at, in.length, request->manner, out.at, out.length);
    case TO_SHEET:
        return noferkash_file_to_sheet(in.at, in.length, out.at, out.length);
    case TIDY:
        return noferkash_tidy(in.at, in.length, out.at, out.length);
    case FOLD:
        return noferkash_fold(in.at, in.length, out.at, out.length);
    default:
        return noferkash_check(in.at, in.length);
    }
}

/* Of a file that the library has taken or made. */
static void good_words(struct bytes file, char *words) {
    unsigned tracks = 256U * file.at[TRACK_COUNT_AT] + file.at[TRACK_COUNT_AT + 1];
    snprintf(words, GOOD_ROOM, "good: %u track%s, %zu bytes", tracks, tracks == 1 ? "" : "s",
             file.length);
}

/* midicsv and csvmidi are verbose on standard error, since OUT may be standard output. */
static int say_good(const struct request *request, const char *name, struct bytes in,
                    struct bytes made) {
    char words[GOOD_ROOM];
    good_words(request->command == TO_MIDI ? made : in, words);
    if (request->command == CHECK) {
        return print_of_file(request->count > 1 ? input_name(name) : NULL, words);
    }
    say_of_file(input_name(name), words);
    return 1;
}

enum outcome put_made(const struct request *request, const char *name, struct bytes made,
                      const struct input *in, struct files *files) {
    if (request->folder == NULL) {
        return put_output(request, request->out, made, in, files);
    }
    char *path = name_in_folder(request, name);
    if (path == NULL) {
        say_failed(input_name(name));
        return FAILED;
    }
    enum outcome outcome = put_output(request, path, made, in, files);
    free(path);
    return outcome;
}

static enum outcome convert_into(const struct request *request, const char *name,
                                 const struct input *in, struct bytes out, struct files *files) {
    uint64_t answer = call(request, in->bytes, out);
    if (NOFERKASH_NUMBER(answer) != NOFERKASH_OK) {
        say_refused(request->command == TO_MIDI ? AS_TEXT : AS_FILE, name, in->bytes, answer);
        return REFUSED;
    }
    struct bytes made = {out.at, NOFERKASH_LENGTH(answer)};
    enum outcome outcome =
        request->command == CHECK ? GOOD : put_made(request, name, made, in, files);
    if (outcome == GOOD && request->verbose && !say_good(request, name, in->bytes, made)) {
        return FAILED;
    }
    return outcome;
}

int make_room(const char *name, size_t length, struct bytes *room) {
    room->length = length;
    /* malloc(0) may give NULL, which would pass for a failure. */
    room->at = malloc(length + 1);
    return room->at != NULL || say_failed(input_name(name));
}

enum outcome convert(const struct request *request, const char *name, const struct input *in,
                     struct files *files) {
    if (request->command == FROM_SHEET) {
        return convert_table(request, name, in, files);
    }
    if (request->command == TRACKS) {
        return list_tracks(name, in, files);
    }
    struct bytes out;
    enum outcome outcome = FAILED;
    if (make_room(name, enough_room(request->command, in->bytes.length), &out)) {
        outcome = convert_into(request, name, in, out, files);
    }
    free(out.at);
    return outcome;
}
