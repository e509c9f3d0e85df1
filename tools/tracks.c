/* The tracks of a file at a glance. A part that stops in the middle of the song is a good track to
 * every check; here people see it. */
#include <stdlib.h>

#include "noferkash.h"
#include "tracks.h"

/* No file has more: so the library need not be asked first. */
#define MOST_TRACKS 65535

/* The three lists that the library fills. */
struct lists {
    uint32_t end_times[MOST_TRACKS], event_counts[MOST_TRACKS], padding[MOST_TRACKS];
};

static uint64_t fill_lists(struct bytes file, struct lists *lists) {
    return noferkash_list_tracks(file.at, file.length, lists->end_times, MOST_TRACKS,
                                 lists->event_counts, MOST_TRACKS, lists->padding, MOST_TRACKS);
}

static void take_lists(const struct lists *lists, struct listing *listing) {
    for (size_t i = 0; i < listing->count; i++) {
        uint32_t end = lists->end_times[i];
        listing->at[i].end = end;
        listing->at[i].events = lists->event_counts[i];
        listing->at[i].padding = lists->padding[i];
        listing->greatest_end = end > listing->greatest_end ? end : listing->greatest_end;
    }
}

/* 0, with a line on standard error, if there is no memory. */
static int read_listing(const char *name, struct bytes text, const struct lists *lists,
                        struct listing *listing) {
    listing->at = calloc(listing->count, sizeof *listing->at);
    if (listing->at == NULL) {
        return say_failed(input_name(name));
    }
    take_lists(lists, listing);
    find_notes(text, listing);
    return 1;
}

/* The names in the listing are parts of the text. */
static enum outcome list_into(const char *name, const struct input *in, struct bytes text,
                              struct lists *lists, const struct files *files) {
    uint64_t answer =
        noferkash_file_to_text(in->bytes.at, in->bytes.length, text.at, text.length);
    text.length = NOFERKASH_LENGTH(answer);
    if (NOFERKASH_NUMBER(answer) == NOFERKASH_OK) {
        answer = fill_lists(in->bytes, lists);
    }
    if (NOFERKASH_NUMBER(answer) != NOFERKASH_OK) {
        say_refused(AS_FILE, name, in->bytes, answer);
        return REFUSED;
    }
    struct listing listing = {.count = NOFERKASH_LENGTH(answer)};
    int good = read_listing(name, text, lists, &listing) && may_print(files) &&
               print_listing(input_name(name), &listing);
    free(listing.at);
    return good ? GOOD : FAILED;
}

enum outcome list_tracks(const char *name, const struct input *in, const struct files *files) {
    struct bytes text;
    struct bytes lists = {NULL, 0};
    enum outcome outcome = FAILED;
    if (make_room(name, 25 * in->bytes.length, &text) &&
        make_room(name, sizeof(struct lists), &lists)) {
        outcome = list_into(name, in, text, (struct lists *)lists.at, files);
    }
    free(text.at);
    free(lists.at);
    return outcome;
}
