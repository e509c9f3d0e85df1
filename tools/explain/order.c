/* Words about a record that may not stand where it stands. What is due there is
 * known from the lines before it, which the library has found good. */
#include <inttypes.h>

#include "parts.h"
#include "fields.h"
#include "noferkash.h"
#include "records.h"

/* How far a text has come. */
struct progress {
    enum { A_HEADER, A_TRACK, AN_EVENT, END_OF_FILE, NOTHING } due;
    int64_t counted; /* tracks, by the Header */
    int64_t ended;   /* tracks, so far */
    int64_t time;    /* of the event before, 0 at a track's start */
};

/* Goes over a good record. */
static void pass(struct progress *progress, struct part line, const struct head *head) {
    struct field tracks;
    switch (head->record->role) {
    case FIRST:
        progress->counted = field_at(line, 5, &tracks) ? tracks.number : 0;
        progress->due = A_TRACK;
        break;
    case STARTS_TRACK:
        progress->due = AN_EVENT;
        progress->time = 0;
        break;
    case IN_TRACK:
        progress->time = head->time;
        break;
    case ENDS_TRACK:
        progress->ended++;
        progress->due = progress->ended < progress->counted ? A_TRACK : END_OF_FILE;
        break;
    case LAST:
        progress->due = NOTHING;
        break;
    }
}

/* Goes over all lines before the place, and gives the line there, which has no
 * bytes where the text ends before it. 0 if a line is not as good as it must be. */
static int pass_to(struct part text, size_t place, struct progress *progress, struct part *line) {
    struct head head;
    size_t at = 1;
    while (at < place && next_line(&text, line)) {
        if (!is_passed_over(*line)) {
            if (!read_head(*line, &head)) {
                return 0;
            }
            pass(progress, *line, &head);
        }
        at++;
    }
    if (!next_line(&text, line)) {
        line->length = 0;
    }
    return at == place;
}

/* The Track that the next record must have. */
static int64_t track_due(const struct progress *progress) {
    int outside = progress->due == A_HEADER || progress->due == END_OF_FILE;
    return outside ? 0 : progress->ended + 1;
}

static int is_due(const struct progress *progress, enum role role) {
    switch (progress->due) {
    case A_HEADER:
        return role == FIRST;
    case A_TRACK:
        return role == STARTS_TRACK;
    case AN_EVENT:
        return role == IN_TRACK || role == ENDS_TRACK;
    case END_OF_FILE:
        return role == LAST;
    default:
        return 0;
    }
}

static int say_record(const struct progress *progress, const char *name, struct words *words) {
    switch (progress->due) {
    case A_HEADER:
        return say(words, "field 3: %s, not Header", name);
    case A_TRACK:
        return say(words, "field 3: %s, not Start_track of track %" PRId64, name,
                   track_due(progress));
    case AN_EVENT:
        return say(words, "field 3: %s, not an event or End_track of track %" PRId64, name,
                   track_due(progress));
    case END_OF_FILE:
        return say(words, "field 3: %s, not End_of_file: the Header counts %" PRId64 " track%s",
                   name, progress->counted, progress->counted == 1 ? "" : "s");
    default:
        return say(words, "field 3: %s, after End_of_file no record is due", name);
    }
}

/* 26: the name, then the Track, then the Time. */
static int say_order(const struct progress *progress, const struct head *head,
                     struct words *words) {
    if (!is_due(progress, head->record->role)) {
        return say_record(progress, head->record->name, words);
    }
    if (head->track != track_due(progress)) {
        return say(words, "field 1: Track %" PRId64 ", not %" PRId64, head->track,
                   track_due(progress));
    }
    if (progress->due != AN_EVENT && head->time != 0) {
        return say(words, "field 2: Time %" PRId64 ", not 0", head->time);
    }
    return progress->due == AN_EVENT && head->time < progress->time &&
           say(words, "field 2: Time %" PRId64 " goes backwards, after %" PRId64, head->time,
               progress->time);
}

/* 27. */
static int say_gap(const struct progress *progress, const struct head *head, struct words *words) {
    char room[GROUPED_ROOM];
    return head->time > progress->time &&
           say(words, "field 2: gap of %s after Time %" PRId64 ", over 268,435,455",
               grouped((uint64_t)(head->time - progress->time), room), progress->time);
}

/* 28. */
static int say_end(const struct progress *progress, struct words *words) {
    const char *by_number = noferkash_refusal_words(NOFERKASH_TEXT_CUT_SHORT);
    if (progress->due != A_TRACK && progress->due != AN_EVENT) {
        return 0;
    }
    return say(words, "%s, %s track %" PRId64, by_number,
               progress->due == A_TRACK ? "before" : "inside", track_due(progress));
}

int explain_order(struct part text, int number, size_t place, struct words *words) {
    struct progress progress = {A_HEADER, 0, 0, 0};
    struct head head;
    struct part line = {text.at, 0};
    int known = number == NOFERKASH_RECORD_OUT_OF_ORDER || number == NOFERKASH_STEP_TOO_GREAT ||
                number == NOFERKASH_TEXT_CUT_SHORT;
    if (!known || !pass_to(text, place, &progress, &line)) {
        return 0;
    }
    if (number == NOFERKASH_TEXT_CUT_SHORT) {
        return say_end(&progress, words);
    }
    if (!read_head(line, &head)) {
        return 0;
    }
    return number == NOFERKASH_STEP_TOO_GREAT ? say_gap(&progress, &head, words)
                                              : say_order(&progress, &head, words);
}
