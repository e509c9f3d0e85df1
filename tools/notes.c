/* What the text of a file tells of its tracks besides: names, and where notes begin. What a note
 * is the library does not decide: here it is a Note_on_c above velocity 0. */
#include "explain/fields.h"
#include "explain/records.h"
#include "tracks.h"

static int is_called(const struct head *head, const char *name) {
    return strcmp(head->record->name, name) == 0;
}

static int64_t number_at(struct part line, size_t number) {
    struct field field;
    return field_at(line, number, &field) ? field.number : 0;
}

/* The cells divide the Times from 0 to the greatest End_track, which belongs to the last one. */
static unsigned cell_of(uint64_t time, uint64_t greatest) {
    if (greatest == 0) {
        return 0;
    }
    return time < greatest ? (unsigned)(time * CELLS / greatest) : CELLS - 1;
}

static void add_note(uint32_t time, struct track *track, struct listing *listing) {
    track->first = track->notes == 0 ? time : track->first;
    track->last = time;
    track->notes++;
    track->cells |= (uint64_t)1 << cell_of(time, listing->greatest_end);
    listing->greatest_last = time > listing->greatest_last ? time : listing->greatest_last;
}

static void read_event(struct part line, const struct head *head, struct listing *listing) {
    struct track *track = &listing->at[head->track - 1];
    struct field name;
    if (is_called(head, "Note_on_c") && number_at(line, 6) > 0) {
        add_note((uint32_t)head->time, track, listing);
    } else if (is_called(head, "Title_t") && track->name.at == NULL && field_at(line, 4, &name)) {
        track->name = name.written;
    }
}

void find_notes(struct bytes text, struct listing *listing) {
    struct part rest = {text.at, text.length};
    struct part line;
    struct head head;
    while (next_line(&rest, &line)) {
        if (!read_head(line, &head)) {
            continue;
        }
        if (is_called(&head, "Header")) {
            listing->format = number_at(line, 4);
        } else if (head.track > 0 && (size_t)head.track <= listing->count) {
            read_event(line, &head, listing);
        }
    }
}

static int is_early(uint64_t time, uint64_t greatest) {
    return 10 * time < 9 * greatest;
}

int stops_early(const struct track *track, const struct listing *listing) {
    return track->notes > 0 && (is_early(track->last, listing->greatest_last) ||
                                is_early(track->end, listing->greatest_end));
}
