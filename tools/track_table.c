/* The table of a file's tracks. */
#include <stdio.h>

#include "explain/fields.h"
#include "tracks.h"

/* How many characters of a name are shown, and the bytes and room that they take at most: a
 * character of UTF-8 has up to four. */
enum { MOST_NAME = 24, NAME_BYTES = 4 * (MOST_NAME + 1), NAME_ROOM = 4 * MOST_NAME + 1 };

/* Columns of numbers. */
enum column { EVENTS, END, PADDING, NOTES, FIRST_NOTE, LAST_NOTE, COLUMN_COUNT };
static const char *const headings[COLUMN_COUNT] = {"events", "end",   "padding",
                                                   "notes",  "first", "last"};
/* "4294967295" takes less. */
enum { CELL_ROOM = 16 };

struct widths {
    size_t name;
    size_t of[COLUMN_COUNT];
};

/* "-" where there is none. */
static void show_cell(const struct track *track, enum column column, char shown[CELL_ROOM]) {
    const uint32_t numbers[COLUMN_COUNT] = {track->events, track->end,   track->padding,
                                            track->notes,  track->first, track->last};
    int is_none = (column == PADDING && track->padding == 0) ||
                  ((column == FIRST_NOTE || column == LAST_NOTE) && track->notes == 0);
    snprintf(shown, CELL_ROOM, "%lu", (unsigned long)numbers[column]);
    if (is_none) {
        snprintf(shown, CELL_ROOM, "-");
    }
}

/* A name is shown from as few of its bytes as can be seen. */
static void show_name(const struct track *track, char shown[NAME_ROOM]) {
    uint8_t bytes[NAME_BYTES];
    size_t length = track->name.at == NULL ? 0 : unquote(track->name, bytes, sizeof bytes);
    show_characters(bytes, length, MOST_NAME, shown);
}

static size_t count_characters(const char *shown) {
    size_t count = 0;
    for (; *shown != '\0'; shown++) {
        count += (*shown & 0xC0) != 0x80;
    }
    return count;
}

static size_t greater(size_t one, size_t other) {
    return one > other ? one : other;
}

static void widen(const struct track *track, struct widths *widths) {
    char name[NAME_ROOM];
    show_name(track, name);
    widths->name = greater(widths->name, count_characters(name));
    for (enum column column = EVENTS; column < COLUMN_COUNT; column++) {
        char shown[CELL_ROOM];
        show_cell(track, column, shown);
        widths->of[column] = greater(widths->of[column], strlen(shown));
    }
}

static void print_name(const char *name, const struct widths *widths) {
    printf("  %s%*s", name, (int)(widths->name - count_characters(name)), "");
}

static void print_cell(const char *shown, size_t width) {
    printf("  %*s", (int)width, shown);
}

static void print_headings(const struct widths *widths) {
    printf("track");
    print_name("name", widths);
    for (enum column column = EVENTS; column < COLUMN_COUNT; column++) {
        print_cell(headings[column], widths->of[column]);
    }
    printf("\n");
}

static void print_bar(uint64_t cells) {
    char bar[CELLS];
    for (int cell = 0; cell < CELLS; cell++) {
        bar[cell] = cells >> cell & 1 ? '#' : '.';
    }
    printf("  %.*s", CELLS, bar);
}

static void print_track(const struct listing *listing, size_t at, const struct widths *widths) {
    const struct track *track = &listing->at[at];
    char name[NAME_ROOM];
    show_name(track, name);
    printf("%5zu", at + 1);
    print_name(name, widths);
    for (enum column column = EVENTS; column < COLUMN_COUNT; column++) {
        char shown[CELL_ROOM];
        show_cell(track, column, shown);
        print_cell(shown, widths->of[column]);
    }
    print_bar(track->cells);
    printf("%s\n", stops_early(track, listing) ? "  <- stops early" : "");
}

static struct widths widths_of_headings(void) {
    struct widths widths = {.name = strlen("name")};
    for (enum column column = EVENTS; column < COLUMN_COUNT; column++) {
        widths.of[column] = strlen(headings[column]);
    }
    return widths;
}

static struct widths widths_of(const struct listing *listing) {
    struct widths widths = widths_of_headings();
    for (size_t i = 0; i < listing->count; i++) {
        widen(&listing->at[i], &widths);
    }
    return widths;
}

static void print_table(const struct listing *listing) {
    struct widths widths = widths_of(listing);
    print_headings(&widths);
    for (size_t i = 0; i < listing->count; i++) {
        print_track(listing, i, &widths);
    }
}

static void print_totals(const struct listing *listing) {
    size_t events = 0;
    size_t padding = 0;
    size_t early = 0;
    for (size_t i = 0; i < listing->count; i++) {
        events += listing->at[i].events;
        padding += listing->at[i].padding;
        early += (size_t)stops_early(&listing->at[i], listing);
    }
    printf("format %d, %zu track%s, %zu event%s", (int)listing->format, listing->count,
           plural(listing->count), events, plural(events));
    if (padding > 0) {
        printf(", %zu byte%s of padding", padding, plural(padding));
    }
    if (early > 0) {
        printf(", %zu track%s", early, early == 1 ? " stops early" : "s stop early");
    }
    printf("\n");
}

int print_listing(const char *name, const struct listing *listing) {
    char *shown = show_all((const uint8_t *)name, strlen(name));
    wipe_count();
    clearerr(stdout);
    printf("%s:\n", shown);
    print_table(listing);
    printf("%s: ", shown);
    print_totals(listing);
    release(shown);
    return (fflush(stdout) == 0 && !ferror(stdout)) || say_failed("standard output");
}
