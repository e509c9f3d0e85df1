/* What the parts of the command tracks share. */
#ifndef NOFERKASH_TRACKS_H
#define NOFERKASH_TRACKS_H

#include <stddef.h>
#include <stdint.h>

#include "explain/parts.h"
#include "tool.h"

/* How many characters a bar has. */
enum { CELLS = 40 };

struct track {
    /* As the library lists them. */
    uint32_t end, events, padding;
    /* That of the first Title_t, as the text has it in its quotes; at NULL if there is none. */
    struct part name;
    uint32_t notes;
    /* The Times at which the first and the last note begin; 0 if there is none. */
    uint32_t first, last;
    /* Bit i is set if a note begins in cell i of the bar. */
    uint64_t cells;
};

/* The tracks of a file, and the greatest Times of them all. */
struct listing {
    struct track *at;
    size_t count;
    int64_t format;
    uint32_t greatest_end, greatest_last;
};

/* notes.c. Finds names, notes and the format in the library's text of the file; what the
 * library lists must stand there already. */
void find_notes(struct bytes text, struct listing *listing);
/* Whether a track has notes, and the last of them or its End_track comes before nine tenths of
 * the greatest. */
int stops_early(const struct track *track, const struct listing *listing);

/* track_table.c. Prints them on standard output. 0, with a line on standard error, if that
 * failed. */
int print_listing(const char *name, const struct listing *listing);

#endif
