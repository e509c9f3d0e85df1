/* Damage to files and texts, by a seed. */
#ifndef DAMAGE_H
#define DAMAGE_H

#include <stddef.h>
#include <stdint.h>

#define ROOM (1 << 18)

struct input {
    uint8_t at[ROOM];
    size_t length;
};

void seed_with(uint64_t seed);

/* A number from 0 on, below the limit. */
size_t below(size_t limit);

/* Takes bytes out and puts others there, as far as there is room. */
void splice(struct input *input, size_t at, size_t out, const void *bytes, size_t in);

uint32_t four_bytes(const uint8_t *at);

/* Where the header ends, as it declares. */
size_t first_chunk(const struct input *file);

/* Where the chunk begins that holds the place or ends there, and its end; 0 if there is none. */
size_t chunk_of(const struct input *file, size_t place, size_t *end);

/* Makes the chunk so many bytes longer. */
void lengthen(struct input *file, size_t start, size_t more);

/* How many bytes there are to the line's end. */
size_t line_length(const struct input *text, size_t start);

void damage_file(struct input *file);
void damage_text(struct input *text);

#endif
