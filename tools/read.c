/* Input of the command line tool. */
#define _XOPEN_SOURCE 700

#include <stdio.h>
#include <stdlib.h>
#include <sys/stat.h>
#include <unistd.h>

#include "noferkash.h"
#include "tool.h"

/* All of a file or of a text; of a table, which may be longer, the first part. */
#define FIRST_ROOM (NOFERKASH_TEXT_LIMIT + 1)

static int failed(const char *name, FILE *stream) {
    say_failed(input_name(name));
    if (stream != NULL) {
        fclose(stream);
    }
    return 0;
}

/* Few tables are long: room for the longest is taken only where they are. */
static int make_longer(struct bytes *bytes, size_t most, size_t *room) {
    size_t longer = *room > most / 2 ? most : 2 * *room;
    uint8_t *at = realloc(bytes->at, longer);
    if (at == NULL) {
        return 0;
    }
    bytes->at = at;
    *room = longer;
    return 1;
}

/* Reads `most` bytes or up to the end into the room that is there and what is added to it. */
static int read_bytes(FILE *stream, size_t most, size_t room, struct bytes *bytes) {
    do {
        bytes->length += fread(bytes->at + bytes->length, 1, room - bytes->length, stream);
    } while (bytes->length == room && room < most && make_longer(bytes, most, &room));
    return !ferror(stream) && (bytes->length < room || room == most);
}

int read_input(const char *name, size_t limit, struct input *in) {
    size_t room = limit < FIRST_ROOM ? limit + 1 : FIRST_ROOM;
    in->bytes.length = 0;
    in->bytes.at = malloc(room);
    if (in->bytes.at == NULL) {
        return failed(name, NULL);
    }
    if (is_standard(name) && isatty(STDIN_FILENO)) {
        wipe_count();
        fprintf(stderr, "%s: reading standard input (a file's name may be given; Ctrl-D ends)\n",
                program);
    }
    FILE *stream = is_standard(name) ? stdin : fopen(name, "rb");
    struct stat status;
    if (stream == NULL || fstat(fileno(stream), &status) != 0) {
        return failed(name, stream);
    }
    in->identity.device = status.st_dev;
    in->identity.number = status.st_ino;
    if (!read_bytes(stream, limit + 1, room, &in->bytes)) {
        return failed(name, stream);
    }
    /* Nothing can be lost in closing what was only read. */
    fclose(stream);
    return 1;
}
