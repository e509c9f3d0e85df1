/* convert_file IN OUT: writes a Standard MIDI File as MIDICSV text.
 * Exit 0 done, 1 refused, 2 it cannot be read or written. */
#include <stdio.h>
#include <stdlib.h>

#include "noferkash.h"

/* One byte over the limit shows that a file is too long. */
#define MOST (NOFERKASH_FILE_LIMIT + 1)

static int failed(const char *name) {
    perror(name);
    return 2;
}

int main(int argc, char **argv) {
    if (argc != 3) {
        fprintf(stderr, "usage: convert_file IN OUT\n");
        return 2;
    }
    FILE *in = fopen(argv[1], "rb");
    uint8_t *file = malloc(MOST);
    if (in == NULL || file == NULL) {
        return failed(argv[1]);
    }
    size_t length = fread(file, 1, MOST, in);
    if (ferror(in)) {
        return failed(argv[1]);
    }
    fclose(in);

    /* With no buffer a good file is refused with 14, and the answer has the length needed. */
    uint64_t answer = noferkash_file_to_text(file, length, NULL, 0);
    int number = NOFERKASH_NUMBER(answer);
    if (number != NOFERKASH_ROOM_TOO_SMALL) {
        fprintf(stderr, "%s: refused %d: %s\n", argv[1], number, noferkash_refusal_words(number));
        return 1;
    }
    uint8_t *text = malloc(NOFERKASH_LENGTH(answer));
    if (text == NULL) {
        return failed(argv[1]);
    }
    answer = noferkash_file_to_text(file, length, text, NOFERKASH_LENGTH(answer));

    FILE *out = fopen(argv[2], "wb");
    if (out == NULL) {
        return failed(argv[2]);
    }
    size_t written = fwrite(text, 1, NOFERKASH_LENGTH(answer), out);
    /* A full disk may show only in closing. */
    if (fclose(out) != 0 || written != NOFERKASH_LENGTH(answer)) {
        return failed(argv[2]);
    }
    free(file);
    free(text);
    return 0;
}
