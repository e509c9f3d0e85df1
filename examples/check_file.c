/* check_file FILE: is this a good Standard MIDI File? Exit 0 yes, 1 no, 2 it cannot be read. */
#include <stdio.h>
#include <stdlib.h>

#include "noferkash.h"

/* One byte over the limit shows that a file is too long. */
#define MOST (NOFERKASH_FILE_LIMIT + 1)

int main(int argc, char **argv) {
    if (argc != 2) {
        fprintf(stderr, "usage: check_file FILE\n");
        return 2;
    }
    FILE *stream = fopen(argv[1], "rb");
    uint8_t *file = malloc(MOST);
    if (stream == NULL || file == NULL) {
        perror(argv[1]);
        return 2;
    }
    size_t length = fread(file, 1, MOST, stream);
    if (ferror(stream)) {
        perror(argv[1]);
        return 2;
    }
    fclose(stream);

    uint64_t answer = noferkash_check(file, length);
    free(file);
    if (NOFERKASH_NUMBER(answer) != NOFERKASH_OK) {
        printf("%s: refused %d at byte %zu\n", argv[1], NOFERKASH_NUMBER(answer),
               NOFERKASH_PLACE(answer));
        return 1;
    }
    printf("%s: good, %zu bytes\n", argv[1], length);
    return 0;
}
