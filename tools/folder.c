/* A folder for what is made of several files. */
#define _XOPEN_SOURCE 700

#include <errno.h>
#include <stdio.h>
#include <stdlib.h>
#include <strings.h>
#include <sys/stat.h>

#include "tool.h"

/* Endings that a converted file leaves behind. Any other is part of its name. */
static const char *const file_endings[] = {".mid", ".midi", ".kar", ".smf", ".rmi", NULL};
static const char *const text_endings[] = {".csv", ".txt", NULL};
static const char *const table_endings[] = {".csv", ".txt", ".tsv", NULL};

static const char *const *endings_of(enum command command) {
    switch (command) {
    case TO_MIDI:
        return text_endings;
    case FROM_SHEET:
        return table_endings;
    default:
        return file_endings;
    }
}

static size_t stem_length(enum command command, const char *name) {
    size_t length = strlen(name);
    for (const char *const *ending = endings_of(command); *ending != NULL; ending++) {
        size_t shorter = strlen(*ending);
        if (length > shorter && strcasecmp(name + length - shorter, *ending) == 0) {
            return length - shorter;
        }
    }
    return length;
}

char *name_in_folder(const struct request *request, const char *name) {
    const char *slash = strrchr(name, '/');
    const char *last = slash == NULL ? name : slash + 1;
    const char *ending = writes_text(request) ? ".csv" : ".mid";
    size_t stem = stem_length(request->command, last);
    size_t room = strlen(request->folder) + 1 + stem + strlen(ending) + 1;
    char *path = malloc(room);
    if (path != NULL) {
        snprintf(path, room, "%s/%.*s%s", request->folder, (int)stem, last, ending);
    }
    return path;
}

int is_folder(const char *name) {
    struct stat status;
    return stat(name, &status) == 0 && S_ISDIR(status.st_mode);
}

int make_folder(const char *folder) {
    if (mkdir(folder, 0777) == 0) {
        return 1;
    }
    if (errno == EEXIST) {
        if (is_folder(folder)) {
            return 1;
        }
        errno = ENOTDIR;
    }
    return say_failed(folder);
}
