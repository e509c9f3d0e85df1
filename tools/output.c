/* Which file may be written. A file that is there is replaced only where the user
 * has plainly asked for it: a pattern such as *.mid puts the name of a second song
 * where OUT stands. */
#define _XOPEN_SOURCE 700

#include <errno.h>
#include <stdio.h>
#include <stdlib.h>
#include <sys/stat.h>
#include <unistd.h>

#include "tool.h"

static int is_same(const struct identity *identity, const struct stat *status) {
    return identity->device == status->st_dev && identity->number == status->st_ino;
}

static int is_among(const struct files *files, const struct stat *status) {
    for (size_t i = 0; i < files->count; i++) {
        if (is_same(&files->at[i], status)) {
            return 1;
        }
    }
    return 0;
}

/* Reads what a file holds, but no more than `most` bytes. 0, with errno set, if it
 * failed; to be freed else. */
static int read_held(const char *name, size_t most, struct bytes *held) {
    FILE *file = fopen(name, "rb");
    if (file == NULL) {
        return 0;
    }
    held->at = malloc(most);
    held->length = held->at == NULL ? 0 : fread(held->at, 1, most, file);
    int good = held->at != NULL && !ferror(file);
    int reason = errno;
    fclose(file);
    if (!good) {
        free(held->at);
    }
    errno = reason;
    return good;
}

static int are_equal(struct bytes one, struct bytes other) {
    return one.length == other.length && memcmp(one.at, other.at, one.length) == 0;
}

static int is_midi(struct bytes held) {
    static const char tag[] = {'M', 'T', 'h', 'd'};
    return held.length >= sizeof tag && memcmp(held.at, tag, sizeof tag) == 0;
}

/* Why a regular file is not to be replaced; NULL if it may be. */
static const char *objection(const struct request *request, struct bytes held, int in_place) {
    if (is_midi(held) && writes_text(request)) {
        return "is a MIDI file; nothing was written";
    }
    if (request->force || in_place || held.length == 0) {
        return NULL;
    }
    return is_midi(held) ? "is a MIDI file; nothing was written (-f replaces it)"
                         : "is there already; nothing was written (-f replaces it)";
}

static void note(struct files *files, struct identity identity) {
    files->at[files->count++] = identity;
}

static int write_and_note(const char *name, const char *path, const struct stat *old,
                          struct bytes made, struct files *files) {
    struct identity identity;
    switch (path == NULL ? NOT_WRITTEN : write_file(path, old, made, &identity)) {
    case WRITTEN:
        note(files, identity);
        return 1;
    case CHANGED_MEANWHILE:
        return say_kept(name, "was changed meanwhile; nothing was written");
    default:
        return say_failed(name);
    }
}

/* Renaming asks nothing of the old file, but a write-protected one is meant to stay,
 * and a link is meant to go on leading to its file. */
static int write_over(const char *name, const struct stat *old, struct bytes made,
                      struct files *files) {
    char *path = access(name, W_OK) == 0 ? realpath(name, NULL) : NULL;
    int good = write_and_note(name, path, old, made, files);
    free(path);
    return good;
}

static int create(const char *name, struct bytes made, struct files *files) {
    char *path = follow(name);
    int good = write_and_note(name, path, NULL, made, files);
    free(path);
    return good;
}

/* A file that has all that would be written is this run's as if it had been. The
 * file that is read may be written again where it still holds what was read. */
static int replace_held(const struct request *request, const char *name, const struct stat *old,
                        struct bytes held, struct bytes made, const struct input *in,
                        struct files *files) {
    if (are_equal(held, made)) {
        struct identity left = {old->st_dev, old->st_ino};
        note(files, left);
        return 1;
    }
    int in_place = is_same(&in->identity, old) && are_equal(held, in->bytes);
    const char *why = objection(request, held, in_place);
    return why == NULL ? write_over(name, old, made, files) : say_kept(name, why);
}

static int replace(const struct request *request, const char *name, const struct stat *old,
                   struct bytes made, const struct input *in, struct files *files) {
    int is_own = is_same(&in->identity, old);
    /* Tidied it says the same; but a folded one has lost its tracks. */
    if (is_own && request->command != TIDY) {
        return say_kept(name, "is the file that is read; nothing was written");
    }
    if (!is_own && is_among(files, old)) {
        return say_kept(name, "is another file of this run; nothing was written");
    }
    /* One byte more shows that the file is longer. */
    size_t most = (made.length > in->bytes.length ? made.length : in->bytes.length) + 1;
    struct bytes held;
    if (!read_held(name, most, &held)) {
        return say_failed(name);
    }
    int good = replace_held(request, name, old, held, made, in, files);
    free(held.at);
    return good;
}

static int is_where_output_goes(const struct stat *file) {
    struct stat status;
    return fstat(STDOUT_FILENO, &status) == 0 && status.st_dev == file->st_dev &&
           status.st_ino == file->st_ino;
}

int is_standard_output(const char *name) {
    struct stat status;
    return is_standard(name) || (stat(name, &status) == 0 && is_where_output_goes(&status));
}

int may_print(const struct files *files) {
    struct stat status;
    /* The shell opens it, as in >>, and has not asked us. */
    if (fstat(STDOUT_FILENO, &status) == 0 && S_ISREG(status.st_mode) &&
        is_among(files, &status)) {
        return say_kept("standard output", "is the file that is read; nothing was written");
    }
    return 1;
}

static int put_standard(const struct request *request, struct bytes made,
                        const struct files *files) {
    if (!may_print(files)) {
        return 0;
    }
    /* On a terminal the bytes of a MIDI file help nobody: who forgot OUT is told so. */
    if (!writes_text(request) && isatty(STDOUT_FILENO)) {
        return say_kept("standard output", "is a terminal; nothing was written (name OUT)");
    }
    return write_standard_output(made.at, made.length) || say_failed("standard output");
}

/* By a name such as /dev/stdout. Renaming would take the file from those who have it
 * open; so standard output is written as such, and no other is. */
static int put_open_file(const struct request *request, const char *name, const struct stat *old,
                         struct bytes made, const struct files *files) {
    if (is_where_output_goes(old)) {
        return put_standard(request, made, files);
    }
    return say_kept(name, "is an open file; nothing was written (name the file itself)");
}

static int put(const struct request *request, const char *name, struct bytes made,
               const struct input *in, struct files *files) {
    struct stat old;
    if (is_standard(name)) {
        return put_standard(request, made, files);
    }
    if (stat(name, &old) != 0) {
        return errno == ENOENT ? create(name, made, files) : say_failed(name);
    }
    if (S_ISREG(old.st_mode)) {
        return is_open_file(name) ? put_open_file(request, name, &old, made, files)
                                  : replace(request, name, &old, made, in, files);
    }
    if (S_ISBLK(old.st_mode)) {
        return say_kept(name, "is a disk; nothing was written");
    }
    return write_through(name, made) || say_failed(name);
}

enum outcome put_output(const struct request *request, const char *name, struct bytes made,
                        const struct input *in, struct files *files) {
    return put(request, name, made, in, files) ? GOOD : FAILED;
}
