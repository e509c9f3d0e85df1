/* One file after the other, and how many were good. */
#define _XOPEN_SOURCE 700

#include <signal.h>
#include <stdio.h>
#include <stdlib.h>
#include <sys/stat.h>
#include <unistd.h>

#include "noferkash.h"
#include "tool.h"

/* ", 18446744073709551615 failed" takes less. */
#define FAILED_ROOM 64

static size_t limit_of(enum command command) {
    switch (command) {
    case TO_MIDI:
        return NOFERKASH_TEXT_LIMIT;
    case FROM_SHEET:
        return NOFERKASH_TABLE_LIMIT;
    default:
        return NOFERKASH_FILE_LIMIT;
    }
}

static enum outcome run_one(const struct request *request, const char *name, struct files *files) {
    struct input in;
    enum outcome outcome = FAILED;
    if (read_input(name, limit_of(request->command), &in)) {
        outcome = convert(request, name, &in, files);
    }
    free(in.bytes.at);
    return outcome;
}

/* One that cannot be found now cannot be read later either, and is told then. */
static void note_input(const char *name, struct files *files) {
    struct stat status;
    int found = is_standard(name) ? fstat(STDIN_FILENO, &status) : stat(name, &status);
    if (found == 0) {
        struct identity identity = {status.st_dev, status.st_ino};
        files->at[files->count++] = identity;
    }
}

/* The file that is compared with is read, too, and is not to be lost by a new one. */
static void note_inputs(const struct request *request, struct files *files) {
    for (size_t i = 0; i < request->count; i++) {
        note_input(request->names[i], files);
    }
    if (request->against != NULL) {
        note_input(request->against, files);
    }
}

static void say_totals(const size_t totals[FAILED + 1], size_t count) {
    char failed[FAILED_ROOM] = "";
    if (totals[FAILED] > 0) {
        snprintf(failed, sizeof failed, ", %zu failed", totals[FAILED]);
    }
    wipe_count();
    fprintf(stderr, "%zu files: %zu good, %zu refused%s\n", count, totals[GOOD], totals[REFUSED],
            failed);
}

/* The greatest outcome that came. */
static enum outcome run_all(const struct request *request, struct files *files) {
    size_t totals[FAILED + 1] = {0, 0, 0};
    enum outcome worst = GOOD;
    for (size_t i = 0; i < request->count; i++) {
        show_count(i + 1, request->count);
        enum outcome outcome = run_one(request, request->names[i], files);
        totals[outcome]++;
        worst = outcome > worst ? outcome : worst;
    }
    if (request->count > 1) {
        say_totals(totals, request->count);
    }
    return worst;
}

/* What cannot be written is told, and the other files go on: so these two, which would
 * end us, become failures of write. But a reader that has seen enough of standard
 * output may end us without a word, as is usual. */
static void take_no_signals(const struct request *request) {
    signal(SIGXFSZ, SIG_IGN);
    if (request->folder != NULL) {
        signal(SIGPIPE, SIG_IGN);
    }
}

enum outcome run(const struct request *request) {
    take_no_signals(request);
    if (request->folder != NULL && !make_folder(request->folder)) {
        return FAILED;
    }
    /* Each file is read, and may be written; and one is compared with. */
    struct files files = {calloc(2 * request->count + 1, sizeof *files.at), 0};
    if (files.at == NULL) {
        say_failed("memory");
        return FAILED;
    }
    note_inputs(request, &files);
    enum outcome outcome = run_all(request, &files);
    free(files.at);
    return outcome;
}
