/* Messages of the command line tool. Each is one line and one call of fprintf: in a
 * pipeline two of us may speak at once. */
#include <errno.h>
#include <stdio.h>
#include <stdlib.h>
#include <unistd.h>

#include "tool.h"

const char *program = "noferkash";

/* Said where there is no memory to show it. */
static char not_shown[] = "(not shown)";

char *show_all(const uint8_t *bytes, size_t length) {
    /* A backslash and three digits for each byte at most, and more than nothing. */
    size_t most = 4 * length + 2;
    char *shown = malloc(most + 1);
    if (shown == NULL) {
        return not_shown;
    }
    show_bytes(bytes, length, most, shown);
    return shown;
}

/* A line feed in the name of a file must not make two lines of one message, nor an
 * escape change the terminal. */
static char *escape(const char *text) {
    return show_all((const uint8_t *)text, strlen(text));
}

void release(char *shown) {
    if (shown != not_shown) {
        free(shown);
    }
}

int wrong_usage(const char *what, const char *word, const char *hint) {
    const char *more = strcmp(program, "noferkash") == 0 ? "--help" : "-u";
    char *shown = escape(word);
    fprintf(stderr, "%s: %s%s%s; %s %s says more\n", program, what, shown, hint, program, more);
    release(shown);
    return 0;
}

int say_failed(const char *name) {
    int reason = errno;
    char *shown = escape(name);
    wipe_count();
    fprintf(stderr, "%s: %s: %s\n", program, shown, strerror(reason));
    release(shown);
    return 0;
}

int say_kept(const char *name, const char *what) {
    char *shown = escape(name);
    wipe_count();
    fprintf(stderr, "%s: %s %s\n", program, shown, what);
    release(shown);
    return 0;
}

void say_of_file(const char *name, const char *what) {
    char *shown = escape(name);
    wipe_count();
    fprintf(stderr, "%s: %s\n", shown, what);
    release(shown);
}

int print_of_file(const char *name, const char *what) {
    char *shown = escape(name == NULL ? "" : name);
    wipe_count();
    int printed = printf("%s%s%s\n", shown, name == NULL ? "" : ": ", what);
    release(shown);
    return (printed >= 0 && fflush(stdout) == 0) || say_failed("standard output");
}

/* More than two numbers of nine digits take. */
#define COUNT_WIDTH 24

static int count_stands = 0;

void show_count(size_t done, size_t all) {
    if (all > 1 && isatty(STDERR_FILENO)) {
        fprintf(stderr, "\r%zu of %zu", done, all);
        count_stands = 1;
    }
}

void wipe_count(void) {
    if (count_stands) {
        count_stands = 0;
        fprintf(stderr, "\r%*s\r", COUNT_WIDTH, "");
    }
}
