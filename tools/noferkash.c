/* The command line tool: noferkash, or under their names midicsv and csvmidi. */
#include "tool.h"

static const char *last_part(const char *path) {
    const char *slash = strrchr(path, '/');
    return slash == NULL ? path : slash + 1;
}

static enum taken take(int argc, char **argv, struct request *request) {
    const char *name = argc > 0 ? last_part(argv[0]) : "";
    if (strcmp(name, "midicsv") == 0 || strcmp(name, "csvmidi") == 0) {
        program = name;
        enum command command = name[0] == 'm' ? TO_TEXT : TO_MIDI;
        return take_midicsv_arguments(argc, argv, command, request);
    }
    return take_arguments(argc, argv, request);
}

int main(int argc, char **argv) {
    struct request request = {.command = CHECK, .manner = 1, .out = "-"};
    switch (take(argc, argv, &request)) {
    case HELPED:
        return GOOD;
    case TAKEN:
        return run(&request);
    default:
        return FAILED;
    }
}
