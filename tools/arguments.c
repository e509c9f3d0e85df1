/* The command line, taken apart. */
#include <stdio.h>

#include "noferkash.h"
#include "tool.h"

static enum taken print(const char *text) {
    return write_standard_output(text, strlen(text)) || say_failed("standard output") ? HELPED
                                                                                      : WRONG;
}

static int is_option(const char *word) {
    return word[0] == '-' && word[1] != '\0';
}

static int is_help(const char *word) {
    return strcmp(word, "-h") == 0 || strcmp(word, "--help") == 0;
}

static int take_flag(char flag, struct request *request) {
    if (flag == 'x') {
        request->manner = 0;
        return request->command == TO_MIDI || request->command == FROM_SHEET ||
               wrong_usage("-x goes only with to-midi and from-sheet", "", "");
    }
    if (flag == 'v') {
        request->verbose = 1;
        return request->command == CHECK || wrong_usage("-v goes only with check", "", "");
    }
    request->force = 1;
    return writes(request) || wrong_usage("-f goes only with commands that write", "", "");
}

/* Options that a word follows. */
static int wants_word(const char *option) {
    return strcmp(option, "-d") == 0 || strcmp(option, "--against") == 0;
}

/* A -f that was meant as an option must not become the name of a file or folder. */
static int is_name(const char *word) {
    return word != NULL && word[0] != '-';
}

static int take_folder(const char *folder, struct request *request) {
    if (!writes(request)) {
        return wrong_usage("-d goes only with commands that write", "", "");
    }
    if (request->folder != NULL) {
        return wrong_usage("-d stands twice", "", "");
    }
    request->folder = folder;
    return is_name(folder) || wrong_usage("-d wants a folder", "", "");
}

static int take_against(const char *old, struct request *request) {
    if (request->command != FROM_SHEET) {
        return wrong_usage("--against goes only with from-sheet", "", "");
    }
    if (request->against != NULL) {
        return wrong_usage("--against stands twice", "", "");
    }
    request->against = old;
    return is_name(old) || wrong_usage("--against wants a file", "", "");
}

static int take_text(struct request *request) {
    request->as_text = 1;
    return request->command == FROM_SHEET ||
           wrong_usage("--text goes only with from-sheet", "", "");
}

static enum taken take_option(const char *word, const char *next, struct request *request) {
    int good = 0;
    if (is_help(word)) {
        return print(help_for(request->command));
    }
    if (strcmp(word, "-d") == 0) {
        good = take_folder(next, request);
    } else if (strcmp(word, "--against") == 0) {
        good = take_against(next, request);
    } else if (strcmp(word, "--text") == 0) {
        good = take_text(request);
    } else if (strchr("xvf", word[1]) != NULL && word[2] == '\0') {
        good = take_flag(word[1], request);
    } else {
        good = wrong_usage("unknown option ", word, "");
    }
    return good ? TAKEN : WRONG;
}

/* Options may stand after operands: an -x at the end must never become the name of
 * a file that is written. The operands move to the front of `words`. */
static enum taken take_options(char **words, int count, int *operands, struct request *request) {
    int ended = 0;
    *operands = 0;
    for (int i = 0; i < count; i++) {
        char *word = words[i];
        enum taken taken = TAKEN;
        if (ended || !is_option(word)) {
            words[(*operands)++] = word;
        } else if (strcmp(word, "--") == 0) {
            ended = 1;
        } else {
            taken = take_option(word, i + 1 < count ? words[i + 1] : NULL, request);
            i += wants_word(word);
        }
        if (taken != TAKEN) {
            return taken;
        }
    }
    return TAKEN;
}

static size_t standard_inputs(const struct request *request) {
    size_t found = 0;
    for (size_t i = 0; i < request->count; i++) {
        found += is_standard(request->names[i]) ? 1 : 0;
    }
    return found;
}

static int take_names(char **names, size_t count, struct request *request) {
    static char standard[] = "-";
    static char *only_standard[] = {standard};
    request->names = count == 0 ? only_standard : names;
    request->count = count == 0 ? 1 : count;
    if (standard_inputs(request) > 1) {
        return wrong_usage("standard input can be read only once", "", "");
    }
    if (request->folder != NULL && standard_inputs(request) > 0) {
        return wrong_usage("standard input has no name to keep", "", "");
    }
    if (request->against != NULL && request->count > 1) {
        return wrong_usage("--against goes with one file", "", "");
    }
    return 1;
}

static int take_operands(char **operands, size_t count, struct request *request) {
    if (request->as_text && request->manner == 0) {
        return wrong_usage("-x does not go with --text", "", "");
    }
    if (!writes(request)) {
        return take_names(operands, count, request);
    }
    if (request->folder != NULL) {
        return count == 0 ? wrong_usage("no file for -d", "", "")
                          : take_names(operands, count, request);
    }
    if (count < 2) {
        return take_names(operands, count, request);
    }
    if (!is_standard(operands[count - 1]) && is_folder(operands[count - 1])) {
        request->folder = operands[count - 1];
        return take_names(operands, count - 1, request);
    }
    if (count > 2) {
        int has_folders = strcmp(program, "noferkash") == 0;
        return wrong_usage("too many operands: ", operands[2],
                           has_folders ? " (many files go with -d FOLDER)" : "");
    }
    request->out = operands[1];
    return take_names(operands, 1, request);
}

enum taken take_arguments(int argc, char **argv, struct request *request) {
    if (argc < 2) {
        wrong_usage("no command", "", "");
        return WRONG;
    }
    if (is_help(argv[1]) || (argc == 2 && strcmp(argv[1], "help") == 0)) {
        return print(help_for(COMMANDS));
    }
    if (strcmp(argv[1], "--version") == 0) {
        return print("noferkash " NOFERKASH_VERSION "\n");
    }
    int asks = strcmp(argv[1], "help") == 0;
    request->command = command_named(argv[1 + asks]);
    if (request->command == COMMANDS) {
        wrong_usage("unknown command ", argv[1 + asks], "");
        return WRONG;
    }
    if (asks) {
        return print(help_for(request->command));
    }
    int operands = 0;
    enum taken taken = take_options(argv + 2, argc - 2, &operands, request);
    if (taken != TAKEN) {
        return taken;
    }
    return take_operands(argv + 2, (size_t)operands, request) ? TAKEN : WRONG;
}

static enum taken take_joined_flags(const char *word, struct request *request) {
    int is_csvmidi = request->command == TO_MIDI;
    if (is_help(word)) {
        return print(midicsv_help_for(request->command));
    }
    for (const char *flags = word + 1; *flags != '\0'; flags++) {
        char unknown[] = {'-', *flags, '\0'};
        if (*flags == 'u') {
            return print(midicsv_help_for(request->command));
        }
        if (*flags == 'v') {
            request->verbose = 1;
        } else if (*flags == 'f') {
            request->force = 1;
        } else if (*flags == 'x' && is_csvmidi) {
            request->manner = 0;
        } else if (*flags != 'z' || !is_csvmidi) {
            wrong_usage("unknown option ", unknown, "");
            return WRONG;
        }
    }
    return TAKEN;
}

enum taken take_midicsv_arguments(int argc, char **argv, enum command command,
                                  struct request *request) {
    request->command = command;
    int operands = 0;
    int ended = 0;
    for (int i = 1; i < argc; i++) {
        enum taken taken = TAKEN;
        if (ended || !is_option(argv[i])) {
            argv[++operands] = argv[i];
        } else if (strcmp(argv[i], "--") == 0) {
            ended = 1;
        } else {
            taken = take_joined_flags(argv[i], request);
        }
        if (taken != TAKEN) {
            return taken;
        }
    }
    return take_operands(argv + 1, (size_t)operands, request) ? TAKEN : WRONG;
}
