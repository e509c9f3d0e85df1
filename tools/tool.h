/* What the parts of the command line tool share. */
#ifndef NOFERKASH_TOOL_H
#define NOFERKASH_TOOL_H

#include <stddef.h>
#include <stdint.h>
#include <string.h>
#include <sys/types.h>

#include "explain/explain.h"

/* Exit statuses: of several files the greatest counts. */
enum outcome { GOOD = 0, REFUSED = 1, FAILED = 2 };

enum command { CHECK, TRACKS, TO_TEXT, TO_MIDI, TO_SHEET, FROM_SHEET, TIDY, FOLD, COMMANDS };

struct bytes {
    uint8_t *at;
    size_t length;
};

/* Tells whether two names lead to one file. */
struct identity {
    dev_t device;
    ino_t number;
};

/* What was read, and the file that it came from. */
struct input {
    struct bytes bytes;
    struct identity identity;
};

/* The files that a run reads, and those that it has written. */
struct files {
    struct identity *at;
    size_t count;
};

/* What the command line asks for. Where `folder` is NULL there is one name at
 * most but for check and tracks, and `out` is where it goes. */
struct request {
    enum command command;
    uint32_t manner;
    int force;
    int verbose;
    int as_text;         /* from-sheet stops at the text */
    const char *against; /* the file that from-sheet compares with, or NULL */
    const char *folder;
    const char *out;
    char **names;
    size_t count;
};

/* Whether the name of a file stands for a standard stream. */
static inline int is_standard(const char *name) {
    return strcmp(name, "-") == 0;
}

/* Whether it makes something of files, and does not only look at them. */
static inline int writes(const struct request *request) {
    return request->command != CHECK && request->command != TRACKS;
}

/* Whether it writes texts: no MIDI file is replaced by one, but a terminal may show it. */
static inline int writes_text(const struct request *request) {
    return request->command == TO_TEXT || request->command == TO_SHEET || request->as_text;
}

/* What messages call the input. */
static inline const char *input_name(const char *name) {
    return is_standard(name) ? "standard input" : name;
}

/* arguments.c. Takes the command line apart; its operands move within argv. WRONG has
 * had its line on standard error, HELPED what it asked for. */
enum taken { WRONG, TAKEN, HELPED };
enum taken take_arguments(int argc, char **argv, struct request *request);
/* The command line of midicsv (to-text) or csvmidi (to-midi). */
enum taken take_midicsv_arguments(int argc, char **argv, enum command command,
                                  struct request *request);

/* help.c. The number of the command of that name; COMMANDS if there is none. */
enum command command_named(const char *name);
/* The text for one command, or where it is COMMANDS for all of them. */
const char *help_for(enum command command);
const char *midicsv_help_for(enum command command);

/* run.c */
enum outcome run(const struct request *request);

/* convert.c. What the command does with one file that was read. */
enum outcome convert(const struct request *request, const char *name, const struct input *in,
                     struct files *files);
/* Room for so many bytes, to be freed; 0, with a line on standard error, if there is none. */
int make_room(const char *name, size_t length, struct bytes *room);
/* Writes what was made of a file where the request says. */
enum outcome put_made(const struct request *request, const char *name, struct bytes made,
                      const struct input *in, struct files *files);

/* from_sheet.c. The same of a table that a spreadsheet saved. */
enum outcome convert_table(const struct request *request, const char *name,
                           const struct input *in, struct files *files);

/* tracks.c. Prints the tracks of a file that was read. */
enum outcome list_tracks(const char *name, const struct input *in, const struct files *files);

/* against.c. Writes what was made of a table, and lists the records in which its piece, the
 * file `file`, differs from that of the file that the request names. The lines of `text`
 * are the rows of the table. */
enum outcome put_against(const struct request *request, const char *name, struct bytes text,
                         struct bytes file, const struct input *in, struct files *files);

/* changes.c. The lines of a text. After find_changes `kept` tells of each whether it stands
 * in the other text too: the first that is kept here is the first that is kept there, and
 * so on. */
struct line {
    const uint8_t *at;
    size_t length;
    uint64_t hash;
    int kept;
};
struct lines {
    struct line *at;
    size_t count;
};
/* To be freed; 0, with errno set, if there is no memory. */
int cut_lines(struct bytes text, struct lines *lines);
int find_changes(struct lines old, struct lines new);
/* How many from there on, up to the next that is kept, are not. */
size_t count_changed(struct lines lines, size_t at);

/* words.c. Says of each row whose text a spreadsheet may have made of a boolean:
 * "NAME: row 12: TRUE: did the spreadsheet change it?" */
void ask_about_words(const char *name, struct bytes text);

/* refuse.c. "NAME: refused N at byte P: " and words, on standard error, or "at line P". */
void say_refused(enum read_as read_as, const char *name, struct bytes in, uint64_t answer);
/* Of a table, of which this text was made: "at row P". */
void say_table_refused(const char *name, struct bytes table, struct bytes text, uint64_t answer);

/* read.c. Reads all of a file or of standard input, but no more than one byte
 * over the limit: that byte is enough for the library to see that the input is
 * too long. 0, with a line on standard error, if it cannot be read. */
int read_input(const char *name, size_t limit, struct input *in);

/* folder.c. Where in its folder stands what the request makes of the file `name`. To
 * be freed; NULL, with errno set, where there is no memory. */
char *name_in_folder(const struct request *request, const char *name);
int is_folder(const char *name);
/* 0, with a line on standard error, if it is neither there nor can be made. */
int make_folder(const char *folder);

/* links.c. Where a file that is not there yet is to be made: a link that leads nowhere
 * so far stays, and its target is made. To be freed; NULL, with errno set. */
char *follow(const char *name);
/* Whether a name leads to its file by a link of /proc, as /dev/stdout does: what such a
 * link says is no path. */
int is_open_file(const char *name);

/* output.c. Writes what was made of the input to the file `name` or to standard
 * output, if that may be. FAILED, with a line on standard error, leaves what stood
 * there. A file that was written joins `files`. */
enum outcome put_output(const struct request *request, const char *name, struct bytes made,
                        const struct input *in, struct files *files);
/* 0, with a line on standard error, if standard output goes to a file of this run. */
int may_print(const struct files *files);
/* Whether that name leads to where standard output goes. */
int is_standard_output(const char *name);

/* write.c. Each answers 0, with errno set, if it failed. */
int write_standard_output(const void *bytes, size_t length);
int write_through(const char *path, struct bytes bytes);
/* In place of the file `old`, if that is still as it was, or where `old` is NULL and
 * nothing is there. NOT_WRITTEN has set errno. */
enum written { NOT_WRITTEN, WRITTEN, CHANGED_MEANWHILE };
struct stat;
enum written write_file(const char *path, const struct stat *old, struct bytes bytes,
                        struct identity *identity);

/* say.c. What the program is called in its messages. */
extern const char *program;
/* "noferkash: WHAT WORD HINT; noferkash --help says more", without further spaces;
 * the word is the user's. Answers 0. */
int wrong_usage(const char *what, const char *word, const char *hint);
/* "noferkash: NAME: " and the reason that errno has. Answers 0. */
int say_failed(const char *name);
/* "noferkash: NAME WHAT". Answers 0. */
int say_kept(const char *name, const char *what);
/* "NAME: WHAT" on standard error. */
void say_of_file(const char *name, const char *what);
/* "NAME: WHAT" on standard output, or "WHAT" where name is NULL. 0, with a line on
 * standard error, if that failed. */
int print_of_file(const char *name, const char *what);
/* Bytes as people can read them, to be released. */
char *show_all(const uint8_t *bytes, size_t length);
void release(char *shown);
/* On a terminal, how far a run over several files is. Every line wipes it. */
void show_count(size_t done, size_t all);
void wipe_count(void);

#endif
