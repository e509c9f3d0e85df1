/* The function under test as each program has it. FUZZED is its name without
 * prefix and is given by the compiler's command line. */
#ifndef PROGRAMS_H
#define PROGRAMS_H

#include <stddef.h>
#include <stdint.h>

/* Rooms that a function takes: none, one of bytes, three lists. */
enum { ROOMS_MOST = 3 };

/* What is lent; a function that takes no manner or fewer rooms passes them over. */
struct call {
    const uint8_t *input;
    size_t input_length;
    uint32_t manner;
    uint8_t *rooms[ROOMS_MOST];
    size_t lengths[ROOMS_MOST]; /* in units of the function */
};

typedef uint64_t run_function(const struct call *call);

enum input_kind { FILES, TEXTS, TABLES };

struct function {
    const char *name;
    int has_manner;
    int rooms;
    size_t unit;         /* bytes of one item of a room */
    size_t enough;       /* so many bytes of room for each of input always do; 0: not known */
    size_t enough_added; /* with so many more */
    enum input_kind takes;
    run_function *second;
    run_function *archive;
    run_function *instrumented; /* NULL if that build of the library is not there */
};

extern const struct function function;

/* Only with PLANTED: the answer of a program in which a fault may be planted, and
 * what the fault does besides. */
uint64_t spoil(const char *program, const struct call *call, uint64_t answer);

#endif
