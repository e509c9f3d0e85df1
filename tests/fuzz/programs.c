#include "programs.h"

#include "../../include/noferkash.h"

#define DECLARE(program) \
    uint64_t program##_check(const uint8_t *, size_t); \
    uint64_t program##_file_to_text(const uint8_t *, size_t, uint8_t *, size_t); \
    uint64_t program##_text_to_file(const uint8_t *, size_t, uint32_t, uint8_t *, size_t); \
    uint64_t program##_tidy(const uint8_t *, size_t, uint8_t *, size_t); \
    uint64_t program##_fold(const uint8_t *, size_t, uint8_t *, size_t); \
    uint64_t program##_list_tracks(const uint8_t *, size_t, uint32_t *, size_t, uint32_t *, \
                                   size_t, uint32_t *, size_t); \
    uint64_t program##_file_to_sheet(const uint8_t *, size_t, uint8_t *, size_t); \
    uint64_t program##_sheet_to_text(const uint8_t *, size_t, uint8_t *, size_t);

DECLARE(second)
/* The compiler holds these against the header. */
DECLARE(noferkash)
#ifdef INSTRUMENTED
DECLARE(instrumented)
#endif

/* The arguments of each function, from a struct call. */
#define ARGUMENTS_check call->input, call->input_length
#define ROOM(number) call->rooms[number], call->lengths[number]
#define LIST(number) (uint32_t *)(void *)ROOM(number)
#define ARGUMENTS_tidy ARGUMENTS_check, ROOM(0)
#define ARGUMENTS_fold ARGUMENTS_tidy
#define ARGUMENTS_list_tracks ARGUMENTS_check, LIST(0), LIST(1), LIST(2)
#define ARGUMENTS_file_to_text ARGUMENTS_tidy
#define ARGUMENTS_file_to_sheet ARGUMENTS_tidy
#define ARGUMENTS_sheet_to_text ARGUMENTS_tidy
#define ARGUMENTS_text_to_file ARGUMENTS_check, call->manner, ROOM(0)

#define JOINED(a, b) a##b
#define JOIN(a, b) JOINED(a, b)
#define TEXT(word) #word
#define SHOWN(word) TEXT(word)

#ifndef PLANTED
#define spoil(program, call, answer) (answer)
#endif

#define RUN(program) \
    static uint64_t run_##program(const struct call *call) \
    { \
        return spoil(#program, call, JOIN(program##_, FUZZED)(JOIN(ARGUMENTS_, FUZZED))); \
    }

RUN(second)
RUN(noferkash)
#ifdef INSTRUMENTED
RUN(instrumented)
#else
#define run_instrumented NULL
#endif

/* The facts of each function: manner, rooms, unit, enough, enough_added, takes. */
#define FACTS_check 0, 0, 1, 0, 0, FILES
#define FACTS_tidy 0, 1, 1, 0, 0, FILES
#define FACTS_fold FACTS_tidy
#define FACTS_list_tracks 0, 3, sizeof(uint32_t), 0, 0, FILES
#define FACTS_file_to_text 0, 1, 1, 25, 0, FILES
#define FACTS_text_to_file 1, 1, 1, 0, 0, TEXTS
#define FACTS_file_to_sheet 0, 1, 1, 23, 0, FILES
#define FACTS_sheet_to_text 0, 1, 1, 2, 2, TABLES

const struct function function = {
    SHOWN(FUZZED), JOIN(FACTS_, FUZZED), run_second, run_noferkash, run_instrumented,
};
