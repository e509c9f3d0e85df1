/* One exported function of the proved archive beside the second program's, on one
 * input of the fuzzer: the same answer, the same bytes written, every other byte as
 * it was, in every room and manner that matters. Anything else ends the process, and
 * the fuzzer keeps the input. */
#include "lent.h"
#include "programs.h"

#include "../../include/noferkash.h"

#include <inttypes.h>
#include <stdio.h>
#include <stdlib.h>
#include <string.h>

enum { INPUT_MOST = 1 << 21, ROOM_MOST = 1 << 26 };

/* What the second program did, against which the others are held. */
struct due {
    uint64_t answer;
    const uint8_t *made[ROOMS_MOST]; /* NULL before it ran */
};

static struct lent lent_input, lent_rooms[ROOMS_MOST];

static void show(const char *program, uint64_t answer)
{
    fprintf(stderr, "    %-12s %d at %zu, length %zu (0x%016" PRIx64 ")\n", program,
            NOFERKASH_NUMBER(answer), NOFERKASH_PLACE(answer), NOFERKASH_LENGTH(answer), answer);
}

static void differ(const char *what, const char *program, const struct call *call,
                   uint64_t answer, const struct due *due)
{
    int r;

    fprintf(stderr, "DIFFERENCE: %s: %s (input of %zu bytes, manner %" PRIu32 ", room",
            function.name, what, call->input_length, call->manner);
    for (r = 0; r < function.rooms; r++)
        fprintf(stderr, " %zu", call->lengths[r]);
    fprintf(stderr, ")\n");
    show("second:", due->answer);
    show(program, answer);
    abort();
}

static size_t written(uint64_t answer)
{
    return NOFERKASH_NUMBER(answer) == NOFERKASH_OK ? NOFERKASH_LENGTH(answer) : 0;
}

static size_t room_size(const struct call *call, int room)
{
    return call->lengths[room] * function.unit;
}

/* The answer due, the bytes due in each room, and all past them as filled. */
static void look(const char *program, const struct call *call, const uint8_t *data,
                 uint64_t answer, const struct due *due, uint8_t fill)
{
    size_t length = written(answer), size = length * function.unit;
    int r;

    if (answer != due->answer)
        differ("answers", program, call, answer, due);
    if (memcmp(call->input, data, call->input_length) != 0)
        differ("input written", program, call, answer, due);
    for (r = 0; r < function.rooms; r++) {
        if (length > call->lengths[r])
            differ("length over the room", program, call, answer, due);
        if (memcmp(call->rooms[r], due->made[r], size) != 0)
            differ("bytes written", program, call, answer, due);
        if (!all_are(call->rooms[r] + size, room_size(call, r) - size, fill))
            differ("room past the bytes written", program, call, answer, due);
    }
}

/* A program in blocks of memory of the very sizes, whose edges AddressSanitizer
 * knows. Leaves the rooms in `made`, to be freed. */
static void run_in_blocks(const char *program, run_function *run, const uint8_t *data,
                          struct call call, uint8_t fill, struct due *due,
                          uint8_t *made[ROOMS_MOST])
{
    uint8_t *input = malloc(call.input_length);
    int r, is_first = due->made[0] == NULL;
    uint64_t answer;

    memcpy(input, data, call.input_length);
    call.input = input;
    for (r = 0; r < ROOMS_MOST; r++) {
        made[r] = call.rooms[r] = malloc(room_size(&call, r));
        memset(made[r], fill, room_size(&call, r));
    }
    answer = run(&call);
    if (is_first)
        due->answer = answer;
    for (r = 0; is_first && r < ROOMS_MOST; r++)
        due->made[r] = made[r];
    look(program, &call, data, answer, due, fill);
    free(input);
}

static void free_rooms(uint8_t *made[ROOMS_MOST])
{
    int r;

    for (r = 0; r < ROOMS_MOST; r++)
        free(made[r]);
}

/* The archive between pages that nobody may touch. */
static void run_at_edge(const uint8_t *data, struct call call, enum edge edge, uint8_t fill,
                        const struct due *due)
{
    size_t input = lent_offset(&lent_input, call.input_length, edge);
    uint64_t answer;
    int r;

    memcpy(lent_input.own + input, data, call.input_length);
    lent_fence(&lent_input, call.input_length, edge, fill);
    call.input = lent_input.shown + input;
    for (r = 0; r < function.rooms; r++) {
        size_t size = room_size(&call, r), room = lent_offset(&lent_rooms[r], size, edge);

        memset(lent_rooms[r].own + room, fill, size);
        lent_fence(&lent_rooms[r], size, edge, fill);
        call.rooms[r] = lent_rooms[r].shown + room;
    }
    answer = function.archive(&call);
    look("archive:", &call, data, answer, due, fill);
    for (r = 0; r < function.rooms; r++)
        if (!lent_fence_holds(&lent_rooms[r], room_size(&call, r), edge, fill))
            differ("bytes outside the room written", "archive:", &call, answer, due);
}

/* The programs on one input in one manner, all rooms of one length but for one of
 * another: the archive at this edge, or, if it is EDGES, at both, and then the
 * instrumented library too. Returns the answer. The fills differ, so that an answer
 * which hangs on what the rooms held would show. */
static uint64_t compare_but(const uint8_t *data, size_t size, uint32_t manner, size_t length,
                            int but, size_t other, enum edge edge)
{
    struct call call = { NULL, size, manner, { NULL }, { length, length, length } };
    struct due due = { 0, { NULL } };
    uint8_t *made[ROOMS_MOST], *again[ROOMS_MOST];

    call.lengths[but] = other;
    run_in_blocks("second:", function.second, data, call, 0x5A, &due, made);
    if (edge == EDGES && function.instrumented != NULL) {
        run_in_blocks("instrumented:", function.instrumented, data, call, 0x3C, &due, again);
        free_rooms(again);
    }
    if (edge != EDGE_LOW)
        run_at_edge(data, call, EDGE_HIGH, 0xA5, &due);
    if (edge != EDGE_HIGH)
        run_at_edge(data, call, EDGE_LOW, 0xC3, &due);
    free_rooms(made);
    return due.answer;
}

static uint64_t compare(const uint8_t *data, size_t size, uint32_t manner, size_t length,
                        enum edge edge)
{
    return compare_but(data, size, manner, length, 0, length, edge);
}

/* A number that hangs on the input alone, so that what is found is found again. */
static uint32_t hash_of(const uint8_t *data, size_t size)
{
    uint32_t hash = 2166136261u;
    size_t i;

    for (i = 0; i < size; i++)
        hash = (hash ^ data[i]) * 16777619u;
    return hash ^ hash >> 15;
}

/* No room, then the rooms round the length needed, of several each one short and each
 * larger alone; for input that is refused some room in which a writer in haste would
 * show; and room that is always enough, where the library may go another way. */
static void compare_in_rooms(const uint8_t *data, size_t size, uint32_t manner, uint32_t hash)
{
    size_t needed = NOFERKASH_LENGTH(compare(data, size, manner, 0, hash % 2));
    size_t enough = function.enough * size + function.enough_added;
    int r;

    if (needed > 0) {
        for (r = 0; r < function.rooms; r++) {
            size_t larger = needed + 1 + hash % 64;

            compare_but(data, size, manner, needed, r, needed - 1, EDGE_HIGH);
            compare_but(data, size, manner, needed, r, larger, EDGE_LOW);
        }
        compare(data, size, manner, needed, EDGES);
    } else {
        compare(data, size, manner, size + 1 + hash % 64, EDGES);
    }
    if (enough > 0) {
        compare(data, size, manner, enough, EDGES);
        compare(data, size, manner, enough - 1, EDGE_LOW);
    }
}

int LLVMFuzzerInitialize(int *argc, char ***argv)
{
    int r;

    (void)argc;
    (void)argv;
    lent_make(&lent_input, INPUT_MOST, 1);
    for (r = 0; r < function.rooms; r++)
        lent_make(&lent_rooms[r], ROOM_MOST, 0);
    return 0;
}

int LLVMFuzzerTestOneInput(const uint8_t *data, size_t size)
{
    static const uint32_t others[] = { 2, 3, 255, 256, 257, 1u << 16, 1u << 31, UINT32_MAX };
    static const uint8_t none[1];
    uint32_t hash;

    if (size > INPUT_MOST)
        return 0;
    if (size == 0)
        data = none; /* may be NULL */
    hash = hash_of(data, size);
    if (function.rooms == 0) {
        compare(data, size, 0, 0, EDGES);
        return 0;
    }
    compare_in_rooms(data, size, 0, hash);
    if (function.has_manner) {
        compare_in_rooms(data, size, 1, hash);
        compare(data, size, others[hash % 8], hash % (size + 64), EDGE_HIGH);
    }
    return 0;
}
