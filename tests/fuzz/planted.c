/* Faults planted in a program, each only where it is rare, to see that the fuzzer
 * finds them. The environment's PLANTED names the fault, PLANTED_IN the program. */
#include "programs.h"

#include "../../include/noferkash.h"

#include <stdlib.h>
#include <string.h>

static int is_planted(const char *fault, const char *program)
{
    const char *wanted = getenv("PLANTED");
    const char *where = getenv("PLANTED_IN");

    return wanted != NULL && where != NULL && strcmp(wanted, fault) == 0
        && strcmp(where, program) == 0;
}

/* A refusal that few inputs meet: a value of a meta event, a step in Time; of a table,
 * which no content is wrong for, too small a room for some length. */
static int is_rare_refusal(uint64_t answer)
{
    if (function.takes == TABLES)
        return NOFERKASH_NUMBER(answer) == NOFERKASH_ROOM_TOO_SMALL
            && NOFERKASH_LENGTH(answer) % 32 == 19;
    return NOFERKASH_NUMBER(answer) == NOFERKASH_BAD_META_VALUE
        || NOFERKASH_NUMBER(answer) == NOFERKASH_STEP_TOO_GREAT;
}

/* A length written that few inputs have; of lists, padding that the first track of few has. */
static int is_rare_success(const struct call *call, uint64_t answer)
{
    uint32_t padding;

    if (NOFERKASH_NUMBER(answer) != NOFERKASH_OK)
        return 0;
    if (function.rooms < ROOMS_MOST)
        return NOFERKASH_LENGTH(answer) % 32 == 29;
    memcpy(&padding, call->rooms[ROOMS_MOST - 1], sizeof padding);
    return padding % 8 == 3;
}

/* The last of the rooms, where the newest is written; NULL if there is none. */
static uint8_t *last_room(const struct call *call)
{
    return function.rooms == 0 ? NULL : call->rooms[function.rooms - 1];
}

static size_t last_size(const struct call *call)
{
    return function.rooms == 0 ? 0 : call->lengths[function.rooms - 1] * function.unit;
}

/* Faults of a refusal. */
static uint64_t spoil_refusal(const char *program, const struct call *call, uint64_t answer)
{
    volatile uint8_t *input = (volatile uint8_t *)call->input;

    if (is_planted("answer", program))
        answer ^= (uint64_t)1 << 28;
    if (is_planted("refusal-writes", program) && last_size(call) > 0)
        last_room(call)[last_size(call) - 1] ^= 1;
    if (is_planted("past-input", program))
        answer += input[call->input_length] & 0;
    if (is_planted("before-input", program))
        answer += input[-1] & 0;
    if (is_planted("input-written", program))
        input[0] = input[0];
    while (is_planted("endless", program))
        ;
    return answer;
}

/* Faults of a success. */
static void spoil_success(const char *program, const struct call *call, uint64_t answer)
{
    size_t size = NOFERKASH_LENGTH(answer) * function.unit;
    volatile uint8_t *room = last_room(call);

    if (is_planted("byte", program))
        room[size / 2] ^= 1;
    if (is_planted("past-written", program) && last_size(call) > size)
        room[size] ^= 1;
    if (is_planted("past-room", program))
        room[last_size(call)] ^= 1;
    if (is_planted("before-room", program))
        room[-1] ^= 1;
}

uint64_t spoil(const char *program, const struct call *call, uint64_t answer)
{
    if (is_rare_refusal(answer))
        return spoil_refusal(program, call, answer);
    if (is_rare_success(call, answer))
        spoil_success(program, call, answer);
    if (call->manner == 257 && is_planted("manner", program))
        return 0;
    return answer;
}
