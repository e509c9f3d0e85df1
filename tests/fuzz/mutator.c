/* libFuzzer's own changes, and after every other one of them a mending: without it
 * most files die at their header or a track's length, most texts at a track number. In
 * tables nothing is to be mended: each has its text. */
#include "mend.h"
#include "programs.h"

#include <string.h>

size_t LLVMFuzzerMutate(uint8_t *data, size_t size, size_t most);

enum { MENDED_AT_MOST = 32 };

int splice(struct input *input, size_t from, size_t to, const char *with, size_t length)
{
    if (from > to || to > input->size || input->size - (to - from) + length > input->most)
        return 0;
    memmove(input->bytes + from + length, input->bytes + to, input->size - to);
    memcpy(input->bytes + from, with, length);
    input->size = input->size - (to - from) + length;
    return 1;
}

size_t LLVMFuzzerCustomMutator(uint8_t *data, size_t size, size_t most, unsigned seed)
{
    struct input input = { data, LLVMFuzzerMutate(data, size, most), most };
    unsigned rounds = seed % 2 == 0 ? 0 : seed / 2 % MENDED_AT_MOST;

    if (function.takes == TABLES)
        return input.size;
    if (function.takes == TEXTS && seed % 3 == 0)
        change_number(&input, seed / 64);
    /* Not always to the end: faults must stay too. */
    for (; rounds > 0; rounds--) {
        int mended = function.takes == TEXTS ? mend_text(&input, seed / 64 + rounds)
                                             : mend_file(&input);

        if (!mended)
            break;
    }
    return input.size;
}
