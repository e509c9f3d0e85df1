#define _GNU_SOURCE
#include "lent.h"

#include <stdio.h>
#include <stdlib.h>
#include <string.h>
#include <sys/mman.h>
#include <unistd.h>

enum { PAGE = 4096, FENCE = 64 };

static void *must(void *mapped, const char *what)
{
    if (mapped == MAP_FAILED) {
        perror(what);
        exit(2);
    }
    return mapped;
}

/* One file in memory mapped twice: where it is shown, between two pages without any
 * right, and where the harness writes. So no call is needed to make input read only. */
void lent_make(struct lent *lent, size_t most, int read_only)
{
    size_t size = (most + FENCE + PAGE - 1) / PAGE * PAGE;
    int memory = memfd_create("lent", 0);
    int rights = read_only ? PROT_READ : PROT_READ | PROT_WRITE;
    uint8_t *between;

    if (memory < 0 || ftruncate(memory, (off_t)size) != 0) {
        perror("memory to lend");
        exit(2);
    }
    between = must(mmap(NULL, size + 2 * PAGE, PROT_NONE, MAP_PRIVATE | MAP_ANONYMOUS, -1, 0),
                   "pages that nobody may touch");
    lent->most = size - FENCE;
    lent->shown = must(mmap(between + PAGE, size, rights, MAP_SHARED | MAP_FIXED, memory, 0),
                       "memory to show");
    lent->own = must(mmap(NULL, size, PROT_READ | PROT_WRITE, MAP_SHARED, memory, 0),
                     "memory to write");
    close(memory);
}

size_t lent_offset(const struct lent *lent, size_t length, enum edge edge)
{
    return edge == EDGE_LOW ? 0 : lent->most + FENCE - length;
}

static uint8_t *fence_of(const struct lent *lent, size_t length, enum edge edge)
{
    size_t offset = lent_offset(lent, length, edge);

    return lent->own + (edge == EDGE_LOW ? offset + length : offset - FENCE);
}

void lent_fence(const struct lent *lent, size_t length, enum edge edge, uint8_t fill)
{
    memset(fence_of(lent, length, edge), fill, FENCE);
}

int lent_fence_holds(const struct lent *lent, size_t length, enum edge edge, uint8_t fill)
{
    return all_are(fence_of(lent, length, edge), FENCE, fill);
}

int all_are(const uint8_t *bytes, size_t length, uint8_t value)
{
    return length == 0
        || (bytes[0] == value && memcmp(bytes, bytes + 1, length - 1) == 0);
}
