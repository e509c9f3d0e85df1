/* Which lines of one text stand in another, too: a longest common subsequence, as diff finds
 * it, by the method of Hunt and Szymanski. Most records differ from all others by their Track
 * and Time; so most lines have one twin or none, and the work is little more than sorting. */
#include <stdlib.h>

#include "explain/fields.h"
#include "tool.h"

/* A line with more twins in the new text is kept only beside others: so time and memory
 * stay in proportion to the texts, whatever they hold. */
#define MOST_TWINS 16
#define NONE UINT32_MAX

/* A part of both texts. */
struct range {
    struct line *old, *new;
    size_t old_count, new_count;
};

/* Where a new line stands, to be sorted by its hash. */
struct place {
    uint64_t hash;
    size_t at;
};

/* An old line and its twin, and the pair that comes before them. There may be many: the text
 * of a file has fewer than 2^20 lines, so 32 bits are enough. */
struct pair {
    uint32_t old, new, before;
};

/* Of each length, `ends` has the pair in which a common subsequence of that length ends
 * earliest in the new text, among the old lines looked at so far. */
struct search {
    struct place *sorted;
    struct pair *pairs;
    uint32_t *ends;
    uint32_t pair_count;
    size_t longest;
};

static uint64_t hash_of(struct part line) {
    uint64_t hash = 14695981039346656037U;
    for (size_t i = 0; i < line.length; i++) {
        hash = (hash ^ line.at[i]) * 1099511628211U;
    }
    return hash;
}

int cut_lines(struct bytes text, struct lines *lines) {
    struct part rest = {text.at, text.length};
    struct part line;
    size_t count = 0;
    while (next_line(&rest, &line)) {
        count++;
    }
    lines->count = 0;
    lines->at = malloc((count + 1) * sizeof *lines->at);
    rest = (struct part){text.at, text.length};
    while (lines->at != NULL && next_line(&rest, &line)) {
        lines->at[lines->count++] = (struct line){line.at, line.length, hash_of(line), 0};
    }
    return lines->at != NULL;
}

static int are_equal(const struct line *one, const struct line *other) {
    return one->hash == other->hash && one->length == other->length &&
           memcmp(one->at, other->at, one->length) == 0;
}

static void keep(struct line *old, struct line *new) {
    old->kept = 1;
    new->kept = 1;
}

/* Keeps what both begin and end with; the range becomes what is left between. */
static void keep_ends(struct range *range) {
    while (range->old_count > 0 && range->new_count > 0 && are_equal(range->old, range->new)) {
        keep(range->old++, range->new++);
        range->old_count--;
        range->new_count--;
    }
    while (range->old_count > 0 && range->new_count > 0 &&
           are_equal(&range->old[range->old_count - 1], &range->new[range->new_count - 1])) {
        keep(&range->old[--range->old_count], &range->new[--range->new_count]);
    }
}

static int compare_places(const void *one, const void *other) {
    const struct place *first = one;
    const struct place *second = other;
    if (first->hash != second->hash) {
        return first->hash < second->hash ? -1 : 1;
    }
    return first->at < second->at ? -1 : first->at > second->at;
}

static void sort_new(const struct range *range, struct place *sorted) {
    for (size_t i = 0; i < range->new_count; i++) {
        sorted[i] = (struct place){range->new[i].hash, i};
    }
    qsort(sorted, range->new_count, sizeof *sorted, compare_places);
}

/* The first place with this hash or a greater one. */
static size_t find_hash(const struct place *sorted, size_t count, uint64_t hash) {
    size_t least = 0;
    while (least < count) {
        size_t middle = least + (count - least) / 2;
        if (sorted[middle].hash < hash) {
            least = middle + 1;
        } else {
            count = middle;
        }
    }
    return least;
}

/* Puts the pair behind the longest subsequence that ends before it. */
static void add_pair(struct search *search, size_t old, size_t new) {
    size_t least = 0;
    size_t greatest = search->longest;
    while (least < greatest) {
        size_t middle = least + (greatest - least) / 2;
        if (search->pairs[search->ends[middle]].new < new) {
            least = middle + 1;
        } else {
            greatest = middle;
        }
    }
    uint32_t before = least > 0 ? search->ends[least - 1] : NONE;
    search->pairs[search->pair_count] = (struct pair){(uint32_t)old, (uint32_t)new, before};
    search->ends[least] = search->pair_count++;
    search->longest += least == search->longest;
}

/* The last twin first, so that no old line comes twice in one subsequence. */
static void add_twins(struct search *search, const struct range *range, size_t old) {
    const struct line *line = &range->old[old];
    size_t first = find_hash(search->sorted, range->new_count, line->hash);
    size_t end = first;
    while (end < range->new_count && search->sorted[end].hash == line->hash) {
        if (end - first == MOST_TWINS) {
            return;
        }
        end++;
    }
    while (end > first) {
        size_t new = search->sorted[--end].at;
        if (are_equal(line, &range->new[new])) {
            add_pair(search, old, new);
        }
    }
}

static void keep_longest(struct search *search, const struct range *range) {
    sort_new(range, search->sorted);
    for (size_t old = 0; old < range->old_count; old++) {
        add_twins(search, range, old);
    }
    uint32_t pair = search->longest > 0 ? search->ends[search->longest - 1] : NONE;
    for (; pair != NONE; pair = search->pairs[pair].before) {
        keep(&range->old[search->pairs[pair].old], &range->new[search->pairs[pair].new]);
    }
}

static int keep_common(const struct range *range) {
    struct search search = {
        malloc((range->new_count + 1) * sizeof *search.sorted),
        malloc((MOST_TWINS * range->old_count + 1) * sizeof *search.pairs),
        malloc((range->new_count + 1) * sizeof *search.ends),
        0,
        0,
    };
    int good = search.sorted != NULL && search.pairs != NULL && search.ends != NULL;
    if (good) {
        keep_longest(&search, range);
    }
    free(search.sorted);
    free(search.pairs);
    free(search.ends);
    return good;
}

size_t count_changed(struct lines lines, size_t at) {
    size_t end = at;
    while (end < lines.count && !lines.at[end].kept) {
        end++;
    }
    return end - at;
}

/* Between those that are kept: lines with many twins, at the ends and at the same place. */
static void keep_in_gaps(struct lines old, struct lines new) {
    size_t i = 0;
    size_t j = 0;
    while (i < old.count && j < new.count) {
        struct range gap = {&old.at[i], &new.at[j], count_changed(old, i), count_changed(new, j)};
        i += gap.old_count + 1;
        j += gap.new_count + 1;
        keep_ends(&gap);
        for (size_t at = 0; at < gap.old_count && at < gap.new_count; at++) {
            if (are_equal(&gap.old[at], &gap.new[at])) {
                keep(&gap.old[at], &gap.new[at]);
            }
        }
    }
}

int find_changes(struct lines old, struct lines new) {
    struct range range = {old.at, new.at, old.count, new.count};
    keep_ends(&range);
    int good = keep_common(&range);
    if (good) {
        keep_in_gaps(old, new);
    }
    return good;
}
