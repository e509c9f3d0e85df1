/* Part of explain_fuzz: whether the words about a file are true. */
#include "explain_fuzz.h"

#include <ctype.h>
#include <stdio.h>
#include <string.h>

#include "noferkash.h"

/* The words, their numbers without commas. */
static char said[EXPLAIN_ROOM];

static void copy_said(const char *from)
{
    char *to = said;

    for (; *from != 0; from++)
        if (*from != ',' || !isdigit((unsigned char)from[1]))
            *to++ = *from;
    *to = 0;
}

/* What stands before a place: tracks, other chunks, and where the first of these begins. */
struct before {
    size_t tracks, others, first;
};

static struct before count_before(const struct input *file, size_t place)
{
    struct before before = {0, 0, 0};
    size_t start = first_chunk(file);

    while (start < place && start + 8 <= file->length) {
        if (memcmp(file->at + start, "MTrk", 4) == 0)
            before.tracks++;
        else if (before.others++ == 0)
            before.first = start;
        start += 8 + (size_t)four_bytes(file->at + start + 4);
    }
    return before;
}

static size_t tracks_counted(const struct input *file)
{
    return (size_t)file->at[10] << 8 | file->at[11];
}

/* The file with so many bytes more in the track, or at its end for a file cut short, is not refused
 * with that number at that place; with one byte less it is. */
static void mend_file(const struct input *file, uint64_t answer, size_t missing)
{
    size_t end = 0, less, start = chunk_of(file, NOFERKASH_PLACE(answer), &end);
    int in_track = NOFERKASH_NUMBER(answer) == NOFERKASH_EVENT_CUT_SHORT;

    for (less = 0; less < 2 && missing >= less; less++) {
        size_t more = missing - less, i;

        if (more > ROOM - file->length || (in_track && (start == 0 || end > file->length)))
            return;
        mended = *file;
        for (i = 0; i < more; i++)
            splice(&mended, in_track ? end : mended.length, 0, "", 1);
        if (in_track)
            lengthen(&mended, start, more);
        mended_count++;
        if ((answer_to(&mended) == answer) != (less == 1))
            fail(less == 0 ? "what is missing does not mend it"
                           : "less than what is missing mends it");
    }
}

/* With 8 bytes a chunk begins there, though it may be refused for its length; with 7 none does. */
static void begin_chunk(const struct input *file, uint64_t answer, size_t there)
{
    char first[EXPLAIN_ROOM];
    size_t size;

    strcpy(first, words);
    for (size = 7; size <= 8 && file->length + 8 <= ROOM; size++) {
        mended = *file;
        while (mended.length < file->length - there + size)
            splice(&mended, mended.length, 0, "", 1);
        explain(AS_FILE, &mended, answer_to(&mended));
        mended_count++;
        if (answer_to(&mended) == answer && (strstr(words, " to begin") != NULL) != (size == 7))
            fail("another number of bytes begins a chunk");
        if (answer_to(&mended) != answer && size == 7)
            fail("7 bytes begin a chunk");
    }
    strcpy(words, first);
}

/* A track put at the end of the file is the one that is missing. */
static void add_track(const struct input *file, uint64_t answer)
{
    mended = *file;
    splice(&mended, mended.length, 0, "MTrk\0\0\0\4\0\xFF\x2F", 12);
    mended_count++;
    if (NOFERKASH_PLACE(answer) != file->length || answer_to(&mended) == answer)
        fail("no track is missing there");
}

/* The chunks of other kinds are those before the place, whether they are told of or not. */
static void look_at_passed(const struct before *before)
{
    char due[EXPLAIN_ROOM] = "";
    const char *told = strchr(said, ';');

    if (before->others == 1)
        sprintf(due, "; a chunk of another kind was passed over, at byte %lu",
                (unsigned long)before->first);
    else if (before->others > 1)
        sprintf(due, "; %lu chunks of other kinds were passed over, the first at byte %lu",
                (unsigned long)before->others, (unsigned long)before->first);
    mended_count++;
    if (strcmp(told != NULL ? told : "", due) != 0)
        fail("other chunks were passed over");
}

/* Bytes behind the last track: without them the file is good. */
static void cut_rest(const struct input *file, uint64_t answer, size_t there)
{
    mended = *file;
    mended.length = NOFERKASH_PLACE(answer);
    mended_count++;
    if (mended.length + there != file->length ||
        noferkash_check(mended.at, mended.length) != NOFERKASH_OK)
        fail("without these bytes the file is not good");
}

/* One track more than the header counts: it is not too many if the header counts it. */
static void count_track(const struct input *file, uint64_t answer, size_t track, size_t counted)
{
    mended = *file;
    mended.at[9] |= mended.at[9] == 0;
    mended.at[10] = (uint8_t)(track >> 8);
    mended.at[11] = (uint8_t)track;
    mended_count++;
    if (counted != tracks_counted(file) || track > 0xFFFF || answer_to(&mended) == answer)
        fail("the header counts otherwise");
}

/* The tag that is shown. */
static void look_at_tag(const struct input *file, uint64_t answer)
{
    char tag[17], due[64];

    show_bytes(file->at + NOFERKASH_PLACE(answer), 4, 16, tag);
    sprintf(due, "cut short: chunk %s needs ", tag);
    if (strncmp(after_given(), due, strlen(due)) != 0)
        fail("another tag");
}

static void look_at_cut(const struct input *file, uint64_t answer, const struct before *before)
{
    const char *needed = strstr(said, " needs ");
    unsigned long due, there, counted;

    /* Under 14 bytes the header's own length is not looked at yet. */
    if (needed != NULL && file->length >= 14 &&
        sscanf(needed, " needs %lu byte%*[s,] %lu", &due, &there) == 2)
        mend_file(file, answer, due - there);
    else if (needed != NULL && sscanf(needed, " needs 8 bytes to begin, %lu", &there) == 1)
        begin_chunk(file, answer, there);
    if (strncmp(said, "cut short: chunk ", 17) == 0)
        look_at_tag(file, answer);
    if (sscanf(said, "cut short: track %lu of %lu ", &due, &counted) == 2) {
        look_at_passed(before);
        if (counted != tracks_counted(file) || due > counted)
            fail("the header counts otherwise");
    }
    if (strstr(said, " is missing") != NULL)
        add_track(file, answer);
    /* Bytes after the last track; other words have no number there. */
    if (sscanf(said, "cut short: %lu", &there) == 1) {
        begin_chunk(file, answer, there);
        cut_rest(file, answer, there);
    }
}

/* The division: with 25 frames a second, and one tick where none is told, it is not refused. */
static void look_at_division(const struct input *file, uint64_t answer, unsigned long frames)
{
    int no_ticks = strstr(said, " with 0 ticks ") != NULL;

    divisions_told++;
    mended = *file;
    mended.at[12] = 0xE7;
    mended.at[13] |= (uint8_t)(mended.at[13] == 0);
    mended_count++;
    if (NOFERKASH_PLACE(answer) != 12 || frames != 0x100ul - file->at[12] ||
        (no_ticks && file->at[13] != 0) || answer_to(&mended) == answer)
        fail("another division");
    /* Whether it is the rate that is not permitted. */
    mended = *file;
    mended.at[13] = 1;
    if ((answer_to(&mended) == answer) == no_ticks)
        fail("the rate is, or is not, at fault");
}

void look_at_file(const struct input *file, uint64_t answer)
{
    struct before before = count_before(file, NOFERKASH_PLACE(answer));
    int number = NOFERKASH_NUMBER(answer);
    const char *track;
    unsigned long due, counted;

    copy_said(after_given());
    track = strstr(said, "track ");
    /* The track begins at the place, or has begun before it. */
    if (number == NOFERKASH_FILE_CUT_SHORT || number == NOFERKASH_BYTES_AFTER_LAST_TRACK)
        before.tracks++;
    if (track != NULL && sscanf(track, "track %lu", &due) == 1 && due != before.tracks)
        fail("another track");

    if (sscanf(said, "track %*u ends inside an event: %lu byte", &due) == 1 &&
        strstr(said, "or more") == NULL)
        mend_file(file, answer, due);
    else if (sscanf(said, "track %lu, but the header counts %lu", &due, &counted) == 2)
        count_track(file, answer, due, counted);
    else if (sscanf(said, "header length %lu, under 6", &due) == 1 &&
             (due != four_bytes(file->at + 4) || due >= 6))
        fail("another length");
    else if (sscanf(said, "SMPTE time code of %lu frame", &due) == 1)
        look_at_division(file, answer, due);
    else if (strcmp(said, "division 0, not 1..32767") == 0 && (file->at[12] | file->at[13]) != 0)
        fail("another division");
    else if (number == NOFERKASH_FILE_CUT_SHORT)
        look_at_cut(file, answer, &before);
}
