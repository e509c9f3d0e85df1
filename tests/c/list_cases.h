/* Files with the lists of their tracks, all written by hand. */
#ifndef LIST_CASES_H
#define LIST_CASES_H

#include "text_cases.h"

/* The lists are those of End_track Times, events and padding. */
enum { LISTS = 3, MOST_LISTED = 4 };

struct list_case {
    const char *what;
    const char *bytes;
    size_t length;
    /* How long each list is; one of length 0 is NULL. */
    size_t rooms[LISTS];
    int number;
    size_t place;
    /* How many tracks, and what is due in each list. */
    size_t count;
    uint32_t due[LISTS][MOST_LISTED];
};

#define THREE_TRACKS "MThd\0\0\0\6\0\1\0\3\0\x60"
/* End_track at 5, 300 and 0; 1, 3 and 2 events; 0, 1 and 4 bytes of padding. */
#define THREE \
    THREE_TRACKS CHUNK("\4", "\5\xFF\x2F\0") CHUNK("\15", "\x80\0\x90\x3C\x40\0\x3C\0\x82\x2C\xFF\x2F\0") \
        CHUNK("\15", "\x80\x80\0\xFF\1\x80\1t\0\xFF\x2F\x80\0")
#define THREE_LISTED {{5, 300, 0}, {1, 3, 2}, {0, 1, 4}}
#define NONE_LISTED {{0}, {0}, {0}}
/* A track with this delta before its End_track. */
#define DELTA_OF(length, delta) TRACK(length, delta "\xFF\x2F\0")

static const struct list_case list_cases[] = {
    {"the example of document 01", BYTES(SHORT), {1, 1, 1}, NOFERKASH_OK, 0, 1, {{96}, {4}, {0}}},
    {"the example in manner 0", BYTES(FULL), {1, 1, 1}, NOFERKASH_OK, 0, 1, {{96}, {4}, {0}}},
    {"lists longer", BYTES(SHORT), {4, 2, 3}, NOFERKASH_OK, 0, 1, {{96}, {4}, {0}}},
    {"only End_track", BYTES(ONLY_END), {1, 1, 1}, NOFERKASH_OK, 0, 1, {{0}, {1}, {0}}},
    {"three tracks", BYTES(THREE), {3, 3, 3}, NOFERKASH_OK, 0, 3, THREE_LISTED},
    {"three tracks, one list longer", BYTES(THREE), {3, 4, 3}, NOFERKASH_OK, 0, 3, THREE_LISTED},
    {"format 2", BYTES(ONE_OF_FORMAT("\2")), {1, 1, 1}, NOFERKASH_OK, 0, 1, {{0}, {1}, {0}}},
    {"among other chunks", BYTES(AMONG_OTHERS), {1, 1, 1}, NOFERKASH_OK, 0, 1, {{0}, {1}, {0}}},
    {"a longer header that holds a track", BYTES(LONG_HEADER CHUNK("\4", "\7\xFF\x2F\0")),
     {1, 1, 1}, NOFERKASH_OK, 0, 1, {{7}, {1}, {0}}},
    {"other chunks round and between the tracks",
     BYTES(TWO_TRACKS OTHER CHUNK("\5", "\x80" END) HEADER CHUNK("\4", "\7\xFF\x2F\0") OTHER),
     {2, 2, 2}, NOFERKASH_OK, 0, 2, {{0, 7}, {1, 1}, {1, 0}}},
    {"25 frames of 40 ticks", BYTES(ONLY_END_OF("\xE7\x28")), {1, 1, 1}, NOFERKASH_OK, 0, 1,
     {{0}, {1}, {0}}},
    {"every kind of event", BYTES(TRACK("\x90", EVERY_KIND END)), {1, 1, 1}, NOFERKASH_OK, 0, 1,
     {{0}, {29}, {0}}},
    {"greatest Time", BYTES(TRACK("\x64", FOUR_FAR FOUR_FAR FOUR_FAR FOUR_FAR "\x0F\xFF\x2F\0")),
     {1, 1, 1}, NOFERKASH_OK, 0, 1, {{4294967295U}, {17}, {0}}},

    /* The least and the greatest number of each size, and such as are longer than they need be. */
    {"a delta 7F", BYTES(DELTA_OF("\4", "\x7F")), {1, 1, 1}, NOFERKASH_OK, 0, 1, {{127}, {1}, {0}}},
    {"a delta 80 00", BYTES(DELTA_OF("\5", "\x80\0")), {1, 1, 1}, NOFERKASH_OK, 0, 1,
     {{0}, {1}, {1}}},
    {"a delta 80 7F", BYTES(DELTA_OF("\5", "\x80\x7F")), {1, 1, 1}, NOFERKASH_OK, 0, 1,
     {{127}, {1}, {1}}},
    {"a delta 81 00", BYTES(DELTA_OF("\5", "\x81\0")), {1, 1, 1}, NOFERKASH_OK, 0, 1,
     {{128}, {1}, {0}}},
    {"a delta 80 80 00", BYTES(DELTA_OF("\6", "\x80\x80\0")), {1, 1, 1}, NOFERKASH_OK, 0, 1,
     {{0}, {1}, {2}}},
    {"a delta 80 FF 7F", BYTES(DELTA_OF("\6", "\x80\xFF\x7F")), {1, 1, 1}, NOFERKASH_OK, 0, 1,
     {{16383}, {1}, {1}}},
    {"a delta 81 80 00", BYTES(DELTA_OF("\6", "\x81\x80\0")), {1, 1, 1}, NOFERKASH_OK, 0, 1,
     {{16384}, {1}, {0}}},
    {"a delta 80 80 80 00", BYTES(DELTA_OF("\7", "\x80\x80\x80\0")), {1, 1, 1}, NOFERKASH_OK, 0, 1,
     {{0}, {1}, {3}}},
    {"a delta 80 80 81 00", BYTES(DELTA_OF("\7", "\x80\x80\x81\0")), {1, 1, 1}, NOFERKASH_OK, 0, 1,
     {{128}, {1}, {2}}},
    {"a delta 80 FF FF 7F", BYTES(DELTA_OF("\7", "\x80\xFF\xFF\x7F")), {1, 1, 1}, NOFERKASH_OK, 0,
     1, {{2097151}, {1}, {1}}},
    {"a delta 81 80 80 00", BYTES(DELTA_OF("\7", "\x81\x80\x80\0")), {1, 1, 1}, NOFERKASH_OK, 0, 1,
     {{2097152}, {1}, {0}}},
    {"the length 80 00 of End_track", BYTES(TRACK("\5", "\0\xFF\x2F\x80\0")), {1, 1, 1},
     NOFERKASH_OK, 0, 1, {{0}, {1}, {1}}},
    {"the length 80 03 of a Tempo",
     BYTES(TRACK("\14", "\0\xFF\x51\x80\3\0\0\1" END)), {1, 1, 1}, NOFERKASH_OK, 0, 1,
     {{0}, {2}, {1}}},
    {"the length 80 80 02 of a text", BYTES(TRACK("\14", "\0\xFF\1\x80\x80\2\x80\0" END)),
     {1, 1, 1}, NOFERKASH_OK, 0, 1, {{0}, {2}, {2}}},
    {"the lengths of both system exclusive events",
     BYTES(TRACK("\22", "\0\xF0\x80\x80\x80\1\xF7\0\xF7\x80\x80\2\x80\0" END)), {1, 1, 1},
     NOFERKASH_OK, 0, 1, {{0}, {3}, {5}}},
    {"the length 80 00 of an unknown meta event", BYTES(TRACK("\11", "\0\xFF\x60\x80\0" END)),
     {1, 1, 1}, NOFERKASH_OK, 0, 1, {{0}, {2}, {1}}},
    {"delta and length of one event, and a status left out",
     BYTES(TRACK("\24", "\x80\1\xFF\1\x80\0\x80\1\x90\1\1\x80\1\1\1\x80" END)), {1, 1, 1},
     NOFERKASH_OK, 0, 1, {{3}, {4}, {5}}},

    {"each list one short", BYTES(THREE), {2, 2, 2}, NOFERKASH_ROOM_TOO_SMALL, 0, 3, NONE_LISTED},
    {"End_track Times one short", BYTES(THREE), {2, 3, 3}, NOFERKASH_ROOM_TOO_SMALL, 0, 3,
     NONE_LISTED},
    {"events one short", BYTES(THREE), {3, 2, 3}, NOFERKASH_ROOM_TOO_SMALL, 0, 3, NONE_LISTED},
    {"padding one short", BYTES(THREE), {3, 3, 2}, NOFERKASH_ROOM_TOO_SMALL, 0, 3, NONE_LISTED},
    {"no End_track Times", BYTES(SHORT), {0, 1, 1}, NOFERKASH_ROOM_TOO_SMALL, 0, 1, NONE_LISTED},
    {"no events", BYTES(SHORT), {1, 0, 1}, NOFERKASH_ROOM_TOO_SMALL, 0, 1, NONE_LISTED},
    {"no padding", BYTES(SHORT), {4, 4, 0}, NOFERKASH_ROOM_TOO_SMALL, 0, 1, NONE_LISTED},
    {"no lists", BYTES(THREE), {0, 0, 0}, NOFERKASH_ROOM_TOO_SMALL, 0, 3, NONE_LISTED},

    {"empty file", BYTES(""), {4, 4, 4}, NOFERKASH_FILE_CUT_SHORT, 0, 0, NONE_LISTED},
    {"28 frames", BYTES(ONLY_END_OF("\xE4\4")), {4, 4, 4}, NOFERKASH_BAD_HEADER, 12, 0,
     NONE_LISTED},
    {"a delta of five bytes", BYTES(TRACK("\10", "\x80\x80\x80\x80" END)), {1, 1, 1},
     NOFERKASH_VARIABLE_TOO_LONG, 22, 0, NONE_LISTED},
    {"Tempo 0 in the second track",
     BYTES(TWO_TRACKS CHUNK("\4", END) CHUNK("\13", "\0\xFF\x51\3\0\0\0" END)), {2, 2, 2},
     NOFERKASH_BAD_META_VALUE, 34, 0, NONE_LISTED},
    {"a track too many", BYTES(FULL CHUNK("\4", END)), {4, 4, 4}, NOFERKASH_BYTES_AFTER_LAST_TRACK,
     40, 0, NONE_LISTED},
    {"a fault, and no lists", BYTES(FULL "\0"), {0, 0, 0}, NOFERKASH_FILE_CUT_SHORT, 40, 0,
     NONE_LISTED}
};

#endif
