/* Files written by hand, and the answers due to them. Texts and tables are in text_cases.h. */
#ifndef CASES_H
#define CASES_H

#include "noferkash.h"

#define LIMIT 1048576
#define TEXT_LIMIT (25 * LIMIT)
#define READ_LIMIT 33554432
#define TABLE_LIMIT 268435456

#define HEADER_OF(division) "MThd\0\0\0\6\0\0\0\1" division
#define HEADER HEADER_OF("\0\x60")
#define CHUNK(length, body) "MTrk\0\0\0" length body
/* The length goes up to 255; the body begins at byte 22. */
#define TRACK(length, body) HEADER CHUNK(length, body)
#define END "\0\xFF\x2F\0"
/* The smallest file with such a division. */
#define ONLY_END_OF(division) HEADER_OF(division) CHUNK("\4", END)
/* A chunk of another kind, of 12 bytes, and a header of 26 that holds a track's bytes. */
#define OTHER "XFIH\0\0\0\4" END
#define LONG_HEADER "MThd\0\0\0\x12\0\0\0\1\0\x60" CHUNK("\4", END)
#define FAR "\xFF\xFF\xFF\x7F\xC0\0"
#define FOUR_FAR FAR FAR FAR FAR

struct file_case {
    const char *what;
    const char *bytes;
    size_t length;
    int number;
    size_t place;
};

/* The length of a string constant, without the 0 that C puts after it. */
#define BYTES(constant) constant, sizeof(constant) - 1

static const struct file_case cases[] = {
    {"the example of document 01",
     BYTES(TRACK("\x11", "\0\xFF\3\2\x41\x22\0\x90\x3C\x40\x60\x3C\0" END)), NOFERKASH_OK, 0},
    {"only End_track", BYTES(TRACK("\4", END)), NOFERKASH_OK, 0},
    {"a padded delta", BYTES(TRACK("\7", "\x80\x80\x80" END)), NOFERKASH_OK, 0},
    {"empty file", BYTES(""), NOFERKASH_FILE_CUT_SHORT, 0},
    {"13 bytes", "MThd\0\0\0\6\0\0\0\1\0", 13, NOFERKASH_FILE_CUT_SHORT, 0},
    {"no track", BYTES(HEADER), NOFERKASH_FILE_CUT_SHORT, 14},
    {"track length past the end", BYTES(TRACK("\5", END)), NOFERKASH_FILE_CUT_SHORT, 14},
    {"header tag", BYTES("MThe\0\0\0\6\0\0\0\1\0\x60"), NOFERKASH_BAD_HEADER, 0},
    {"header length", BYTES("MThd\0\0\0\5\0\3\0\0\0\0"), NOFERKASH_BAD_HEADER, 4},
    {"header past the end, and format 3", BYTES("MThd\0\0\0\7\0\3\0\1\0\x60"),
     NOFERKASH_FILE_CUT_SHORT, 0},
    {"header far past the end", BYTES("MThd\xFF\xFF\xFF\xFF\0\0\0\1\0\x60" CHUNK("\4", END)),
     NOFERKASH_FILE_CUT_SHORT, 0},
    {"a longer header of format 3", BYTES("MThd\0\0\0\7\0\3\0\1\0\x60M"), NOFERKASH_BAD_HEADER, 8},
    {"a longer header alone", BYTES(LONG_HEADER), NOFERKASH_FILE_CUT_SHORT, 26},
    {"a longer header", BYTES(LONG_HEADER CHUNK("\4", END)), NOFERKASH_OK, 0},
    {"format 3", BYTES("MThd\0\0\0\6\0\3\0\1\0\x60"), NOFERKASH_BAD_HEADER, 8},
    {"format 0 with 2 tracks", BYTES("MThd\0\0\0\6\0\0\0\2\0\x60"), NOFERKASH_BAD_HEADER, 10},
    {"division 0", BYTES(ONLY_END_OF("\0\0")), NOFERKASH_BAD_HEADER, 12},
    {"division 1", BYTES(ONLY_END_OF("\0\1")), NOFERKASH_OK, 0},
    {"division 32767", BYTES(ONLY_END_OF("\x7F\xFF")), NOFERKASH_OK, 0},
    {"128 frames", BYTES(ONLY_END_OF("\x80\x28")), NOFERKASH_BAD_HEADER, 12},
    {"1 frame", BYTES(ONLY_END_OF("\xFF\xFF")), NOFERKASH_BAD_HEADER, 12},
    {"31 frames", BYTES(ONLY_END_OF("\xE1\x28")), NOFERKASH_BAD_HEADER, 12},
    {"30 frames of 255 ticks", BYTES(ONLY_END_OF("\xE2\xFF")), NOFERKASH_OK, 0},
    {"30 frames of no tick", BYTES(ONLY_END_OF("\xE2\0")), NOFERKASH_BAD_HEADER, 12},
    {"29 frames of 4 ticks", BYTES(ONLY_END_OF("\xE3\4")), NOFERKASH_OK, 0},
    {"29 frames of no tick", BYTES(ONLY_END_OF("\xE3\0")), NOFERKASH_BAD_HEADER, 12},
    {"28 frames", BYTES(ONLY_END_OF("\xE4\x28")), NOFERKASH_BAD_HEADER, 12},
    {"26 frames", BYTES(ONLY_END_OF("\xE6\x28")), NOFERKASH_BAD_HEADER, 12},
    {"25 frames of 40 ticks", BYTES(ONLY_END_OF("\xE7\x28")), NOFERKASH_OK, 0},
    {"25 frames of no tick", BYTES(ONLY_END_OF("\xE7\0")), NOFERKASH_BAD_HEADER, 12},
    {"24 frames of 1 tick", BYTES(ONLY_END_OF("\xE8\1")), NOFERKASH_OK, 0},
    {"24 frames of 255 ticks", BYTES(ONLY_END_OF("\xE8\xFF")), NOFERKASH_OK, 0},
    {"24 frames of no tick", BYTES(ONLY_END_OF("\xE8\0")), NOFERKASH_BAD_HEADER, 12},
    {"23 frames", BYTES(ONLY_END_OF("\xE9\x28")), NOFERKASH_BAD_HEADER, 12},
    {"26 frames, and no track", BYTES(HEADER_OF("\xE6\x28")), NOFERKASH_BAD_HEADER, 12},
    {"25 frames, and no track", BYTES(HEADER_OF("\xE7\x28")), NOFERKASH_FILE_CUT_SHORT, 14},
    {"no track but another chunk", BYTES(HEADER OTHER), NOFERKASH_FILE_CUT_SHORT, 26},
    {"another chunk, then 7 bytes", BYTES(HEADER OTHER "MTrk\0\0\0"), NOFERKASH_FILE_CUT_SHORT, 26},
    {"another chunk past the end", BYTES(HEADER "XFIH\0\0\0\5" END), NOFERKASH_FILE_CUT_SHORT, 14},
    {"another chunk before the track", BYTES(HEADER OTHER CHUNK("\4", END)), NOFERKASH_OK, 0},
    {"a second header, and a track inside a chunk",
     BYTES(HEADER HEADER "MTrl\0\0\0\14" CHUNK("\4", END) CHUNK("\4", END)), NOFERKASH_OK, 0},
    {"a fault behind another chunk", BYTES(HEADER OTHER CHUNK("\5", END "\0")),
     NOFERKASH_BYTES_AFTER_END_TRACK, 38},
    {"delta of five bytes", BYTES(TRACK("\10", "\x80\x80\x80\x80" END)),
     NOFERKASH_VARIABLE_TOO_LONG, 22},
    {"no End_track", BYTES(TRACK("\4", "\0\x90\x3C\x40")), NOFERKASH_EVENT_CUT_SHORT, 26},
    {"Time too great",
     BYTES(TRACK("\x64", FOUR_FAR FOUR_FAR FOUR_FAR FOUR_FAR "\x10\xFF\x2F\0")),
     NOFERKASH_TIME_TOO_GREAT, 118},
    {"greatest Time", BYTES(TRACK("\x64", FOUR_FAR FOUR_FAR FOUR_FAR FOUR_FAR "\x0F\xFF\x2F\0")),
     NOFERKASH_OK, 0},
    {"no status in force", BYTES(TRACK("\7", "\0\x3C\x40" END)), NOFERKASH_BAD_STATUS, 22},
    {"channel data over 127", BYTES(TRACK("\10", "\0\x90\x3C\x80" END)),
     NOFERKASH_BAD_CHANNEL_DATA, 22},
    {"End_track of length 1", BYTES(TRACK("\5", "\0\xFF\x2F\1\0")), NOFERKASH_BAD_META_LENGTH, 22},
    {"Tempo 0", BYTES(TRACK("\13", "\0\xFF\x51\3\0\0\0" END)), NOFERKASH_BAD_META_VALUE, 22},
    {"byte after End_track", BYTES(TRACK("\5", END "\0")), NOFERKASH_BYTES_AFTER_END_TRACK, 26},
    {"byte after the last track", BYTES(TRACK("\4", END "\0")), NOFERKASH_FILE_CUT_SHORT, 26},
    {"7 bytes after the last track", BYTES(TRACK("\4", END "MTrk\0\0\0")),
     NOFERKASH_FILE_CUT_SHORT, 26},
    {"another chunk after the last track", BYTES(TRACK("\4", END OTHER)), NOFERKASH_OK, 0},
    {"two chunks after it, the second past the end",
     BYTES(TRACK("\4", END OTHER "XFIH\0\0\0\5" END)), NOFERKASH_FILE_CUT_SHORT, 38},
    {"a track too many", BYTES(TRACK("\4", END CHUNK("\4", END))),
     NOFERKASH_BYTES_AFTER_LAST_TRACK, 26},
    {"a track too many, past the end", BYTES(TRACK("\4", END "MTrk\xFF\xFF\xFF\xFF")),
     NOFERKASH_BYTES_AFTER_LAST_TRACK, 26},
    {"a track too many behind another chunk", BYTES(TRACK("\4", END OTHER CHUNK("\4", END))),
     NOFERKASH_BYTES_AFTER_LAST_TRACK, 38}
};

/* A file, the room lent for it, and the answer due. With 0 the bytes of `due`
 * are written; 14 writes none but has their length. */
struct written_case {
    const char *what;
    const char *bytes;
    size_t length;
    size_t room;
    int number;
    size_t place;
    const char *due;
    size_t due_length;
};

/* The example of document 01 in both manners, 40 and 39 bytes. */
#define FULL TRACK("\x12", "\0\xFF\3\2\x41\x22\0\x90\x3C\x40\x60\x90\x3C\0" END)
#define SHORT TRACK("\x11", "\0\xFF\3\2\x41\x22\0\x90\x3C\x40\x60\x3C\0" END)
#define ONLY_END ONLY_END_OF("\0\x60")
#define AMONG_OTHERS LONG_HEADER OTHER CHUNK("\4", END) OTHER HEADER
#define TWO_TRACKS "MThd\0\0\0\6\0\1\0\2\0\x60"
/* A refusal other than 14 has the length 0. */
#define NOTHING "", 0

static const struct written_case tidy_cases[] = {
    {"manner 0 becomes manner 1", BYTES(FULL), 39, NOFERKASH_OK, 0, BYTES(SHORT)},
    {"room larger", BYTES(FULL), 50, NOFERKASH_OK, 0, BYTES(SHORT)},
    {"room one short", BYTES(FULL), 38, NOFERKASH_ROOM_TOO_SMALL, 0, BYTES(SHORT)},
    {"room of one byte", BYTES(FULL), 1, NOFERKASH_ROOM_TOO_SMALL, 0, BYTES(SHORT)},
    {"room of none", BYTES(FULL), 0, NOFERKASH_ROOM_TOO_SMALL, 0, BYTES(SHORT)},
    {"manner 1 stays", BYTES(SHORT), 39, NOFERKASH_OK, 0, BYTES(SHORT)},
    {"a delta 80 00", BYTES(TRACK("\5", "\x80" END)), 26, NOFERKASH_OK, 0, BYTES(ONLY_END)},
    {"a delta of four bytes", BYTES(TRACK("\7", "\x80\x80\x80" END)), 26, NOFERKASH_OK, 0,
     BYTES(ONLY_END)},
    {"a delta 80 81 00", BYTES(TRACK("\6", "\x80\x81\0\xFF\x2F\0")), 30, NOFERKASH_OK, 0,
     BYTES(TRACK("\5", "\x81\0\xFF\x2F\0"))},
    {"the length 80 00 of End_track", BYTES(TRACK("\5", "\0\xFF\x2F\x80\0")), 26, NOFERKASH_OK, 0,
     BYTES(ONLY_END)},
    {"the length 80 80 02 of a text", BYTES(TRACK("\14", "\0\xFF\1\x80\x80\2\x80\0" END)), 32,
     NOFERKASH_OK, 0, BYTES(TRACK("\12", "\0\xFF\1\2\x80\0" END))},
    {"the status of another channel", BYTES(TRACK("\14", "\0\x90\x3C\x40\0\x91\x3C\x40" END)), 34,
     NOFERKASH_OK, 0, BYTES(TRACK("\14", "\0\x90\x3C\x40\0\x91\x3C\x40" END))},
    {"the status after a meta event",
     BYTES(TRACK("\20", "\0\x90\x3C\x40\0\xFF\1\0\0\x90\x3C\0" END)), 38, NOFERKASH_OK, 0,
     BYTES(TRACK("\20", "\0\x90\x3C\x40\0\xFF\1\0\0\x90\x3C\0" END))},
    {"the status after a system exclusive event",
     BYTES(TRACK("\17", "\0\x90\x3C\x40\0\xF0\0\0\x90\x3C\0" END)), 37, NOFERKASH_OK, 0,
     BYTES(TRACK("\17", "\0\x90\x3C\x40\0\xF0\0\0\x90\x3C\0" END))},
    {"the status in the next track",
     BYTES(TWO_TRACKS CHUNK("\10", "\0\x90\x3C\x40" END)
           CHUNK("\14", "\0\x90\x3C\0\0\x90\x3C\0" END)), 60, NOFERKASH_OK, 0,
     BYTES(TWO_TRACKS CHUNK("\10", "\0\x90\x3C\x40" END)
           CHUNK("\13", "\0\x90\x3C\0\0\x3C\0" END))},
    {"a longer header and other chunks are left out", BYTES(AMONG_OTHERS), 26, NOFERKASH_OK, 0,
     BYTES(ONLY_END)},
    {"the same in room one short", BYTES(AMONG_OTHERS), 25, NOFERKASH_ROOM_TOO_SMALL, 0,
     BYTES(ONLY_END)},
    {"25 frames of 40 ticks stay", BYTES(HEADER_OF("\xE7\x28") CHUNK("\5", "\x80" END)), 26,
     NOFERKASH_OK, 0, BYTES(ONLY_END_OF("\xE7\x28"))},
    {"30 frames of 255 ticks stay", BYTES(ONLY_END_OF("\xE2\xFF")), 40, NOFERKASH_OK, 0,
     BYTES(ONLY_END_OF("\xE2\xFF"))},

    {"empty file", BYTES(""), 40, NOFERKASH_FILE_CUT_SHORT, 0, NOTHING},
    {"25 frames of no tick", BYTES(ONLY_END_OF("\xE7\0")), 40, NOFERKASH_BAD_HEADER, 12, NOTHING},
    {"Tempo 0 after notes",
     BYTES(TRACK("\23", "\0\x90\x3C\x40\0\x90\x3C\0\0\xFF\x51\3\0\0\0" END)), 60,
     NOFERKASH_BAD_META_VALUE, 30, NOTHING},
    {"a track too many", BYTES(FULL CHUNK("\4", END)), 60, NOFERKASH_BYTES_AFTER_LAST_TRACK, 40,
     NOTHING},
    {"a fault, and no room", BYTES(FULL "\0"), 0, NOFERKASH_FILE_CUT_SHORT, 40, NOTHING}
};

#define ONE_OF_FORMAT(format) "MThd\0\0\0\6\0" format "\0\1\0\x60" CHUNK("\4", END)
/* Two notes at Time 5, of track 1 in their own order, then one of track 2. */
#define TIES TWO_TRACKS CHUNK("\13", "\5\x90\3\1\0\2\1" END) CHUNK("\10", "\5\x90\1\1" END)
#define TIES_FOLDED TRACK("\16", "\5\x90\3\1\0\2\1\0\1\1" END)
#define PORT "\0\xFF\x21\1\5"
#define PREFIX "\0\xFF\x20\1\5"

static const struct written_case fold_cases[] = {
    {"equal Times, one status", BYTES(TIES), 36, NOFERKASH_OK, 0, BYTES(TIES_FOLDED)},
    {"room larger", BYTES(TIES), 50, NOFERKASH_OK, 0, BYTES(TIES_FOLDED)},
    {"room one short", BYTES(TIES), 35, NOFERKASH_ROOM_TOO_SMALL, 0, BYTES(TIES_FOLDED)},
    {"room of one byte", BYTES(TIES), 1, NOFERKASH_ROOM_TOO_SMALL, 0, BYTES(TIES_FOLDED)},
    {"room of none", BYTES(TIES), 0, NOFERKASH_ROOM_TOO_SMALL, 0, BYTES(TIES_FOLDED)},
    {"equal Times, statuses of their own",
     BYTES(TWO_TRACKS CHUNK("\10", "\0\x91\x3C\x40" END) CHUNK("\10", "\0\x90\x3C\x40" END)), 34,
     NOFERKASH_OK, 0, BYTES(TRACK("\14", "\0\x91\x3C\x40\0\x90\x3C\x40" END))},
    {"notes in turn",
     BYTES(TWO_TRACKS CHUNK("\13", "\0\x90\x3C\x40\2\x3C\0" END)
           CHUNK("\13", "\1\x91\x3C\x40\2\x3C\0" END)), 42, NOFERKASH_OK, 0,
     BYTES(TRACK("\24", "\0\x90\x3C\x40\1\x91\x3C\x40\1\x90\x3C\0\1\x91\x3C\0" END))},
    {"a meta event of another track between notes",
     BYTES(TWO_TRACKS CHUNK("\13", "\0\x90\x3C\x40\2\x3C\0" END) CHUNK("\10", "\1\xFF\1\0" END)),
     38, NOFERKASH_OK, 0,
     BYTES(TRACK("\20", "\0\x90\x3C\x40\1\xFF\1\0\1\x90\x3C\0" END))},
    {"End_track at the greatest Time, which is track 1's",
     BYTES(TWO_TRACKS CHUNK("\5", "\x83\x60\xFF\x2F\0") CHUNK("\10", "\0\x90\x3C\x40" END)), 31,
     NOFERKASH_OK, 0, BYTES(TRACK("\11", "\0\x90\x3C\x40\x83\x60\xFF\x2F\0"))},
    {"format 0 is tidied", BYTES(FULL), 39, NOFERKASH_OK, 0, BYTES(SHORT)},
    {"format 1 of one track", BYTES(ONE_OF_FORMAT("\1")), 26, NOFERKASH_OK, 0, BYTES(ONLY_END)},
    {"MIDI_port in one track", BYTES(TRACK("\11", PORT END)), 31, NOFERKASH_OK, 0,
     BYTES(TRACK("\11", PORT END))},
    {"other chunks round and between the tracks",
     BYTES(TWO_TRACKS OTHER CHUNK("\13", "\5\x90\3\1\0\2\1" END) HEADER
           CHUNK("\10", "\5\x90\1\1" END) OTHER), 36, NOFERKASH_OK, 0, BYTES(TIES_FOLDED)},
    {"29 frames of 4 ticks",
     BYTES("MThd\0\0\0\6\0\1\0\2\xE3\4" CHUNK("\4", END) CHUNK("\10", "\5\x90\1\1" END)), 40,
     NOFERKASH_OK, 0, BYTES(HEADER_OF("\xE3\4") CHUNK("\10", "\5\x90\1\1" END))},

    {"format 2", BYTES(ONE_OF_FORMAT("\2")), 60, NOFERKASH_FORMAT_2, 8, NOTHING},
    {"format 2, no room", BYTES(ONE_OF_FORMAT("\2")), 0, NOFERKASH_FORMAT_2, 8, NOTHING},
    {"Channel_prefix in track 2",
     BYTES(TWO_TRACKS CHUNK("\4", END) CHUNK("\11", PREFIX END)), 60,
     NOFERKASH_PREFIX_OR_PORT, 34, NOTHING},
    {"MIDI_port in track 1, later than Channel_prefix in track 2",
     BYTES(TWO_TRACKS CHUNK("\15", "\5\x90\3\1" PORT END) CHUNK("\11", PREFIX END)), 60,
     NOFERKASH_PREFIX_OR_PORT, 26, NOTHING},
    {"MIDI_port in track 2 behind another chunk",
     BYTES(TWO_TRACKS CHUNK("\4", END) OTHER CHUNK("\11", PORT END)), 60,
     NOFERKASH_PREFIX_OR_PORT, 46, NOTHING},
    {"MIDI_port, and no room", BYTES(TWO_TRACKS CHUNK("\11", PORT END) CHUNK("\4", END)), 0,
     NOFERKASH_PREFIX_OR_PORT, 22, NOTHING},
    {"empty file", BYTES(""), 40, NOFERKASH_FILE_CUT_SHORT, 0, NOTHING},
    {"28 frames", BYTES(ONLY_END_OF("\xE4\4")), 60, NOFERKASH_BAD_HEADER, 12, NOTHING},
    {"Tempo 0 after a MIDI_port",
     BYTES(TWO_TRACKS CHUNK("\11", PORT END) CHUNK("\13", "\0\xFF\x51\3\0\0\0" END)), 60,
     NOFERKASH_BAD_META_VALUE, 39, NOTHING},
    {"byte after the last track of format 2", BYTES(ONE_OF_FORMAT("\2") "\0"), 60,
     NOFERKASH_FILE_CUT_SHORT, 26, NOTHING}
};

#endif
