/* Words for the refusal numbers, for people. No program should compare them. */
#include "noferkash.h"

static const char *const words[] = {
    [NOFERKASH_OK] = "no refusal",

    [NOFERKASH_FILE_TOO_LONG] = "file over 1,048,576 bytes",
    [NOFERKASH_FILE_CUT_SHORT] = "file cut short: it ends before its header, a track or "
                                 "another chunk is whole",
    [NOFERKASH_BAD_HEADER] = "header tag, length, format, number of tracks or division "
                             "not permitted",
    [NOFERKASH_VARIABLE_TOO_LONG] = "variable-length number over four bytes",
    [NOFERKASH_EVENT_CUT_SHORT] = "track ends inside an event or before End_track",
    [NOFERKASH_TIME_TOO_GREAT] = "Time over 4,294,967,295",
    [NOFERKASH_BAD_STATUS] = "no running status, or a status or meta type not permitted",
    [NOFERKASH_BAD_CHANNEL_DATA] = "channel data byte over 127",
    [NOFERKASH_BAD_META_LENGTH] = "meta event of wrong length",
    [NOFERKASH_BAD_META_VALUE] = "value of a meta event out of range",
    [NOFERKASH_BYTES_AFTER_END_TRACK] = "bytes after End_track in the track",
    [NOFERKASH_BYTES_AFTER_LAST_TRACK] = "a track more than the header counts",

    [NOFERKASH_ROOM_TOO_SMALL] = "buffer or list too small",

    [NOFERKASH_TEXT_TOO_LONG] = "text over 33,554,432 bytes",
    [NOFERKASH_BAD_FIELD] = "field is no number, name or text in \"straight quotes\"",
    [NOFERKASH_UNKNOWN_RECORD] = "third field is no record name",
    [NOFERKASH_WRONG_FIELD_COUNT] = "wrong number of fields",
    [NOFERKASH_FIELD_OUT_OF_RANGE] = "field of wrong kind or outside its range",
    [NOFERKASH_RECORD_OUT_OF_ORDER] = "record not permitted there, or Time goes backwards",
    [NOFERKASH_STEP_TOO_GREAT] = "gap in Time over 268,435,455",
    [NOFERKASH_TEXT_CUT_SHORT] = "text ends before End_of_file",
    [NOFERKASH_WRITTEN_TOO_LONG] = "written file would pass 1,048,576 bytes",
    [NOFERKASH_BAD_MANNER] = "manner neither 0 (full) nor 1 (short)",

    [NOFERKASH_TOO_MANY_TRACKS] = "more than 64 tracks cannot be folded",
    [NOFERKASH_FORMAT_2] = "format 2 cannot be folded",
    [NOFERKASH_PREFIX_OR_PORT] = "tracks with Channel_prefix or MIDI_port cannot be folded",
    [NOFERKASH_TOO_FEW_ROWS] = "fewer rows than tracks to fold",

    [NOFERKASH_TABLE_TOO_LONG] = "table over 268,435,456 bytes",
};

const char *noferkash_refusal_words(int number) {
    int known = number >= 0 && (size_t)number < sizeof words / sizeof words[0];
    return known && words[number] != NULL ? words[number] : "unknown refusal number";
}
