/* Noferkash: Standard MIDI Files to MIDICSV text and back, proved.
 *
 * For Linux on x86-64. Link with -lnoferkash, the shared or the static library;
 * pkg-config knows it as noferkash. noferkash(3) is the manual page.
 *
 * Every answer is one number of 64 bits, number * 2^56 + place * 2^28 + length,
 * which the macros below take apart. The piece of a file or text is what it says:
 * the format, the division, and the events of each track with their Times. The division
 * is the number of pulses in a quarter note, 1..32767, or SMPTE time code: 24, 25, 29
 * or 30 frames a second, of 1..255 ticks each. Times count pulses, or such ticks, and
 * every function takes both kinds. In a file a track is a chunk with the tag MTrk.
 * Chunks with other tags, and what a header has behind its first 14 bytes, are passed
 * over: they are no part of the piece, and no function writes them.
 *
 * What is written goes to buffers of the caller: one of bytes, `out`, or for
 * noferkash_list_tracks three lists of 32-bit numbers, one number for each track.
 *
 * The caller must ensure:
 * - a pointer is valid for as many bytes, or numbers of a list, as the length beside
 *   it says; where that length is 0 it may be NULL;
 * - the input and the buffers of one call do not overlap, and during the call nobody
 *   else writes to the input, or reads or writes a buffer.
 *
 * Promised in return, for all bytes and all lengths:
 * - the call ends, and its answer and what it writes depend on nothing but the
 *   input's bytes, the lengths of the buffers and the manner;
 * - input is read only, nothing outside input and buffers is read or written, and
 *   nothing is kept after the call or allocated in it: any functions may be called
 *   from any number of threads at once, on the same input too;
 * - a refusal writes nothing.
 */
#ifndef NOFERKASH_H
#define NOFERKASH_H

#include <stddef.h>
#include <stdint.h>

/* Of this header. noferkash_version() has that of the library. */
#define NOFERKASH_VERSION "0.7.1"
#define NOFERKASH_VERSION_MAJOR 0
#define NOFERKASH_VERSION_MINOR 7
#define NOFERKASH_VERSION_PATCH 1

/* The largest file, read or written, the largest text read and the largest table, in bytes. */
#define NOFERKASH_FILE_LIMIT 1048576
#define NOFERKASH_TEXT_LIMIT 33554432
#define NOFERKASH_TABLE_LIMIT 268435456

/* 0, or one of the refusal numbers. */
#define NOFERKASH_NUMBER(answer) ((int)((uint64_t)(answer) >> 56))
/* Where a refusal is: a byte of a file from 0 on, a line of a text from 1 on. */
#define NOFERKASH_PLACE(answer) ((size_t)((uint64_t)(answer) >> 28 & 0xFFFFFFF))
/* The length written, in bytes, or of lists in numbers, which is the number of tracks;
 * with NOFERKASH_ROOM_TOO_SMALL the length needed. */
#define NOFERKASH_LENGTH(answer) ((size_t)((uint64_t)(answer) & 0xFFFFFFF))

#ifdef __cplusplus
extern "C" {
#endif

/* After each semicolon stands the place; "chunk" and "event" are the first byte
 * of a chunk, or where one must begin, and of an event's delta. */
enum noferkash_number {
    NOFERKASH_OK = 0,

    /* Of files; places are bytes. */
    NOFERKASH_FILE_TOO_LONG = 1,           /* over 1,048,576 bytes; 0 */
    NOFERKASH_FILE_CUT_SHORT = 2,          /* header, chunk start or chunk past the end; 0 or chunk */
    NOFERKASH_BAD_HEADER = 3,              /* tag, length, format, tracks, division; 0, 4, 8, 10, 12 */
    /* 4 was a chunk of another kind, up to version 0.4. It is never given again. */
    NOFERKASH_VARIABLE_TOO_LONG = 5,       /* variable-length number over four bytes; event */
    NOFERKASH_EVENT_CUT_SHORT = 6,         /* needs a byte past the track's end, or no End_track came; event */
    NOFERKASH_TIME_TOO_GREAT = 7,          /* over 4,294,967,295; event */
    NOFERKASH_BAD_STATUS = 8,              /* no running status, F1..F6, F8..FE, meta over 127; event */
    NOFERKASH_BAD_CHANNEL_DATA = 9,        /* over 127; event */
    NOFERKASH_BAD_META_LENGTH = 10,        /* of a meta event of fixed length; event */
    NOFERKASH_BAD_META_VALUE = 11,         /* out of range; event */
    NOFERKASH_BYTES_AFTER_END_TRACK = 12,  /* in the same track; first such byte */
    NOFERKASH_BYTES_AFTER_LAST_TRACK = 13, /* a track more than the header counts; chunk */

    /* Of the buffer `out`, or of a list; place 0, and the length needed. */
    NOFERKASH_ROOM_TOO_SMALL = 14,

    /* Of texts; places are lines, 0 where the whole is at fault. */
    NOFERKASH_TEXT_TOO_LONG = 21,        /* over 33,554,432 bytes; 0 */
    NOFERKASH_BAD_FIELD = 22,            /* no number, name or text in "straight quotes" */
    NOFERKASH_UNKNOWN_RECORD = 23,       /* third field is no record name */
    NOFERKASH_WRONG_FIELD_COUNT = 24,    /* too many or too few */
    NOFERKASH_FIELD_OUT_OF_RANGE = 25,   /* or of wrong kind */
    NOFERKASH_RECORD_OUT_OF_ORDER = 26,  /* not permitted there, or Time goes backwards */
    NOFERKASH_STEP_TOO_GREAT = 27,       /* gap in Time over 268,435,455 */
    NOFERKASH_TEXT_CUT_SHORT = 28,       /* ends before End_of_file; number of lines + 1 */
    NOFERKASH_WRITTEN_TOO_LONG = 29,     /* file would pass 1,048,576 bytes; 0 */
    NOFERKASH_BAD_MANNER = 30,           /* neither 0 (full) nor 1 (short); 0 */

    /* Of folding; places are bytes. */
    NOFERKASH_TOO_MANY_TRACKS = 31, /* over 64; 10 */
    NOFERKASH_FORMAT_2 = 32,        /* its tracks are pieces of their own; 8 */
    NOFERKASH_PREFIX_OR_PORT = 33,  /* Channel_prefix or MIDI_port in a piece of several tracks; event */
    NOFERKASH_TOO_FEW_ROWS = 37,    /* fewer rows than tracks, which noferkash_fold never answers; 10 */

    /* Of tables that a spreadsheet saved. */
    NOFERKASH_TABLE_TOO_LONG = 38 /* over 268,435,456 bytes; 0 */
};

/* Is this a good file? NOFERKASH_OK, or the earliest fault and its place.
 * Length is always 0. */
uint64_t noferkash_check(const uint8_t *file, size_t file_len);

/* Lists the tracks of the file, in their order, in three lists of 32-bit numbers with
 * one number for each track:
 * - `end_times`: the Time of its End_track;
 * - `event_counts`: how many events it has, End_track included;
 * - `padding`: how many bytes its variable-length numbers take above the fewest, in
 *   all its events together. These numbers are the delta of each event, and of system
 *   exclusive and meta events the length, also where that is fixed. 80 00 in place of
 *   00 is one such byte. noferkash_tidy writes none.
 * The three lengths count numbers, not bytes. NOFERKASH_OK and the number of tracks as
 * length; numbers of a list past it stay. A file has at most 65,535 tracks.
 *
 * Refusals, in this order; each leaves all three lists as they were:
 * - numbers 1 to 13, as noferkash_check answers them;
 * - NOFERKASH_ROOM_TOO_SMALL when any of the lists is shorter than the number of
 *   tracks, which the answer gives. So NULL and 0 for each ask for it. */
uint64_t noferkash_list_tracks(const uint8_t *file, size_t file_len, uint32_t *end_times, size_t end_times_len,
                               uint32_t *event_counts, size_t event_counts_len, uint32_t *padding, size_t padding_len);

/* Writes the text of the file's piece into the buffer `out`: MIDICSV records, each
 * ended by LF, no NUL after them. NOFERKASH_OK and the length written; bytes of `out`
 * past it stay. A file of n bytes has at most 25 * n bytes of text, and with a
 * buffer of that size nothing is measured first.
 *
 * Refusals, in this order; each leaves all of `out` as it was:
 * - numbers 1 to 13, as noferkash_check answers them;
 * - NOFERKASH_ROOM_TOO_SMALL when out_len is under the length needed, which the
 *   answer gives. So NULL and out_len 0 ask for it. */
uint64_t noferkash_file_to_text(const uint8_t *file, size_t file_len, uint8_t *out, size_t out_len);

/* Writes the file of the text's piece into the buffer `out`. Manner 0 (full)
 * writes every status byte, manner 1 (short) leaves one out wherever permitted;
 * every variable-length number takes the fewest bytes. NOFERKASH_OK and the length
 * written; bytes of `out` past it stay. The text of an accepted file comes back as
 * a file of the same piece, unless it is too long in manner 0 (29). A file made
 * here is accepted and has the text's piece.
 *
 * Refusals, in this order; each leaves all of `out` as it was:
 * - NOFERKASH_BAD_MANNER for every manner but 0 and 1;
 * - NOFERKASH_TEXT_TOO_LONG over 33,554,432 bytes;
 * - numbers 22 to 28, the first in the order of the lines, with its line;
 * - NOFERKASH_WRITTEN_TOO_LONG when the file would pass 1,048,576 bytes;
 * - NOFERKASH_ROOM_TOO_SMALL when out_len is under the length needed, which the
 *   answer gives. So NULL and out_len 0 ask for it. */
uint64_t noferkash_text_to_file(const uint8_t *text, size_t text_len, uint32_t manner, uint8_t *out, size_t out_len);

/* Writes the file's piece again into the buffer `out` in manner 1 (short): a
 * status byte left out wherever permitted, every variable-length number in the
 * fewest bytes. NOFERKASH_OK and the length written; bytes of `out` past it stay.
 * The length is never above file_len, so a buffer of file_len bytes is always enough.
 * No other file of the piece is as short: a file that comes back as long as it was
 * comes back with its very bytes, and a tidied file tidies to itself.
 *
 * Refusals, in this order; each leaves all of `out` as it was:
 * - numbers 1 to 13, as noferkash_check answers them;
 * - NOFERKASH_WRITTEN_TOO_LONG, should the tidied file pass 1,048,576 bytes;
 * - NOFERKASH_ROOM_TOO_SMALL when out_len is under the length needed, which the
 *   answer gives. So NULL and out_len 0 ask for it. */
uint64_t noferkash_tidy(const uint8_t *file, size_t file_len, uint8_t *out, size_t out_len);

/* Folds the tracks of a file of format 0 or 1 into one: writes its folded piece
 * into the buffer `out`, in manner 1 (short). The folded piece has format 0, the
 * same division and one track: the events of all tracks by Time, at equal Times by
 * track number, then in their own order. The End_tracks give way to one at the
 * greatest of their Times; every other event appears exactly once. NOFERKASH_OK and
 * the length written; bytes of `out` past it stay.
 *
 * The folded file is accepted, and its piece is the folded piece. Folding it again
 * gives its very bytes. A file of format 0 comes back as noferkash_tidy writes it. No
 * gap in the folded track passes 268,435,455, so nothing is refused for that.
 *
 * Refusals, in this order; each leaves all of `out` as it was:
 * - numbers 1 to 13, as noferkash_check answers them;
 * - NOFERKASH_FORMAT_2;
 * - NOFERKASH_TOO_MANY_TRACKS over 64;
 * - NOFERKASH_PREFIX_OR_PORT at the first Channel_prefix or MIDI_port of a file of
 *   several tracks: such an event speaks of the rest of its own track, which
 *   folding would mix with the others;
 * - NOFERKASH_WRITTEN_TOO_LONG when the folded file would pass 1,048,576 bytes. It may
 *   be longer than the file: between events of other tracks a status byte has to be
 *   written that was left out before;
 * - NOFERKASH_ROOM_TOO_SMALL when out_len is under the length needed, which the
 *   answer gives. So NULL and out_len 0 ask for it.
 * NOFERKASH_TOO_FEW_ROWS never comes: here is a row for each of 64 tracks. */
uint64_t noferkash_fold(const uint8_t *file, size_t file_len, uint8_t *out, size_t out_len);

/* Writes the sheet form of the file's piece into the buffer `out`: its text, spelled as a
 * table that a spreadsheet opens and in which it finds nothing to change. Fields are joined
 * by a comma without a blank, and what in a text might be taken for a number, a date, a
 * formula or a boolean stands as a backslash and three octal digits (docs/SPREADSHEET.md).
 * noferkash_text_to_file reads it, as a text of the same piece. NOFERKASH_OK and the length
 * written; bytes of `out` past it stay. The sheet form of a file of n bytes has at most
 * 23 * n bytes.
 *
 * Refusals, in this order; each leaves all of `out` as it was:
 * - numbers 1 to 13, as noferkash_check answers them;
 * - NOFERKASH_ROOM_TOO_SMALL when out_len is under the length needed, which the
 *   answer gives. So NULL and out_len 0 ask for it. */
uint64_t noferkash_file_to_sheet(const uint8_t *file, size_t file_len, uint8_t *out, size_t out_len);

/* Writes the text of a table that a spreadsheet saved into the buffer `out`: line n of
 * the text is row n of the table. Separators (commas, semicolons or tabs), quotes, a byte
 * order mark, CR before LF and empty cells are taken as spreadsheets write them
 * (docs/SPREADSHEET.md). There is a text of any bytes whatever, and no row is refused
 * here: noferkash_text_to_file refuses it, at that line. NOFERKASH_OK and the length
 * written; bytes of `out` past it stay. The text of a table of n bytes has at most
 * 2 * n + 2 bytes.
 *
 * Refusals, in this order; each leaves all of `out` as it was:
 * - NOFERKASH_TABLE_TOO_LONG over 268,435,456 bytes;
 * - NOFERKASH_TEXT_TOO_LONG when the text would pass 33,554,432 bytes;
 * - NOFERKASH_ROOM_TOO_SMALL when out_len is under the length needed, which the
 *   answer gives. So NULL and out_len 0 ask for it; only a table of no bytes, or of a
 *   byte order mark alone, has an empty text, which fits there. */
uint64_t noferkash_sheet_to_text(const uint8_t *saved, size_t saved_len, uint8_t *out, size_t out_len);

/* The two functions below are plain C, tested and not proved. The strings that they
 * return are never NULL and must not be freed. */

/* The meaning of a number in a few words, as "bytes after End_track in the
 * track"; for every other number "unknown refusal number". */
const char *noferkash_refusal_words(int number);

/* The version of the library, as "0.7.1". */
const char *noferkash_version(void);

#ifdef __cplusplus
}
#endif

#endif
