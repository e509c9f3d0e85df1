/* Files with their texts and sheets, texts and tables, all written by hand, and the answers due to
 * them. */
#ifndef TEXT_CASES_H
#define TEXT_CASES_H

#include "cases.h"

/* In the texts below a quote or a backslash stands as C has it. */
#define HEADER_LINE "0, 0, Header, 0, 1, 96\n"
#define START_LINE "1, 0, Start_track\n"
#define END_LINES "1, 0, End_track\n0, 0, End_of_file\n"
#define TEXT(lines) HEADER_LINE START_LINE lines END_LINES
/* The text of ONLY_END_OF, by its division. */
#define TEXT_OF(division) "0, 0, Header, 0, 1, " division "\n" START_LINE END_LINES
#define EXAMPLE_TEXT \
    HEADER_LINE START_LINE "1, 0, Title_t, \"A\"\"\"\n1, 0, Note_on_c, 0, 60, 64\n" \
    "1, 96, Note_on_c, 0, 60, 0\n1, 96, End_track\n0, 0, End_of_file\n"
/* One event of each kind, End_track excepted, and each of the seven texts. */
#define EVERY_KIND \
    "\0\x80\0\x7F" "\0\x91\x3C\0" "\0\xA2\1\2" "\0\xB3\7\x64" "\0\xC4\x7F" "\0\xD5\0" \
    "\0\xE6\0\x40" "\0\x7F\x7F" "\0\xF0\3\x43\x12\xF7" "\0\xF7\1\xFF" \
    "\0\xFF\0\2\xFF\xFE" "\0\xFF\1\1t" "\0\xFF\2\1c" "\0\xFF\3\1n" "\0\xFF\4\1i" "\0\xFF\5\1l" \
    "\0\xFF\6\1m" "\0\xFF\7\0" "\0\xFF\x20\1\xFF" "\0\xFF\x21\1\x10" "\0\xFF\x51\3\x0B\x71\xB0" \
    "\0\xFF\x54\5\xFF\0\1\2\x63" "\0\xFF\x58\4\6\3\x24\x08" "\0\xFF\x59\2\xFD\1" \
    "\0\xFF\x59\2\7\0" "\0\xFF\x7F\2\0\x0A" "\0\xFF\x60\0" "\0\xFF\x08\1\x64"
#define EVERY_KIND_LINES \
    "1, 0, Note_off_c, 0, 0, 127\n1, 0, Note_on_c, 1, 60, 0\n1, 0, Poly_aftertouch_c, 2, 1, 2\n" \
    "1, 0, Control_c, 3, 7, 100\n1, 0, Program_c, 4, 127\n1, 0, Channel_aftertouch_c, 5, 0\n" \
    "1, 0, Pitch_bend_c, 6, 8192\n1, 0, Pitch_bend_c, 6, 16383\n" \
    "1, 0, System_exclusive, 3, 67, 18, 247\n1, 0, System_exclusive_packet, 1, 255\n" \
    "1, 0, Sequence_number, 65534\n1, 0, Text_t, \"t\"\n1, 0, Copyright_t, \"c\"\n" \
    "1, 0, Title_t, \"n\"\n1, 0, Instrument_name_t, \"i\"\n1, 0, Lyric_t, \"l\"\n" \
    "1, 0, Marker_t, \"m\"\n1, 0, Cue_point_t, \"\"\n1, 0, Channel_prefix, 255\n" \
    "1, 0, MIDI_port, 16\n1, 0, Tempo, 750000\n1, 0, SMPTE_offset, 255, 0, 1, 2, 99\n" \
    "1, 0, Time_signature, 6, 3, 36, 8\n1, 0, Key_signature, -3, \"minor\"\n" \
    "1, 0, Key_signature, 7, \"major\"\n1, 0, Sequencer_specific, 2, 0, 10\n" \
    "1, 0, Unknown_meta_event, 96, 0\n1, 0, Unknown_meta_event, 8, 1, 100\n"
#define FAR_LINE(time) "1, " time ", Program_c, 0, 0\n"

/* 151 bytes of text for 39 of file, of which 25 times 39 are always enough. */
static const struct written_case text_cases[] = {
    {"the example of document 01", BYTES(SHORT), 151, NOFERKASH_OK, 0, BYTES(EXAMPLE_TEXT)},
    {"the example in manner 0", BYTES(FULL), 151, NOFERKASH_OK, 0, BYTES(EXAMPLE_TEXT)},
    {"room larger", BYTES(SHORT), 200, NOFERKASH_OK, 0, BYTES(EXAMPLE_TEXT)},
    {"room that is always enough", BYTES(SHORT), 975, NOFERKASH_OK, 0, BYTES(EXAMPLE_TEXT)},
    {"room one byte under that", BYTES(SHORT), 974, NOFERKASH_OK, 0, BYTES(EXAMPLE_TEXT)},
    {"room one short", BYTES(SHORT), 150, NOFERKASH_ROOM_TOO_SMALL, 0, BYTES(EXAMPLE_TEXT)},
    {"room of one byte", BYTES(SHORT), 1, NOFERKASH_ROOM_TOO_SMALL, 0, BYTES(EXAMPLE_TEXT)},
    {"room of none", BYTES(SHORT), 0, NOFERKASH_ROOM_TOO_SMALL, 0, BYTES(EXAMPLE_TEXT)},
    {"only End_track", BYTES(ONLY_END), 25 * 26, NOFERKASH_OK, 0, BYTES(TEXT(""))},
    {"among other chunks", BYTES(AMONG_OTHERS), 100, NOFERKASH_OK, 0, BYTES(TEXT(""))},
    {"among other chunks, always enough room", BYTES(AMONG_OTHERS), 25 * (sizeof(AMONG_OTHERS) - 1),
     NOFERKASH_OK, 0, BYTES(TEXT(""))},
    {"End_track at a Time of its own", BYTES(TRACK("\11", "\0\x90\x3C\x40\x83\x60\xFF\x2F\0")),
     200, NOFERKASH_OK, 0,
     BYTES(HEADER_LINE START_LINE
           "1, 0, Note_on_c, 0, 60, 64\n1, 480, End_track\n0, 0, End_of_file\n")},
    {"every kind", BYTES(TRACK("\x90", EVERY_KIND END)), 2000, NOFERKASH_OK, 0,
     BYTES(TEXT(EVERY_KIND_LINES))},
    {"bytes of a text that are escaped, and their neighbours",
     BYTES(TRACK("\24", "\0\xFF\1\14\"\\\0\x1F\x20!~\x7F\x80\xA0\xA1\xFF" END)), 500,
     NOFERKASH_OK, 0,
     BYTES(TEXT("1, 0, Text_t, \"\"\"\\\\\\000\\037 !~\\177\\200\\240\xA1\xFF\"\n"))},
    {"greatest Time", BYTES(TRACK("\x64", FOUR_FAR FOUR_FAR FOUR_FAR FOUR_FAR "\x0F\xFF\x2F\0")),
     122 * 25, NOFERKASH_OK, 0,
     BYTES(HEADER_LINE START_LINE FAR_LINE("268435455") FAR_LINE("536870910")
           FAR_LINE("805306365") FAR_LINE("1073741820") FAR_LINE("1342177275")
           FAR_LINE("1610612730") FAR_LINE("1879048185") FAR_LINE("2147483640")
           FAR_LINE("2415919095") FAR_LINE("2684354550") FAR_LINE("2952790005")
           FAR_LINE("3221225460") FAR_LINE("3489660915") FAR_LINE("3758096370")
           FAR_LINE("4026531825") FAR_LINE("4294967280")
           "1, 4294967295, End_track\n0, 0, End_of_file\n")},
    {"two tracks, Times of their own",
     BYTES(TWO_TRACKS CHUNK("\10", "\7\x90\x3C\x40" END)
           CHUNK("\13", "\1\x91\x3C\0\2\x3C\0" "\3\xFF\x2F\0")), 300, NOFERKASH_OK, 0,
     BYTES("0, 0, Header, 1, 2, 96\n1, 0, Start_track\n1, 7, Note_on_c, 0, 60, 64\n"
           "1, 7, End_track\n2, 0, Start_track\n2, 1, Note_on_c, 1, 60, 0\n"
           "2, 3, Note_on_c, 1, 60, 0\n2, 6, End_track\n0, 0, End_of_file\n")},
    {"division 32767", BYTES(ONLY_END_OF("\x7F\xFF")), 100, NOFERKASH_OK, 0,
     BYTES(TEXT_OF("32767"))},
    {"24 frames of 255 ticks", BYTES(ONLY_END_OF("\xE8\xFF")), 100, NOFERKASH_OK, 0,
     BYTES(TEXT_OF("-5889"))},
    {"25 frames of 40 ticks", BYTES(ONLY_END_OF("\xE7\x28")), 78, NOFERKASH_OK, 0,
     BYTES(TEXT_OF("-6360"))},
    {"the same in room one short", BYTES(ONLY_END_OF("\xE7\x28")), 77, NOFERKASH_ROOM_TOO_SMALL, 0,
     BYTES(TEXT_OF("-6360"))},
    {"30 frames of 1 tick, always enough room", BYTES(ONLY_END_OF("\xE2\1")), 25 * 26,
     NOFERKASH_OK, 0, BYTES(TEXT_OF("-7679"))},

    {"empty file", BYTES(""), 40, NOFERKASH_FILE_CUT_SHORT, 0, NOTHING},
    {"26 frames", BYTES(ONLY_END_OF("\xE6\x28")), 1000, NOFERKASH_BAD_HEADER, 12, NOTHING},
    {"Tempo 0 after notes",
     BYTES(TRACK("\23", "\0\x90\x3C\x40\0\x90\x3C\0\0\xFF\x51\3\0\0\0" END)), 60,
     NOFERKASH_BAD_META_VALUE, 30, NOTHING},
    {"Tempo 0 after notes, always enough room",
     BYTES(TRACK("\23", "\0\x90\x3C\x40\0\x90\x3C\0\0\xFF\x51\3\0\0\0" END)), 25 * 41,
     NOFERKASH_BAD_META_VALUE, 30, NOTHING},
    {"a track too many", BYTES(FULL CHUNK("\4", END)), 25 * 52, NOFERKASH_BYTES_AFTER_LAST_TRACK,
     40, NOTHING},
    {"a fault, and no room", BYTES(FULL "\0"), 0, NOFERKASH_FILE_CUT_SHORT, 40, NOTHING}
};

/* The sheet form: no blanks between fields, and texts spelled for spreadsheets. */
#define SHEET(lines) "0,0,Header,0,1,96\n1,0,Start_track\n" lines "1,0,End_track\n0,0,End_of_file\n"
#define EXAMPLE_SHEET \
    "0,0,Header,0,1,96\n1,0,Start_track\n1,0,Title_t,\"A\\042\"\n1,0,Note_on_c,0,60,64\n" \
    "1,96,Note_on_c,0,60,0\n1,96,End_track\n0,0,End_of_file\n"
#define EVERY_KIND_ROWS \
    "1,0,Note_off_c,0,0,127\n1,0,Note_on_c,1,60,0\n1,0,Poly_aftertouch_c,2,1,2\n" \
    "1,0,Control_c,3,7,100\n1,0,Program_c,4,127\n1,0,Channel_aftertouch_c,5,0\n" \
    "1,0,Pitch_bend_c,6,8192\n1,0,Pitch_bend_c,6,16383\n1,0,System_exclusive,3,67,18,247\n" \
    "1,0,System_exclusive_packet,1,255\n1,0,Sequence_number,65534\n1,0,Text_t,\"t\"\n" \
    "1,0,Copyright_t,\"c\"\n1,0,Title_t,\"n\"\n1,0,Instrument_name_t,\"i\"\n1,0,Lyric_t,\"l\"\n" \
    "1,0,Marker_t,\"m\"\n1,0,Cue_point_t,\"\"\n1,0,Channel_prefix,255\n1,0,MIDI_port,16\n" \
    "1,0,Tempo,750000\n1,0,SMPTE_offset,255,0,1,2,99\n1,0,Time_signature,6,3,36,8\n" \
    "1,0,Key_signature,-3,\"minor\"\n1,0,Key_signature,7,\"major\"\n" \
    "1,0,Sequencer_specific,2,0,10\n1,0,Unknown_meta_event,96,0\n1,0,Unknown_meta_event,8,1,100\n"
/* A lyric of so many bytes, and how its cell spells it. */
#define LYRIC(track, count, text) TRACK(track, "\0\xFF\5" count text END)
#define SPELLED(track, count, text, cell) \
    BYTES(LYRIC(track, count, text)), 200, NOFERKASH_OK, 0, BYTES(SHEET("1,0,Lyric_t,\"" cell "\"\n"))

/* 129 bytes of sheet for 39 of file, of which 23 times 39 are always enough. */
static const struct written_case sheet_cases[] = {
    {"the example of document 01", BYTES(SHORT), 129, NOFERKASH_OK, 0, BYTES(EXAMPLE_SHEET)},
    {"the example in manner 0", BYTES(FULL), 129, NOFERKASH_OK, 0, BYTES(EXAMPLE_SHEET)},
    {"room larger", BYTES(SHORT), 200, NOFERKASH_OK, 0, BYTES(EXAMPLE_SHEET)},
    {"room that is always enough", BYTES(SHORT), 897, NOFERKASH_OK, 0, BYTES(EXAMPLE_SHEET)},
    {"room one byte under that", BYTES(SHORT), 896, NOFERKASH_OK, 0, BYTES(EXAMPLE_SHEET)},
    {"room one short", BYTES(SHORT), 128, NOFERKASH_ROOM_TOO_SMALL, 0, BYTES(EXAMPLE_SHEET)},
    {"room of one byte", BYTES(SHORT), 1, NOFERKASH_ROOM_TOO_SMALL, 0, BYTES(EXAMPLE_SHEET)},
    {"room of none", BYTES(SHORT), 0, NOFERKASH_ROOM_TOO_SMALL, 0, BYTES(EXAMPLE_SHEET)},
    {"only End_track", BYTES(ONLY_END), 23 * 26, NOFERKASH_OK, 0, BYTES(SHEET(""))},
    {"among other chunks", BYTES(AMONG_OTHERS), 100, NOFERKASH_OK, 0, BYTES(SHEET(""))},
    {"every kind", BYTES(TRACK("\x90", EVERY_KIND END)), 2000, NOFERKASH_OK, 0,
     BYTES(SHEET(EVERY_KIND_ROWS))},
    {"letters and marks", SPELLED("\21", "\11", "a-Z_'tis!", "a-Z_'tis!")},
    {"a mark first", SPELLED("\14", "\4", "-lu-", "\\055lu-")},
    {"a comma and a blank inside", SPELLED("\21", "\11", "jah, amen", "jah, amen")},
    {"a blank first, two last", SPELLED("\14", "\4", " a  ", "\\040a \\040")},
    {"a blank last", SPELLED("\14", "\4", "Ich ", "Ich ")},
    {"a comma last", SPELLED("\13", "\3", "ah,", "ah\\054")},
    {"a blank after a comma last", SPELLED("\14", "\4", "la, ", "la,\\040")},
    {"digits, signs, a tab", SPELLED("\20", "\10", "=1;\"\\\t#/", "\\075\\061\\073\\042\\134\\011\\043\\057")},
    {"bytes from 127 on", SPELLED("\14", "\4", "n\x7F\x80\xFF", "n\\177\\200\\377")},
    {"a word for a boolean", SPELLED("\14", "\4", "wAhr", "wAh\\162")},
    {"such a word and a blank", SPELLED("\15", "\5", "TRUE ", "TRUE\\040")},
    {"no such word", SPELLED("\14", "\4", "Amen", "Amen")},
    {"two tracks, Times of their own",
     BYTES(TWO_TRACKS CHUNK("\10", "\7\x90\x3C\x40" END)
           CHUNK("\13", "\1\x91\x3C\0\2\x3C\0" "\3\xFF\x2F\0")), 300, NOFERKASH_OK, 0,
     BYTES("0,0,Header,1,2,96\n1,0,Start_track\n1,7,Note_on_c,0,60,64\n1,7,End_track\n"
           "2,0,Start_track\n2,1,Note_on_c,1,60,0\n2,3,Note_on_c,1,60,0\n2,6,End_track\n"
           "0,0,End_of_file\n")},
    {"29 frames of 4 ticks", BYTES(ONLY_END_OF("\xE3\4")), 100, NOFERKASH_OK, 0,
     BYTES("0,0,Header,0,1,-7420\n1,0,Start_track\n1,0,End_track\n0,0,End_of_file\n")},

    {"empty file", BYTES(""), 40, NOFERKASH_FILE_CUT_SHORT, 0, NOTHING},
    {"26 frames", BYTES(ONLY_END_OF("\xE6\x28")), 1000, NOFERKASH_BAD_HEADER, 12, NOTHING},
    {"Tempo 0 after notes",
     BYTES(TRACK("\23", "\0\x90\x3C\x40\0\x90\x3C\0\0\xFF\x51\3\0\0\0" END)), 23 * 41,
     NOFERKASH_BAD_META_VALUE, 30, NOTHING},
    {"a track too many", BYTES(FULL CHUNK("\4", END)), 23 * 52, NOFERKASH_BYTES_AFTER_LAST_TRACK,
     40, NOTHING},
    {"a fault, and no room", BYTES(FULL "\0"), 0, NOFERKASH_FILE_CUT_SHORT, 40, NOTHING}
};

/* A table becomes a text, and no row is refused; room of twice its length and one is enough. */
#define MARK "\xEF\xBB\xBF"
#define ROW(saved, line) \
    BYTES(saved), 2 * (sizeof(saved) - 1) + 1, NOFERKASH_OK, 0, BYTES(line "\n")

static const struct written_case table_cases[] = {
    {"the example's sheet", BYTES(EXAMPLE_SHEET), 129, NOFERKASH_OK, 0, BYTES(EXAMPLE_SHEET)},
    {"room larger", BYTES(EXAMPLE_SHEET), 300, NOFERKASH_OK, 0, BYTES(EXAMPLE_SHEET)},
    {"room one short", BYTES(EXAMPLE_SHEET), 128, NOFERKASH_ROOM_TOO_SMALL, 0,
     BYTES(EXAMPLE_SHEET)},
    {"room of one byte", BYTES(EXAMPLE_SHEET), 1, NOFERKASH_ROOM_TOO_SMALL, 0,
     BYTES(EXAMPLE_SHEET)},
    {"room of none", BYTES(EXAMPLE_SHEET), 0, NOFERKASH_ROOM_TOO_SMALL, 0, BYTES(EXAMPLE_SHEET)},
    {"no bytes", BYTES(""), 1, NOFERKASH_OK, 0, NOTHING},
    {"no bytes, no room", BYTES(""), 0, NOFERKASH_OK, 0, NOTHING},
    {"a mark alone", BYTES(MARK), 7, NOFERKASH_OK, 0, NOTHING},
    {"an empty row", ROW("\n", "")},
    {"one quote, of which the text is twice as long", ROW("\"", "\"")},
    {"semicolons, filled, quoted, marked, CR LF",
     BYTES(MARK "0;0;\"Header\";0;1;96;;\r\n1;0;Lyric_t;\"a \"\"b\"\"\";;;;\r\n1;0;Lyric_t\r\n"), 200,
     NOFERKASH_OK, 0,
     BYTES("0,0,Header,0,1,96\n1,0,Lyric_t,\"a \"\"b\"\"\"\n1,0,Lyric_t,\"\"\n")},
    {"tabs", ROW("0\t0\tKey_signature\t-3\tminor\t\t", "0,0,Key_signature,-3,\"minor\"")},
    {"a whole line in one cell", ROW("\"1,0,Lyric_t,\"\"la\"\"\"", "1,0,Lyric_t,\"la\"")},
    {"a quote that is not closed", ROW("1,0,Lyric_t,\"a", "\"")},
    {"bytes after the closing quote", ROW("1,0,Lyric_t,\"a\"b,c", "\"")},
    {"a comma in a number", ROW("0;0;End_of_file\n1;0;Tempo;500,000",
                                "0,0,End_of_file\n1,0,Tempo,\"500,000\"")},
    {"a comma in the first row", ROW("1;0;Tempo;500,000", "1;0;Tempo;500,000")},
    {"a quoted comma in a number", ROW("1,0,Tempo,\"500,000\"", "1,0,Tempo,\"500,000\"")},
    {"a note", ROW("# a;b,c\"", "# a;b,c\"")},
    {"any bytes", ROW("\0\xFF\r\r", "\0\xFF\r")}
};

/* A text, the manner and the room lent for it, and the answer due. */
struct read_case {
    const char *what;
    const char *bytes;
    size_t length;
    uint32_t manner;
    size_t room;
    int number;
    size_t place;
    const char *due;
    size_t due_length;
};

/* A text whose third line is this one; after Start_track, before END_LINES. */
#define THIRD(line) BYTES(TEXT(line "\n"))
#define GOOD_THIRD(line, length, body) \
    THIRD(line), 1, 100, NOFERKASH_OK, 0, BYTES(TRACK(length, "\0" body END))
#define BAD_THIRD(line, number) THIRD(line), 1, 100, number, 3, NOTHING
#define BAD(text, number, line) BYTES(text), 1, 100, number, line, NOTHING
#define GOOD_DIVISION(field, division) \
    BYTES(TEXT_OF(field)), 1, 100, NOFERKASH_OK, 0, BYTES(ONLY_END_OF(division))
#define BAD_DIVISION(field) BAD(TEXT_OF(field), NOFERKASH_FIELD_OUT_OF_RANGE, 1)

static const struct read_case file_cases[] = {
    {"the example of document 01", BYTES(EXAMPLE_TEXT), 1, 39, NOFERKASH_OK, 0, BYTES(SHORT)},
    {"the example in manner 0", BYTES(EXAMPLE_TEXT), 0, 40, NOFERKASH_OK, 0, BYTES(FULL)},
    {"room larger", BYTES(EXAMPLE_TEXT), 1, 64, NOFERKASH_OK, 0, BYTES(SHORT)},
    {"room one short", BYTES(EXAMPLE_TEXT), 1, 38, NOFERKASH_ROOM_TOO_SMALL, 0, BYTES(SHORT)},
    {"room one short, manner 0", BYTES(EXAMPLE_TEXT), 0, 39, NOFERKASH_ROOM_TOO_SMALL, 0,
     BYTES(FULL)},
    {"room of one byte", BYTES(EXAMPLE_TEXT), 0, 1, NOFERKASH_ROOM_TOO_SMALL, 0, BYTES(FULL)},
    {"room of none", BYTES(EXAMPLE_TEXT), 1, 0, NOFERKASH_ROOM_TOO_SMALL, 0, BYTES(SHORT)},
    {"every kind", BYTES(TEXT(EVERY_KIND_LINES)), 1, 200, NOFERKASH_OK, 0,
     BYTES(TRACK("\x90", EVERY_KIND END))},
    {"greatest step", BYTES(HEADER_LINE START_LINE "1, 268435455, End_track\n0, 0, End_of_file\n"),
     1, 29, NOFERKASH_OK, 0, BYTES(TRACK("\7", "\xFF\xFF\xFF\x7F\xFF\x2F\0"))},
    {"two tracks, the status in the next one",
     BYTES("0, 0, Header, 1, 2, 96\n1, 0, Start_track\n1, 7, Note_on_c, 0, 60, 64\n"
           "1, 7, End_track\n2, 0, Start_track\n2, 1, Note_on_c, 0, 60, 0\n"
           "2, 3, Note_on_c, 0, 60, 0\n2, 6, End_track\n0, 0, End_of_file\n"), 1, 100,
     NOFERKASH_OK, 0,
     BYTES(TWO_TRACKS CHUNK("\10", "\7\x90\x3C\x40" END)
           CHUNK("\13", "\1\x90\x3C\0\2\x3C\0" "\3\xFF\x2F\0"))},
    {"loosely spelled",
     BYTES("# one\r\n\n\t0 ,-0,HEADER,00,0000000001, 96\n; two\n01,0, start_TRACK\r\n"
           "1,0,title_t,\"\\101\"\"\" \n \t\n1,0,note_on_c,0,060,64\r\n1,96,NOTE_ON_C,0,60,0\n"
           "1,96,End_Track\n0,0,End_Of_File\r"), 1, 39, NOFERKASH_OK, 0, BYTES(SHORT)},
    {"\\377 and \\000",
     GOOD_THIRD("1, 0, Text_t, \"\\377\\000\"", "\12", "\xFF\1\2\xFF\0")},
    {"key -7", GOOD_THIRD("1, 0, Key_signature, -7, \"mino\\162\"", "\12", "\xFF\x59\2\xF9\1")},
    {"ten digits", GOOD_THIRD("1, 0, Tempo, 0016777215", "\13", "\xFF\x51\3\xFF\xFF\xFF")},
    {"division 1", GOOD_DIVISION("1", "\0\1")},
    {"division 32767", GOOD_DIVISION("32767", "\x7F\xFF")},
    {"24 frames of 1 tick", GOOD_DIVISION("-6143", "\xE8\1")},
    {"25 frames of 40 ticks", GOOD_DIVISION("-6360", "\xE7\x28")},
    {"the same in ten digits", GOOD_DIVISION("-0000006360", "\xE7\x28")},
    {"29 frames of 255 ticks", GOOD_DIVISION("-7169", "\xE3\xFF")},
    {"30 frames of 80 ticks", GOOD_DIVISION("-7600", "\xE2\x50")},

    {"\\400", BAD_THIRD("1, 0, Text_t, \"\\400\"", NOFERKASH_BAD_FIELD)},
    {"eleven digits", BAD_THIRD("1, 0, Tempo, 00000000001", NOFERKASH_BAD_FIELD)},
    {"4294967296", BAD_THIRD("1, 0, Tempo, 4294967296", NOFERKASH_BAD_FIELD)},
    {"a comma too many", BAD_THIRD("1, 0, Tempo, 1,", NOFERKASH_BAD_FIELD)},
    {"a quote unended", BAD_THIRD("1, 0, Text_t, \"a", NOFERKASH_BAD_FIELD)},
    {"CR in quotes", BAD_THIRD("1, 0, Text_t, \"a\rb\"", NOFERKASH_BAD_FIELD)},
    {"a letter too many", BAD_THIRD("1, 0, Tempos, 1", NOFERKASH_UNKNOWN_RECORD)},
    {"a quoted name", BAD_THIRD("1, 0, \"Tempo\", 1", NOFERKASH_UNKNOWN_RECORD)},
    {"a field too few", BAD_THIRD("1, 0, Note_on_c, 0, 60", NOFERKASH_WRONG_FIELD_COUNT)},
    {"two fields", BAD_THIRD("1, 0", NOFERKASH_WRONG_FIELD_COUNT)},
    {"Length too great", BAD_THIRD("1, 0, System_exclusive, 2, 1", NOFERKASH_WRONG_FIELD_COUNT)},
    {"Length -1", BAD_THIRD("1, 0, System_exclusive, -1", NOFERKASH_FIELD_OUT_OF_RANGE)},
    {"Tempo 0", BAD_THIRD("1, 0, Tempo, 0", NOFERKASH_FIELD_OUT_OF_RANGE)},
    {"key 8", BAD_THIRD("1, 0, Key_signature, 8, \"major\"", NOFERKASH_FIELD_OUT_OF_RANGE)},
    {"Major", BAD_THIRD("1, 0, Key_signature, 0, \"Major\"", NOFERKASH_FIELD_OUT_OF_RANGE)},
    {"Unknown_meta_event 47",
     BAD_THIRD("1, 0, Unknown_meta_event, 47, 0", NOFERKASH_FIELD_OUT_OF_RANGE)},
    {"Unknown_meta_event 128",
     BAD_THIRD("1, 0, Unknown_meta_event, 128, 0", NOFERKASH_FIELD_OUT_OF_RANGE)},
    {"Track 65536", BAD_THIRD("65536, 0, Tempo, 1", NOFERKASH_FIELD_OUT_OF_RANGE)},
    {"format 0 with 2 tracks", BAD("0, 0, Header, 0, 2, 96\n", NOFERKASH_FIELD_OUT_OF_RANGE, 1)},
    {"65536 tracks", BAD("0, 0, Header, 1, 65536, 96\n", NOFERKASH_FIELD_OUT_OF_RANGE, 1)},
    {"division 0", BAD_DIVISION("0")},
    {"division -0", BAD_DIVISION("-0")},
    {"division 32768", BAD_DIVISION("32768")},
    {"25 frames of 40 ticks, not as signed", BAD_DIVISION("59176")},
    {"the same 16 bits, under -32768", BAD_DIVISION("-71896")},
    {"24 frames of no tick", BAD_DIVISION("-6144")},
    {"25 frames of no tick", BAD_DIVISION("-6400")},
    {"29 frames of no tick", BAD_DIVISION("-7424")},
    {"30 frames of no tick", BAD_DIVISION("-7680")},
    {"26 frames", BAD_DIVISION("-6616")},
    {"31 frames", BAD_DIVISION("-7681")},
    {"1 frame", BAD_DIVISION("-1")},
    {"128 frames", BAD_DIVISION("-32768")},
    {"division -32769", BAD_DIVISION("-32769")},
    {"a name as division", BAD_DIVISION("frames")},
    {"a text as division", BAD_DIVISION("\"-6360\"")},
    {"wrong Track", BAD_THIRD("2, 0, Tempo, 1", NOFERKASH_RECORD_OUT_OF_ORDER)},
    {"Time falls",
     BAD(HEADER_LINE START_LINE "1, 5, Tempo, 1\n1, 4, End_track\n",
         NOFERKASH_RECORD_OUT_OF_ORDER, 4)},
    {"fewer tracks than counted",
     BAD("0, 0, Header, 1, 2, 96\n" START_LINE END_LINES, NOFERKASH_RECORD_OUT_OF_ORDER, 4)},
    {"Header at Time 1", BAD("0, 1, Header, 0, 1, 96\n", NOFERKASH_RECORD_OUT_OF_ORDER, 1)},
    {"a record after End_of_file",
     BAD(TEXT("") "0, 0, End_of_file\n", NOFERKASH_RECORD_OUT_OF_ORDER, 5)},
    {"a comment, then a fault after End_of_file",
     BAD(TEXT("") "#\n+", NOFERKASH_BAD_FIELD, 6)},
    {"step too great", BAD_THIRD("1, 268435456, Tempo, 1", NOFERKASH_STEP_TOO_GREAT)},
    {"empty text", BAD("", NOFERKASH_TEXT_CUT_SHORT, 1)},
    {"CR alone", BAD("\r", NOFERKASH_TEXT_CUT_SHORT, 2)},
    {"no End_of_file", BAD(HEADER_LINE START_LINE "1, 0, End_track", NOFERKASH_TEXT_CUT_SHORT, 4)},
    {"manner 2", BYTES(EXAMPLE_TEXT), 2, 100, NOFERKASH_BAD_MANNER, 0, NOTHING},
    {"manner 255, a fault, no room", BYTES("+"), 255, 0, NOFERKASH_BAD_MANNER, 0, NOTHING},
    {"manner 256", BYTES(EXAMPLE_TEXT), 256, 100, NOFERKASH_BAD_MANNER, 0, NOTHING},
    {"manner 2^32 - 1", BYTES(EXAMPLE_TEXT), 0xFFFFFFFF, 100, NOFERKASH_BAD_MANNER, 0, NOTHING},
    {"a fault, and no room", BYTES(TEXT("") "+"), 0, 0, NOFERKASH_BAD_FIELD, 5, NOTHING}
};

#endif
