/* The records of a text. */
#include "records.h"

#include <string.h>

#define BETWEEN(least, greatest)                                                                   \
    { A_NUMBER, least, greatest }
#define CHANNEL BETWEEN(0, 15)
#define SEVEN_BITS BETWEEN(0, 127)
#define BYTE BETWEEN(0, 255)
#define TEXT                                                                                       \
    { A_TEXT, 0, 0 }
#define LENGTH                                                                                     \
    { A_LENGTH, 0, UINT32_MAX }

static const struct record records[] = {
    {"Header", FIRST, {BETWEEN(0, 2), {A_TRACK_COUNT, 1, 65535}, {A_DIVISION, 1, 32767}}},
    {"Start_track", STARTS_TRACK, {{NO_COLUMN, 0, 0}}},
    {"End_track", ENDS_TRACK, {{NO_COLUMN, 0, 0}}},
    {"End_of_file", LAST, {{NO_COLUMN, 0, 0}}},
    {"Note_off_c", IN_TRACK, {CHANNEL, SEVEN_BITS, SEVEN_BITS}},
    {"Note_on_c", IN_TRACK, {CHANNEL, SEVEN_BITS, SEVEN_BITS}},
    {"Poly_aftertouch_c", IN_TRACK, {CHANNEL, SEVEN_BITS, SEVEN_BITS}},
    {"Control_c", IN_TRACK, {CHANNEL, SEVEN_BITS, SEVEN_BITS}},
    {"Program_c", IN_TRACK, {CHANNEL, SEVEN_BITS}},
    {"Channel_aftertouch_c", IN_TRACK, {CHANNEL, SEVEN_BITS}},
    {"Pitch_bend_c", IN_TRACK, {CHANNEL, BETWEEN(0, 16383)}},
    {"System_exclusive", IN_TRACK, {LENGTH}},
    {"System_exclusive_packet", IN_TRACK, {LENGTH}},
    {"Sequence_number", IN_TRACK, {BETWEEN(0, 65535)}},
    {"Text_t", IN_TRACK, {TEXT}},
    {"Copyright_t", IN_TRACK, {TEXT}},
    {"Title_t", IN_TRACK, {TEXT}},
    {"Instrument_name_t", IN_TRACK, {TEXT}},
    {"Lyric_t", IN_TRACK, {TEXT}},
    {"Marker_t", IN_TRACK, {TEXT}},
    {"Cue_point_t", IN_TRACK, {TEXT}},
    {"Channel_prefix", IN_TRACK, {BYTE}},
    {"MIDI_port", IN_TRACK, {BYTE}},
    {"Tempo", IN_TRACK, {BETWEEN(1, 16777215)}},
    {"SMPTE_offset", IN_TRACK, {BYTE, BYTE, BYTE, BYTE, BETWEEN(0, 99)}},
    {"Time_signature", IN_TRACK, {BYTE, BYTE, BYTE, BYTE}},
    {"Key_signature", IN_TRACK, {BETWEEN(-7, 7), {A_MODE, 0, 0}}},
    {"Sequencer_specific", IN_TRACK, {LENGTH}},
    {"Unknown_meta_event", IN_TRACK, {{A_META_TYPE, 0, 127}, LENGTH}},
};

/* The types of the meta events that have a record. */
static const uint8_t named_types[] = {0x00, 0x01, 0x02, 0x03, 0x04, 0x05, 0x06, 0x07,
                                      0x20, 0x21, 0x2F, 0x51, 0x54, 0x58, 0x59, 0x7F};

static int is_same_letter(uint8_t byte, char letter) {
    uint8_t other = (uint8_t)letter;
    /* Bit 5 tells capital from small letters; an underscore is neither. */
    return byte == other || (other != '_' && (byte | 0x20) == (other | 0x20));
}

static int is_called(struct part name, const char *known) {
    size_t at = 0;
    while (at < name.length && known[at] != '\0' && is_same_letter(name.at[at], known[at])) {
        at++;
    }
    return at == name.length && known[at] == '\0';
}

const struct record *find_record(struct part name) {
    for (size_t i = 0; i < sizeof records / sizeof records[0]; i++) {
        if (is_called(name, records[i].name)) {
            return &records[i];
        }
    }
    return NULL;
}

static size_t columns(const struct record *record) {
    size_t count = 0;
    while (count < COLUMNS && record->columns[count].kind != NO_COLUMN) {
        count++;
    }
    return count;
}

size_t fields_due(const struct record *record) {
    return 3 + columns(record);
}

int has_length(const struct record *record) {
    size_t count = columns(record);
    return count > 0 && record->columns[count - 1].kind == A_LENGTH;
}

struct column column_at(const struct record *record, size_t field) {
    static const struct column track = BETWEEN(0, 65535);
    static const struct column time = BETWEEN(0, UINT32_MAX);
    static const struct column data = BYTE;
    static const struct column none = {NO_COLUMN, 0, 0};
    if (field == 1 || field == 2) {
        return field == 1 ? track : time;
    }
    if (field > 3 && field <= fields_due(record)) {
        return record->columns[field - 4];
    }
    return field > 3 && has_length(record) ? data : none;
}

int has_own_record(int64_t type) {
    return type >= 0 && type <= 127 && memchr(named_types, (int)type, sizeof named_types) != NULL;
}

int read_head(struct part line, struct head *head) {
    struct fields fields = fields_of(line, ',');
    struct field track;
    struct field time;
    struct field name;
    if (!next_field(&fields, &track) || !next_field(&fields, &time) ||
        !next_field(&fields, &name) || track.shape != NUMBER || time.shape != NUMBER ||
        name.shape != NAME) {
        return 0;
    }
    *head = (struct head){track.number, time.number, find_record(name.written)};
    return head->record != NULL;
}
