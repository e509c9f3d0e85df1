//! The fields of a record and its start, written from tables.

#[inline]
pub(super) fn small_field(text: &mut Vec<u8>, value: u8) {
    put_word(text, &FIELDS[usize::from(value)]);
}

pub(super) fn number_field(text: &mut Vec<u8>, value: u32) {
    if let Ok(value) = u8::try_from(value) {
        return small_field(text, value);
    }
    let mut digits = [0; 10];
    let count = decimal(value, &mut digits);
    text.extend_from_slice(b", ");
    put(text, &digits, count);
}

/// Puts all N bytes, then takes back those not in use: the copy has a known size.
#[inline]
fn put<const N: usize>(text: &mut Vec<u8>, bytes: &[u8; N], used: usize) {
    text.extend_from_slice(bytes);
    text.truncate(text.len() - (N - used));
}

/// Up to seven bytes, and last how many.
type Word = [u8; 8];

#[inline]
pub(super) fn put_word(text: &mut Vec<u8>, word: &Word) {
    put(text, word, usize::from(word[7]));
}

/// Digits of a number from the front of `digits` on, and how many.
#[inline]
fn decimal(value: u32, digits: &mut [u8; 10]) -> usize {
    let count = match value {
        0..=9 => 1,
        10..=99 => 2,
        100..=999 => 3,
        1_000..=9_999 => 4,
        10_000..=99_999 => 5,
        100_000..=999_999 => 6,
        1_000_000..=9_999_999 => 7,
        10_000_000..=99_999_999 => 8,
        100_000_000..=999_999_999 => 9,
        _ => 10,
    };
    let (mut left, mut at) = (value, count);
    while at >= 2 {
        at -= 2;
        let pair = PAIRS[(left % 100) as usize];
        digits[at..at + 2].copy_from_slice(&pair);
        left /= 100;
    }
    if at == 1 {
        digits[0] = b'0' + left as u8;
    }
    count
}

/// Track and Time of a record, joined, as far as `used`.
pub(super) struct Start {
    bytes: [u8; 24],
    track: usize,
    used: usize,
}

impl Start {
    pub(super) fn of(number: u32) -> Start {
        let mut digits = [0; 10];
        let count = decimal(number, &mut digits);
        let mut bytes = [0; 24];
        bytes[..count].copy_from_slice(&digits[..count]);
        bytes[count..count + 3].copy_from_slice(b", 0");
        Start { bytes, track: count + 2, used: count + 3 }
    }

    #[inline]
    pub(super) fn set_time(&mut self, time: u32) {
        let mut digits = [0; 10];
        let count = decimal(time, &mut digits);
        self.bytes[self.track..self.track + 10].copy_from_slice(&digits);
        self.used = self.track + count;
    }

    #[inline]
    pub(super) fn put(&self, text: &mut Vec<u8>) {
        put(text, &self.bytes, self.used);
    }
}

/// A comma, a space and the name of a record, as far as `used`.
pub(super) struct Name {
    bytes: [u8; 32],
    used: usize,
}

impl Name {
    const fn of(name: &str) -> Name {
        let mut bytes = [0; 32];
        bytes[0] = b',';
        bytes[1] = b' ';
        let mut at = 0;
        while at < name.len() {
            bytes[2 + at] = name.as_bytes()[at];
            at += 1;
        }
        Name { bytes, used: 2 + name.len() }
    }

    #[inline]
    pub(super) fn put(&self, text: &mut Vec<u8>) {
        put(text, &self.bytes, self.used);
    }
}

/// By the high half of the status, from 8 on.
pub(super) static CHANNEL: [Name; 7] = [
    Name::of("Note_off_c"),
    Name::of("Note_on_c"),
    Name::of("Poly_aftertouch_c"),
    Name::of("Control_c"),
    Name::of("Program_c"),
    Name::of("Channel_aftertouch_c"),
    Name::of("Pitch_bend_c"),
];
/// By the meta type, from 1 on.
pub(super) static TEXTS: [Name; 7] = [
    Name::of("Text_t"),
    Name::of("Copyright_t"),
    Name::of("Title_t"),
    Name::of("Instrument_name_t"),
    Name::of("Lyric_t"),
    Name::of("Marker_t"),
    Name::of("Cue_point_t"),
];
pub(super) static SYSTEM_EXCLUSIVE: Name = Name::of("System_exclusive");
pub(super) static SYSTEM_EXCLUSIVE_PACKET: Name = Name::of("System_exclusive_packet");
pub(super) static SEQUENCE_NUMBER: Name = Name::of("Sequence_number");
pub(super) static CHANNEL_PREFIX: Name = Name::of("Channel_prefix");
pub(super) static MIDI_PORT: Name = Name::of("MIDI_port");
pub(super) static END_TRACK: Name = Name::of("End_track");
pub(super) static TEMPO: Name = Name::of("Tempo");
pub(super) static SMPTE_OFFSET: Name = Name::of("SMPTE_offset");
pub(super) static TIME_SIGNATURE: Name = Name::of("Time_signature");
pub(super) static KEY_SIGNATURE: Name = Name::of("Key_signature");
pub(super) static SEQUENCER_SPECIFIC: Name = Name::of("Sequencer_specific");
pub(super) static UNKNOWN_META_EVENT: Name = Name::of("Unknown_meta_event");

/// The field of each byte: comma, space, digits.
static FIELDS: [Word; 256] = {
    let mut table = [[0; 8]; 256];
    let mut value = 0;
    while value < 256 {
        let count = 1 + (value > 9) as usize + (value > 99) as usize;
        table[value][0] = b',';
        table[value][1] = b' ';
        let (mut left, mut at) = (value, count);
        while at > 0 {
            at -= 1;
            table[value][2 + at] = b'0' + (left % 10) as u8;
            left /= 10;
        }
        table[value][7] = 2 + count as u8;
        value += 1;
    }
    table
};

/// Each byte as it stands within quotes.
pub(super) static QUOTED: [Word; 256] = {
    let mut table = [[0; 8]; 256];
    let mut value = 0;
    while value < 256 {
        let byte = value as u8;
        table[value] = match byte {
            b'"' | b'\\' => [byte, byte, 0, 0, 0, 0, 0, 2],
            0..=31 | 127..=160 => {
                let (high, middle, low) = (byte >> 6, byte >> 3 & 7, byte & 7);
                [b'\\', b'0' + high, b'0' + middle, b'0' + low, 0, 0, 0, 4]
            }
            _ => [byte, 0, 0, 0, 0, 0, 0, 1],
        };
        value += 1;
    }
    table
};

/// The two digits of each number under 100.
static PAIRS: [[u8; 2]; 100] = {
    let mut table = [[0; 2]; 100];
    let mut value = 0;
    while value < 100 {
        table[value] = [b'0' + (value / 10) as u8, b'0' + (value % 10) as u8];
        value += 1;
    }
    table
};
