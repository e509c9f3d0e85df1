//! A piece: what a file or a text says, apart from how it spells it.

/// Absolute: ticks from the start of the track.
#[derive(Clone, Copy, Debug, PartialEq, Eq, PartialOrd, Ord)]
pub struct Time(pub u32);

/// Relative: ticks from the event before. Only a delta is added to a Time.
#[derive(Clone, Copy, Debug, PartialEq, Eq, PartialOrd, Ord)]
pub struct Delta(pub u32);

impl Time {
    pub const START: Time = Time(0);

    pub fn after(self, delta: Delta) -> Option<Time> {
        self.0.checked_add(delta.0).map(Time)
    }

    /// The step from `earlier`, or nothing if Time would fall.
    pub fn since(self, earlier: Time) -> Option<Delta> {
        self.0.checked_sub(earlier.0).map(Delta)
    }
}

#[derive(Clone, Copy, Debug, PartialEq, Eq)]
pub enum Format {
    OneTrack,
    Together,
    InTurn,
}

impl Format {
    pub fn from_number(number: u32) -> Option<Format> {
        match number {
            0 => Some(Format::OneTrack),
            1 => Some(Format::Together),
            2 => Some(Format::InTurn),
            _ => None,
        }
    }

    pub fn number(self) -> u16 {
        self as u16
    }

    pub fn permits_tracks(self, count: usize) -> bool {
        match self {
            Format::OneTrack => count == 1,
            _ => (1..=65_535).contains(&count),
        }
    }
}

/// What a tick is a part of.
#[derive(Clone, Copy, Debug, PartialEq, Eq)]
pub enum Division {
    /// Pulses to the quarter note, 1..32767.
    Pulses(u16),
    /// Film: frames to the second, one of `RATES`, and ticks to the frame, 1..255.
    Frames { rate: u8, ticks: u8 },
}

impl Division {
    pub const RATES: [u8; 4] = [24, 25, 29, 30];

    /// From the 16 bits of the header, read as signed: a rate is a negative high byte.
    pub fn from_signed(signed: i16) -> Option<Division> {
        let [high, ticks] = signed.to_be_bytes();
        let rate = high.wrapping_neg();
        match signed {
            1.. => Some(Division::Pulses(signed as u16)),
            _ if Division::RATES.contains(&rate) && ticks > 0 => {
                Some(Division::Frames { rate, ticks })
            }
            _ => None,
        }
    }

    pub fn signed(self) -> i16 {
        match self {
            Division::Pulses(pulses) => pulses as i16,
            Division::Frames { rate, ticks } => i16::from_be_bytes([rate.wrapping_neg(), ticks]),
        }
    }
}

#[derive(Clone, Copy, Debug, PartialEq, Eq)]
pub enum TextKind {
    Text = 1,
    Copyright,
    Title,
    InstrumentName,
    Lyric,
    Marker,
    CuePoint,
}

impl TextKind {
    pub const ALL: [TextKind; 7] = [
        TextKind::Text,
        TextKind::Copyright,
        TextKind::Title,
        TextKind::InstrumentName,
        TextKind::Lyric,
        TextKind::Marker,
        TextKind::CuePoint,
    ];

    pub fn meta_type(self) -> u8 {
        self as u8
    }

    pub fn name(self) -> &'static str {
        match self {
            TextKind::Text => "Text_t",
            TextKind::Copyright => "Copyright_t",
            TextKind::Title => "Title_t",
            TextKind::InstrumentName => "Instrument_name_t",
            TextKind::Lyric => "Lyric_t",
            TextKind::Marker => "Marker_t",
            TextKind::CuePoint => "Cue_point_t",
        }
    }
}

#[derive(Clone, Copy, Debug, PartialEq, Eq)]
pub enum Mode {
    Major,
    Minor,
}

/// The kinds of event, one for each record name but the seven texts'.
#[derive(Clone, Debug, PartialEq, Eq)]
pub enum Kind {
    NoteOff { channel: u8, key: u8, velocity: u8 },
    NoteOn { channel: u8, key: u8, velocity: u8 },
    PolyAftertouch { channel: u8, key: u8, value: u8 },
    Control { channel: u8, control: u8, value: u8 },
    Program { channel: u8, program: u8 },
    ChannelAftertouch { channel: u8, value: u8 },
    PitchBend { channel: u8, value: u16 },
    SystemExclusive(Vec<u8>),
    SystemExclusivePacket(Vec<u8>),
    SequenceNumber(u16),
    Text(TextKind, Vec<u8>),
    ChannelPrefix(u8),
    MidiPort(u8),
    EndTrack,
    Tempo(u32),
    SmpteOffset([u8; 5]),
    TimeSignature([u8; 4]),
    KeySignature { key: i8, mode: Mode },
    SequencerSpecific(Vec<u8>),
    UnknownMeta { meta_type: u8, data: Vec<u8> },
}

/// Whether a meta type has a record name of its own.
pub fn has_own_name(meta_type: u8) -> bool {
    matches!(meta_type, 0x00..=0x07 | 0x20 | 0x21 | 0x2F | 0x51 | 0x54 | 0x58 | 0x59 | 0x7F)
}

impl Kind {
    /// The status byte of a channel event; other events have none to keep in force.
    pub fn channel_status(&self) -> Option<u8> {
        match *self {
            Kind::NoteOff { channel, .. } => Some(0x80 | channel),
            Kind::NoteOn { channel, .. } => Some(0x90 | channel),
            Kind::PolyAftertouch { channel, .. } => Some(0xA0 | channel),
            Kind::Control { channel, .. } => Some(0xB0 | channel),
            Kind::Program { channel, .. } => Some(0xC0 | channel),
            Kind::ChannelAftertouch { channel, .. } => Some(0xD0 | channel),
            Kind::PitchBend { channel, .. } => Some(0xE0 | channel),
            _ => None,
        }
    }

    /// Whether every field is within the range that document 01 gives it.
    pub fn keeps_ranges(&self) -> bool {
        match *self {
            Kind::NoteOff { channel, key: first, velocity: second }
            | Kind::NoteOn { channel, key: first, velocity: second }
            | Kind::PolyAftertouch { channel, key: first, value: second }
            | Kind::Control { channel, control: first, value: second } => {
                channel <= 15 && first <= 127 && second <= 127
            }
            Kind::Program { channel, program: value }
            | Kind::ChannelAftertouch { channel, value } => channel <= 15 && value <= 127,
            Kind::PitchBend { channel, value } => channel <= 15 && value <= 16_383,
            Kind::Tempo(tempo) => (1..=16_777_215).contains(&tempo),
            Kind::SmpteOffset(numbers) => numbers[4] <= 99,
            Kind::KeySignature { key, .. } => (-7..=7).contains(&key),
            Kind::UnknownMeta { meta_type, .. } => meta_type <= 127 && !has_own_name(meta_type),
            _ => true,
        }
    }
}

#[derive(Clone, Debug, PartialEq, Eq)]
pub struct Event {
    pub time: Time,
    pub kind: Kind,
}

#[derive(Clone, Debug, PartialEq, Eq, Default)]
pub struct Track {
    pub events: Vec<Event>,
}

impl Track {
    pub fn end_time(&self) -> Time {
        self.events.last().map_or(Time::START, |event| event.time)
    }

    fn keeps_rules(&self) -> bool {
        let ends: Vec<bool> =
            self.events.iter().map(|event| event.kind == Kind::EndTrack).collect();
        ends.iter().position(|end| *end) == ends.len().checked_sub(1)
            && !ends.is_empty()
            && self.events.windows(2).all(|pair| pair[0].time <= pair[1].time)
            && self.events.iter().all(|event| event.kind.keeps_ranges())
    }
}

#[derive(Clone, Debug, PartialEq, Eq)]
pub struct Piece {
    pub format: Format,
    pub division: Division,
    pub tracks: Vec<Track>,
}

impl Piece {
    /// Whether the piece keeps every rule and range of document 01.
    pub fn keeps_rules(&self) -> bool {
        self.format.permits_tracks(self.tracks.len())
            && Division::from_signed(self.division.signed()) == Some(self.division)
            && self.tracks.iter().all(Track::keeps_rules)
    }
}
