//! Refusal numbers and answers.

/// The refusal numbers of document 01, those that document 02 adds, and that of tables.
/// 4, a track's tag that was not MTrk, fell away with Wish 3; its number is not given again.
#[derive(Clone, Copy, Debug, PartialEq, Eq, PartialOrd, Ord)]
#[repr(u8)]
pub enum Number {
    FileTooLong = 1,
    FileCutShort = 2,
    Header = 3,
    VariableTooLong = 5,
    EventCutShort = 6,
    TimeTooGreat = 7,
    Status = 8,
    ChannelData = 9,
    MetaLength = 10,
    MetaValue = 11,
    AfterEndTrack = 12,
    AfterLastTrack = 13,
    Room = 14,
    TextTooLong = 21,
    FieldShape = 22,
    Name = 23,
    FieldCount = 24,
    FieldRange = 25,
    Order = 26,
    Step = 27,
    TextCutShort = 28,
    WrittenTooLong = 29,
    Manner = 30,
    TooManyTracks = 31,
    FormatTwo = 32,
    PrefixOrPort = 33,
    TooFewRows = 37,
    TableTooLong = 38,
}

/// A refusal met in reading: bytes count from 0, lines from 1.
#[derive(Clone, Copy, Debug, PartialEq, Eq)]
pub struct Refusal {
    pub number: Number,
    pub place: usize,
}

/// What every operation answers.
#[derive(Clone, Copy, Debug, PartialEq, Eq)]
pub struct Answer {
    pub number: u8,
    pub place: usize,
    pub length: usize,
}

impl Answer {
    pub fn success(length: usize) -> Answer {
        Answer { number: 0, place: 0, length }
    }

    /// 14, the only refusal that carries a length: the one needed.
    pub fn room_needed(length: usize) -> Answer {
        Answer { number: Number::Room as u8, place: 0, length }
    }

    /// number * 2^56 + place * 2^28 + length, as the C interface gives it.
    pub fn packed(self) -> u64 {
        (u64::from(self.number) << 56) + ((self.place as u64) << 28) + self.length as u64
    }

    pub fn unpacked(packed: u64) -> Answer {
        const LOW_28: u64 = (1 << 28) - 1;
        Answer {
            number: (packed >> 56) as u8,
            place: (packed >> 28 & LOW_28) as usize,
            length: (packed & LOW_28) as usize,
        }
    }

    /// Whether the place is a line of a text and not a byte of a file.
    pub fn place_is_line(self) -> bool {
        (22..=28).contains(&self.number)
    }
}

impl From<Refusal> for Answer {
    fn from(refusal: Refusal) -> Answer {
        Answer { number: refusal.number as u8, place: refusal.place, length: 0 }
    }
}
