//! From the bytes of a file to its piece, or to its earliest fault.

use crate::number::{big_endian, read_variable, Fault, Variable};
use crate::piece::{Delta, Division, Event, Format, Kind, Mode, Piece, TextKind, Time, Track};
use crate::refusal::{Number, Refusal};
use crate::FILE_MAX;

fn refuse<T>(number: Number, place: usize) -> Result<T, Refusal> {
    Err(Refusal { number, place })
}

pub fn read_file(file: &[u8]) -> Result<Piece, Refusal> {
    read_whole(file).map(|whole| whole.piece)
}

/// Of each track, the place of each event: the first byte of its delta.
pub type Places = Vec<Vec<usize>>;

/// A piece, and what only its file has.
pub struct Whole {
    pub piece: Piece,
    pub places: Places,
    /// Of each track, the bytes above the fewest in all its variable-length numbers.
    pub padding: Vec<u32>,
}

pub fn read_whole(file: &[u8]) -> Result<Whole, Refusal> {
    if file.len() > FILE_MAX {
        return refuse(Number::FileTooLong, 0);
    }
    let Header { format, count, division, end } = read_header(file)?;
    let (mut tracks, mut places, mut padding) = (Vec::new(), Vec::new(), Vec::new());
    let mut at = end;
    for _ in 0..count {
        let chunk = track_from(file, at)?;
        let read = read_track(&file[..chunk.end], chunk.at + CHUNK_START)?;
        tracks.push(read.track);
        places.push(read.places);
        padding.push(read.padding);
        at = chunk.end;
    }
    no_track_from(file, at)?;
    Ok(Whole { piece: Piece { format, division, tracks }, places, padding })
}

struct Header {
    format: Format,
    count: usize,
    division: Division,
    /// Where the first chunk behind the header begins.
    end: usize,
}

fn read_header(file: &[u8]) -> Result<Header, Refusal> {
    if file.len() < 14 {
        return refuse(Number::FileCutShort, 0);
    }
    let fault = |place| Refusal { number: Number::Header, place };
    if file[..4] != *b"MThd" {
        return Err(fault(0));
    }
    let length = big_endian(&file[4..8]) as usize;
    if length < 6 {
        return Err(fault(4));
    }
    if length > file.len() - CHUNK_START {
        return refuse(Number::FileCutShort, 0);
    }
    let format = Format::from_number(big_endian(&file[8..10])).ok_or(fault(8))?;
    let count = big_endian(&file[10..12]) as usize;
    if !format.permits_tracks(count) {
        return Err(fault(10));
    }
    let division = i16::from_be_bytes([file[12], file[13]]);
    let division = Division::from_signed(division).ok_or(fault(12))?;
    Ok(Header { format, count, division, end: CHUNK_START + length })
}

/// Tag and length.
const CHUNK_START: usize = 8;
const TRACK: [u8; 4] = *b"MTrk";

/// A chunk that the file holds whole: from its tag to where it ends.
struct Chunk {
    at: usize,
    end: usize,
}

/// The chunk that begins at `at`, whatever its tag.
fn chunk_at(file: &[u8], at: usize) -> Result<Chunk, Refusal> {
    let left = file.len() - at;
    if left < CHUNK_START {
        return refuse(Number::FileCutShort, at);
    }
    let length = big_endian(&file[at + 4..at + 8]) as usize;
    if length > left - CHUNK_START {
        return refuse(Number::FileCutShort, at);
    }
    Ok(Chunk { at, end: at + CHUNK_START + length })
}

/// The first track at or after `at`, where one must come: unknown chunks are passed over.
fn track_from(file: &[u8], mut at: usize) -> Result<Chunk, Refusal> {
    loop {
        let chunk = chunk_at(file, at)?;
        if file[at..].starts_with(&TRACK) {
            return Ok(chunk);
        }
        at = chunk.end;
    }
}

/// From `at`, behind the last track, to the file's end only unknown chunks may stand. A
/// track there is one too many, whatever its length; but it takes eight bytes to be a chunk.
fn no_track_from(file: &[u8], mut at: usize) -> Result<(), Refusal> {
    while at < file.len() {
        if file.len() - at >= CHUNK_START && file[at..].starts_with(&TRACK) {
            return refuse(Number::AfterLastTrack, at);
        }
        at = chunk_at(file, at)?.end;
    }
    Ok(())
}

/// A track, and what only its file has.
struct WholeTrack {
    track: Track,
    places: Vec<usize>,
    padding: u32,
}

/// Reads the events from `at` to the end of `file`, which is the track's end.
fn read_track(file: &[u8], at: usize) -> Result<WholeTrack, Refusal> {
    let mut reader = Reader { file, at, event: at, padding: 0, time: Time::START, in_force: None };
    let (mut events, mut places, mut padding) = (Vec::new(), Vec::new(), 0);
    loop {
        let event = reader.event()?;
        let last = event.kind == Kind::EndTrack;
        events.push(event);
        places.push(reader.event);
        padding += reader.padding;
        if last {
            break;
        }
    }
    if reader.at < file.len() {
        return refuse(Number::AfterEndTrack, reader.at);
    }
    Ok(WholeTrack { track: Track { events }, places, padding })
}

/// A place within a track; `file` ends where the track does.
struct Reader<'a> {
    file: &'a [u8],
    at: usize,
    /// The first byte of the event being read: the place of its faults.
    event: usize,
    /// The bytes above the fewest in its delta and in its length.
    padding: u32,
    time: Time,
    in_force: Option<u8>,
}

impl<'a> Reader<'a> {
    fn fault(&self, number: Number) -> Refusal {
        Refusal { number, place: self.event }
    }

    fn byte(&mut self) -> Result<u8, Refusal> {
        let byte = *self.file.get(self.at).ok_or(self.fault(Number::EventCutShort))?;
        self.at += 1;
        Ok(byte)
    }

    fn variable(&mut self) -> Result<u32, Refusal> {
        match read_variable(&self.file[self.at..]) {
            Ok(Variable { value, width, padding }) => {
                self.at += width;
                self.padding += padding as u32;
                Ok(value)
            }
            Err(Fault::Ends) => Err(self.fault(Number::EventCutShort)),
            Err(Fault::TooLong) => Err(self.fault(Number::VariableTooLong)),
        }
    }

    fn body(&mut self, length: u32) -> Result<&'a [u8], Refusal> {
        let rest = &self.file[self.at..];
        let body = rest.get(..length as usize).ok_or(self.fault(Number::EventCutShort))?;
        self.at += body.len();
        Ok(body)
    }

    fn event(&mut self) -> Result<Event, Refusal> {
        (self.event, self.padding) = (self.at, 0);
        let delta = Delta(self.variable()?);
        self.time = self.time.after(delta).ok_or(self.fault(Number::TimeTooGreat))?;
        let first = self.byte()?;
        let kind = match first {
            0x00..=0x7F => {
                let status = self.in_force.ok_or(self.fault(Number::Status))?;
                // The byte is the first data byte: give it back.
                self.at -= 1;
                self.channel(status)?
            }
            0x80..=0xEF => self.channel(first)?,
            0xF0 | 0xF7 => self.exclusive(first)?,
            0xFF => self.meta()?,
            _ => return Err(self.fault(Number::Status)),
        };
        self.in_force = kind.channel_status();
        Ok(Event { time: self.time, kind })
    }

    fn channel_data(&mut self) -> Result<u8, Refusal> {
        match self.byte()? {
            byte @ 0..=127 => Ok(byte),
            _ => Err(self.fault(Number::ChannelData)),
        }
    }

    fn channel(&mut self, status: u8) -> Result<Kind, Refusal> {
        let channel = status & 0x0F;
        let first = self.channel_data()?;
        Ok(match status >> 4 {
            0xC => Kind::Program { channel, program: first },
            0xD => Kind::ChannelAftertouch { channel, value: first },
            high => {
                let second = self.channel_data()?;
                match high {
                    0x8 => Kind::NoteOff { channel, key: first, velocity: second },
                    0x9 => Kind::NoteOn { channel, key: first, velocity: second },
                    0xA => Kind::PolyAftertouch { channel, key: first, value: second },
                    0xB => Kind::Control { channel, control: first, value: second },
                    _ => Kind::PitchBend {
                        channel,
                        value: 128 * u16::from(second) + u16::from(first),
                    },
                }
            }
        })
    }

    fn exclusive(&mut self, first: u8) -> Result<Kind, Refusal> {
        let length = self.variable()?;
        let data = self.body(length)?.to_vec();
        Ok(match first {
            0xF0 => Kind::SystemExclusive(data),
            _ => Kind::SystemExclusivePacket(data),
        })
    }

    fn meta(&mut self) -> Result<Kind, Refusal> {
        let meta_type = self.byte()?;
        if meta_type > 127 {
            return Err(self.fault(Number::Status));
        }
        let length = self.variable()?;
        if fixed_length(meta_type).is_some_and(|due| due != length) {
            return Err(self.fault(Number::MetaLength));
        }
        let body = self.body(length)?;
        meta_kind(meta_type, body).ok_or(self.fault(Number::MetaValue))
    }
}

/// The length that a meta type demands, if it demands one.
fn fixed_length(meta_type: u8) -> Option<u32> {
    match meta_type {
        0x00 | 0x59 => Some(2),
        0x20 | 0x21 => Some(1),
        0x2F => Some(0),
        0x51 => Some(3),
        0x54 => Some(5),
        0x58 => Some(4),
        _ => None,
    }
}

/// The meta event with this body, or nothing if a value is out of range.
fn meta_kind(meta_type: u8, body: &[u8]) -> Option<Kind> {
    let kind = match meta_type {
        0x00 => Kind::SequenceNumber(big_endian(body) as u16),
        0x01..=0x07 => Kind::Text(TextKind::ALL[usize::from(meta_type) - 1], body.to_vec()),
        0x20 => Kind::ChannelPrefix(body[0]),
        0x21 => Kind::MidiPort(body[0]),
        0x2F => Kind::EndTrack,
        0x51 => Kind::Tempo(big_endian(body)),
        0x54 => Kind::SmpteOffset(body.try_into().ok()?),
        0x58 => Kind::TimeSignature(body.try_into().ok()?),
        0x59 => Kind::KeySignature { key: body[0] as i8, mode: mode(body[1])? },
        0x7F => Kind::SequencerSpecific(body.to_vec()),
        _ => Kind::UnknownMeta { meta_type, data: body.to_vec() },
    };
    kind.keeps_ranges().then_some(kind)
}

fn mode(byte: u8) -> Option<Mode> {
    match byte {
        0 => Some(Mode::Major),
        1 => Some(Mode::Minor),
        _ => None,
    }
}
