//! File to text again, made for speed: what ordinary safe Rust does in one pass.
//! Only to be timed and to be held against the second program; it shares nothing
//! with that but the refusal numbers.

mod field;

use crate::refusal::{Number, Refusal};
use crate::FILE_MAX;
use field::{number_field, put_word, small_field, Start};
use field::{
    CHANNEL, CHANNEL_PREFIX, END_TRACK, KEY_SIGNATURE, MIDI_PORT, QUOTED, SEQUENCER_SPECIFIC,
    SEQUENCE_NUMBER, SMPTE_OFFSET, SYSTEM_EXCLUSIVE, SYSTEM_EXCLUSIVE_PACKET, TEMPO, TEXTS,
    TIME_SIGNATURE, UNKNOWN_META_EVENT,
};

/// The text of a file, in place of what `text` held; it is empty after a refusal.
pub fn file_to_text(file: &[u8], text: &mut Vec<u8>) -> Result<(), Refusal> {
    text.clear();
    let done = pieces(file, text);
    if done.is_err() {
        text.clear();
    }
    done
}

fn refuse<T>(number: Number, place: usize) -> Result<T, Refusal> {
    Err(Refusal { number, place })
}

fn pieces(file: &[u8], text: &mut Vec<u8>) -> Result<(), Refusal> {
    let (tracks, mut at) = header(file, text)?;
    let mut read = 0;
    // Chunk by chunk; once all tracks are read, the file's end may come.
    while read < tracks || at < file.len() {
        let Some(start) = file[at..].first_chunk::<8>() else {
            return refuse(Number::FileCutShort, at);
        };
        let is_track = start.starts_with(b"MTrk");
        if is_track && read == tracks {
            return refuse(Number::AfterLastTrack, at);
        }
        let (body, length) = (at + 8, high_first(&start[4..]) as usize);
        if length > file.len() - body {
            return refuse(Number::FileCutShort, at);
        }
        at = body + length;
        if is_track {
            read += 1;
            Track::new(&file[..at], body, read).write(text)?;
        }
    }
    text.extend_from_slice(b"0, 0, End_of_file\n");
    Ok(())
}

/// Writes the header's record; the number of tracks, and where the header ends.
fn header(file: &[u8], text: &mut Vec<u8>) -> Result<(u32, usize), Refusal> {
    if file.len() > FILE_MAX {
        return refuse(Number::FileTooLong, 0);
    }
    if file.len() < 14 {
        return refuse(Number::FileCutShort, 0);
    }
    let end = 8 + high_first(&file[4..8]) as usize;
    let (format, tracks) = (high_first(&file[8..10]), high_first(&file[10..12]));
    let division = i16::from_be_bytes([file[12], file[13]]);
    let faults = [
        (file[..4] != *b"MThd", Number::Header, 0),
        (end < 14, Number::Header, 4),
        (end > file.len(), Number::FileCutShort, 0),
        (format > 2, Number::Header, 8),
        (tracks == 0 || format == 0 && tracks != 1, Number::Header, 10),
        (!is_division(file[12], file[13]), Number::Header, 12),
    ];
    if let Some((_, number, place)) = faults.into_iter().find(|(fault, ..)| *fault) {
        return refuse(number, place);
    }
    text.extend_from_slice(format!("0, 0, Header, {format}, {tracks}, {division}\n").as_bytes());
    Ok((tracks, end))
}

/// Pulses to the quarter note, or ticks to the frame behind 24, 25, 29 or 30 below 0.
fn is_division(high: u8, low: u8) -> bool {
    match high {
        0x00 | 0xE8 | 0xE7 | 0xE3 | 0xE2 => low > 0,
        _ => high < 0x80,
    }
}

fn high_first(bytes: &[u8]) -> u32 {
    bytes.iter().fold(0, |value, byte| value << 8 | u32::from(*byte))
}

/// A track while it is read; `file` ends where the track does.
struct Track<'a> {
    file: &'a [u8],
    at: usize,
    /// Where the event being read begins: the place of its faults.
    event: usize,
    time: u32,
    /// The status in force, or 0.
    status: u8,
    /// What every record of this track and Time begins with.
    start: Start,
}

impl<'a> Track<'a> {
    fn new(file: &'a [u8], at: usize, number: u32) -> Track<'a> {
        Track { file, at, event: at, time: 0, status: 0, start: Start::of(number) }
    }

    fn write(mut self, text: &mut Vec<u8>) -> Result<(), Refusal> {
        self.start.put(text);
        text.extend_from_slice(b", Start_track\n");
        loop {
            let last = self.record(text)?;
            text.push(b'\n');
            if last {
                break;
            }
        }
        if self.at < self.file.len() {
            return refuse(Number::AfterEndTrack, self.at);
        }
        Ok(())
    }

    #[cold]
    fn fault(&self, number: Number) -> Refusal {
        Refusal { number, place: self.event }
    }

    #[inline]
    fn byte(&mut self) -> Result<u8, Refusal> {
        match self.file.get(self.at) {
            Some(byte) => {
                self.at += 1;
                Ok(*byte)
            }
            None => Err(self.fault(Number::EventCutShort)),
        }
    }

    #[inline]
    fn variable(&mut self) -> Result<u32, Refusal> {
        let mut value = 0;
        for _ in 0..3 {
            let byte = self.byte()?;
            value = value << 7 | u32::from(byte & 0x7F);
            if byte < 0x80 {
                return Ok(value);
            }
        }
        match self.byte()? {
            byte @ 0..=0x7F => Ok(value << 7 | u32::from(byte)),
            _ => Err(self.fault(Number::VariableTooLong)),
        }
    }

    #[inline]
    fn body(&mut self, length: u32) -> Result<&'a [u8], Refusal> {
        match self.file[self.at..].get(..length as usize) {
            Some(body) => {
                self.at += body.len();
                Ok(body)
            }
            None => Err(self.fault(Number::EventCutShort)),
        }
    }

    /// Writes one record without its end of line; whether it was End_track.
    #[inline]
    fn record(&mut self, text: &mut Vec<u8>) -> Result<bool, Refusal> {
        self.event = self.at;
        let delta = self.variable()?;
        if delta > 0 {
            let Some(time) = self.time.checked_add(delta) else {
                return Err(self.fault(Number::TimeTooGreat));
            };
            self.time = time;
            self.start.set_time(time);
        }
        let first = self.byte()?;
        match first {
            0x00..=0x7F if self.status == 0 => return Err(self.fault(Number::Status)),
            0x00..=0x7F => self.channel(first, text)?,
            0x80..=0xEF => {
                self.status = first;
                let data = self.byte()?;
                self.channel(data, text)?;
            }
            0xF0 | 0xF7 => {
                self.status = 0;
                let length = self.variable()?;
                let body = self.body(length)?;
                self.start.put(text);
                let name = if first == 0xF0 { &SYSTEM_EXCLUSIVE } else { &SYSTEM_EXCLUSIVE_PACKET };
                name.put(text);
                data_fields(text, body);
            }
            0xFF => {
                self.status = 0;
                return self.meta(text);
            }
            _ => return Err(self.fault(Number::Status)),
        }
        Ok(false)
    }

    /// An event of the channel status in force, whose first data byte is read.
    #[inline]
    fn channel(&mut self, first: u8, text: &mut Vec<u8>) -> Result<(), Refusal> {
        if first > 127 {
            return Err(self.fault(Number::ChannelData));
        }
        let kind = usize::from(self.status >> 4) - 8;
        let mut second = 0;
        if kind != 4 && kind != 5 {
            second = self.byte()?;
            if second > 127 {
                return Err(self.fault(Number::ChannelData));
            }
        }
        self.start.put(text);
        CHANNEL[kind].put(text);
        small_field(text, self.status & 0x0F);
        match kind {
            4 | 5 => small_field(text, first),
            6 => number_field(text, 128 * u32::from(second) + u32::from(first)),
            _ => {
                small_field(text, first);
                small_field(text, second);
            }
        }
        Ok(())
    }

    fn meta(&mut self, text: &mut Vec<u8>) -> Result<bool, Refusal> {
        let meta_type = self.byte()?;
        if meta_type > 127 {
            return Err(self.fault(Number::Status));
        }
        let length = self.variable()?;
        let due = match meta_type {
            0x2F => 0,
            0x20 | 0x21 => 1,
            0x00 | 0x59 => 2,
            0x51 => 3,
            0x58 => 4,
            0x54 => 5,
            _ => length,
        };
        if length != due {
            return Err(self.fault(Number::MetaLength));
        }
        let body = self.body(length)?;
        let out_of_range = match meta_type {
            0x51 => *body == [0, 0, 0],
            0x54 => body[4] > 99,
            0x59 => !(-7..=7).contains(&(body[0] as i8)) || body[1] > 1,
            _ => false,
        };
        if out_of_range {
            return Err(self.fault(Number::MetaValue));
        }
        self.start.put(text);
        meta_fields(text, meta_type, body);
        Ok(meta_type == 0x2F)
    }
}

/// Name and fields of a meta event that is good.
fn meta_fields(text: &mut Vec<u8>, meta_type: u8, body: &[u8]) {
    match meta_type {
        0x00 => SEQUENCE_NUMBER.put(text),
        0x01..=0x07 => TEXTS[usize::from(meta_type) - 1].put(text),
        0x20 => CHANNEL_PREFIX.put(text),
        0x21 => MIDI_PORT.put(text),
        0x2F => END_TRACK.put(text),
        0x51 => TEMPO.put(text),
        0x54 => SMPTE_OFFSET.put(text),
        0x58 => TIME_SIGNATURE.put(text),
        0x59 => KEY_SIGNATURE.put(text),
        0x7F => SEQUENCER_SPECIFIC.put(text),
        _ => {
            UNKNOWN_META_EVENT.put(text);
            small_field(text, meta_type);
        }
    }
    match meta_type {
        0x00 | 0x51 => number_field(text, high_first(body)),
        0x01..=0x07 => quoted_field(text, body),
        0x20 | 0x21 | 0x2F | 0x54 | 0x58 => body.iter().for_each(|byte| small_field(text, *byte)),
        0x59 => {
            let key = body[0] as i8;
            text.extend_from_slice(if key < 0 { b", -" } else { b", " });
            text.push(b'0' + key.unsigned_abs());
            text.extend_from_slice(if body[1] == 0 { b", \"major\"" } else { b", \"minor\"" });
        }
        _ => data_fields(text, body),
    }
}

/// Length, then each byte.
fn data_fields(text: &mut Vec<u8>, body: &[u8]) {
    number_field(text, body.len() as u32);
    for byte in body {
        small_field(text, *byte);
    }
}

fn quoted_field(text: &mut Vec<u8>, body: &[u8]) {
    text.extend_from_slice(b", \"");
    for byte in body {
        put_word(text, &QUOTED[usize::from(*byte)]);
    }
    text.push(b'"');
}
