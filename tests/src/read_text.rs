//! From a text to its piece, or to its earliest fault.

use crate::number::VARIABLE_MAX;
use crate::piece::{Division, Event, Format, Kind, Piece, Time, Track};
use crate::refusal::{Number, Refusal};
use crate::text_field::{is_passed_over, lines};
use crate::text_record::{read_record, Body, Record};
use crate::TEXT_MAX;

pub fn read_text(text: &[u8]) -> Result<Piece, Refusal> {
    if text.len() > TEXT_MAX {
        return Err(Refusal { number: Number::TextTooLong, place: 0 });
    }
    let mut reader = Reader { due: Due::Header, head: None, tracks: Vec::new() };
    let mut count = 0;
    for line in lines(text) {
        count += 1;
        if !is_passed_over(line) {
            read_record(line)
                .and_then(|record| reader.take(record))
                .map_err(|number| Refusal { number, place: count })?;
        }
    }
    match (reader.due, reader.head) {
        (Due::Nothing, Some((format, _, division))) => {
            Ok(Piece { format, division, tracks: reader.tracks })
        }
        _ => Err(Refusal { number: Number::TextCutShort, place: count + 1 }),
    }
}

/// What the order of records asks for next.
#[derive(Clone, Copy, Debug, PartialEq, Eq)]
enum Due {
    Header,
    /// Start_track of the next track, or End_of_file after the last.
    StartTrack,
    /// An event of the last track, at this Time or later.
    Event(Time),
    Nothing,
}

struct Reader {
    due: Due,
    head: Option<(Format, usize, Division)>,
    tracks: Vec<Track>,
}

impl Reader {
    fn take(&mut self, record: Record) -> Result<(), Number> {
        match (self.due, record.body) {
            (Due::Header, Body::Header { format, tracks, division })
                if record.track == 0 && record.time == Time::START =>
            {
                self.head = Some((format, tracks, division));
                self.due = Due::StartTrack;
            }
            (Due::StartTrack, Body::StartTrack)
                if self.tracks.len() < self.tracks_due()
                    && record.track == self.tracks.len() + 1
                    && record.time == Time::START =>
            {
                self.tracks.push(Track::default());
                self.due = Due::Event(Time::START);
            }
            (Due::StartTrack, Body::EndOfFile)
                if self.tracks.len() == self.tracks_due()
                    && record.track == 0
                    && record.time == Time::START =>
            {
                self.due = Due::Nothing;
            }
            (Due::Event(before), Body::Event(kind)) if record.track == self.tracks.len() => {
                self.take_event(before, Event { time: record.time, kind })?;
            }
            _ => return Err(Number::Order),
        }
        Ok(())
    }

    fn take_event(&mut self, before: Time, event: Event) -> Result<(), Number> {
        let step = event.time.since(before).ok_or(Number::Order)?;
        if step.0 > VARIABLE_MAX {
            return Err(Number::Step);
        }
        self.due = match event.kind {
            Kind::EndTrack => Due::StartTrack,
            _ => Due::Event(event.time),
        };
        if let Some(track) = self.tracks.last_mut() {
            track.events.push(event);
        }
        Ok(())
    }

    fn tracks_due(&self) -> usize {
        self.head.map_or(0, |(_, tracks, _)| tracks)
    }
}
