//! What the files of a run held. A run that compares texts must have met every
//! kind of event, deltas and data of the lengths at which a number grows by a byte, and
//! every byte value; else it says less than it seems to.

use crate::piece::{Delta, Kind, Piece, Time, Track};

/// The deltas that are due: the least and the greatest of each size of number.
pub const DELTAS: [u32; 8] = [0, 127, 128, 16_383, 16_384, 2_097_151, 2_097_152, 268_435_455];

/// The lengths of data that are due in every kind which has data.
pub const LENGTHS: [usize; 5] = [0, 127, 128, 16_383, 16_384];

/// The names of the records: 19 kinds without texts, then the seven texts.
const NAMES: [&str; 26] = [
    "Note_off_c", "Note_on_c", "Poly_aftertouch_c", "Control_c", "Program_c",
    "Channel_aftertouch_c", "Pitch_bend_c", "System_exclusive", "System_exclusive_packet",
    "Sequence_number", "Channel_prefix", "MIDI_port", "End_track", "Tempo", "SMPTE_offset",
    "Time_signature", "Key_signature", "Sequencer_specific", "Unknown_meta_event", "Text_t",
    "Copyright_t", "Title_t", "Instrument_name_t", "Lyric_t", "Marker_t", "Cue_point_t",
];
/// The place of the first text among the names.
const TEXTS: usize = 19;

/// Its place among the names, and its data if it has any.
fn sorted(kind: &Kind) -> (usize, Option<&[u8]>) {
    match kind {
        Kind::NoteOff { .. } => (0, None),
        Kind::NoteOn { .. } => (1, None),
        Kind::PolyAftertouch { .. } => (2, None),
        Kind::Control { .. } => (3, None),
        Kind::Program { .. } => (4, None),
        Kind::ChannelAftertouch { .. } => (5, None),
        Kind::PitchBend { .. } => (6, None),
        Kind::SystemExclusive(data) => (7, Some(data)),
        Kind::SystemExclusivePacket(data) => (8, Some(data)),
        Kind::SequenceNumber(_) => (9, None),
        Kind::ChannelPrefix(_) => (10, None),
        Kind::MidiPort(_) => (11, None),
        Kind::EndTrack => (12, None),
        Kind::Tempo(_) => (13, None),
        Kind::SmpteOffset(_) => (14, None),
        Kind::TimeSignature(_) => (15, None),
        Kind::KeySignature { .. } => (16, None),
        Kind::SequencerSpecific(data) => (17, Some(data)),
        Kind::UnknownMeta { data, .. } => (18, Some(data)),
        Kind::Text(text, data) => (TEXTS - 1 + usize::from(text.meta_type()), Some(data)),
    }
}

/// The kinds that have data.
fn with_data() -> impl Iterator<Item = usize> {
    [7, 8, 17, 18].into_iter().chain(TEXTS..NAMES.len())
}

/// How often each was met.
pub struct Coverage {
    kinds: [u64; 26],
    deltas: [u64; DELTAS.len()],
    lengths: [[u64; LENGTHS.len()]; 26],
    text_bytes: [u64; 256],
    data_bytes: [u64; 256],
}

impl Default for Coverage {
    fn default() -> Coverage {
        Coverage {
            kinds: [0; 26],
            deltas: [0; DELTAS.len()],
            lengths: [[0; LENGTHS.len()]; 26],
            text_bytes: [0; 256],
            data_bytes: [0; 256],
        }
    }
}

impl Coverage {
    pub fn add(&mut self, piece: &Piece) {
        piece.tracks.iter().for_each(|track| self.add_deltas(track));
        for event in piece.tracks.iter().flat_map(|track| &track.events) {
            let (kind, data) = sorted(&event.kind);
            self.kinds[kind] += 1;
            let Some(data) = data else { continue };
            if let Some(length) = LENGTHS.iter().position(|length| *length == data.len()) {
                self.lengths[kind][length] += 1;
            }
            let bytes = if kind < TEXTS { &mut self.data_bytes } else { &mut self.text_bytes };
            data.iter().for_each(|byte| bytes[usize::from(*byte)] += 1);
        }
    }

    fn add_deltas(&mut self, track: &Track) {
        let mut before = Time::START;
        for event in &track.events {
            let met = event.time.since(before);
            if let Some(index) = DELTAS.iter().position(|delta| Some(Delta(*delta)) == met) {
                self.deltas[index] += 1;
            }
            before = event.time;
        }
    }

    /// What was due but never met, in words.
    pub fn missing(&self) -> Vec<String> {
        let kinds = (0..NAMES.len()).filter(|kind| self.kinds[*kind] == 0);
        let mut missing: Vec<String> = kinds.map(|kind| NAMES[kind].to_owned()).collect();
        let deltas = (0..DELTAS.len()).filter(|index| self.deltas[*index] == 0);
        missing.extend(deltas.map(|index| format!("delta {}", DELTAS[index])));
        for kind in with_data() {
            for (index, length) in LENGTHS.iter().enumerate() {
                if self.lengths[kind][index] == 0 {
                    missing.push(format!("{} of length {length}", NAMES[kind]));
                }
            }
        }
        for (what, bytes) in [("text", &self.text_bytes), ("data", &self.data_bytes)] {
            let never = (0..256).filter(|byte| bytes[*byte] == 0);
            missing.extend(never.map(|byte| format!("{what} byte {byte}")));
        }
        missing
    }

    /// The least count of each sort, in words.
    pub fn summary(&self) -> String {
        let least = |counts: &[u64]| counts.iter().copied().min().unwrap_or(0);
        let lengths: Vec<String> = (0..LENGTHS.len())
            .map(|index| {
                let counts: Vec<u64> = with_data().map(|kind| self.lengths[kind][index]).collect();
                format!("{} of {}", least(&counts), LENGTHS[index])
            })
            .collect();
        format!(
            "each of {} records at least {} times, each of {} deltas at least {} times, of the 11 \
             with data each length at least so often: {}; each byte value at least {} times in \
             texts, {} in other data",
            NAMES.len(),
            least(&self.kinds),
            DELTAS.len(),
            least(&self.deltas),
            lengths.join(", "),
            least(&self.text_bytes),
            least(&self.data_bytes),
        )
    }
}

#[test]
fn what_was_not_met_is_missed() {
    use crate::generate::{kind_of, Rng, KINDS};
    use crate::piece::{Division, Event, Format, TextKind};

    let mut coverage = Coverage::default();
    assert_eq!(coverage.missing().len(), 26 + DELTAS.len() + 11 * LENGTHS.len() + 2 * 256);
    let rng = &mut Rng::new(0);
    let mut kinds: Vec<Kind> = (0..KINDS).map(|number| kind_of(rng, number, 0)).collect();
    kinds.extend(TextKind::ALL.map(|text| Kind::Text(text, (0..=255).collect())));
    for length in LENGTHS {
        let data = vec![7; length];
        kinds.extend(TextKind::ALL.map(|text| Kind::Text(text, data.clone())));
        kinds.push(Kind::SystemExclusive(data.clone()));
        kinds.push(Kind::SystemExclusivePacket(data.clone()));
        kinds.push(Kind::SequencerSpecific(data.clone()));
        if length != 128 {
            kinds.push(Kind::UnknownMeta { meta_type: 8, data });
        }
    }
    kinds.push(Kind::SequencerSpecific((0..=254).collect()));
    let at_start =
        Track { events: kinds.into_iter().map(|kind| Event { time: Time::START, kind }).collect() };
    // One after the other, but for the last of the deltas.
    let times = DELTAS[..7].iter().scan(Time::START, |time, delta| {
        *time = time.after(Delta(*delta))?;
        Some(*time)
    });
    let later =
        Track { events: times.map(|time| Event { time, kind: Kind::ChannelPrefix(0) }).collect() };
    let (format, division) = (Format::Together, Division::Pulses(96));
    coverage.add(&Piece { format, division, tracks: vec![at_start, later] });
    let missing = coverage.missing();
    assert!(missing.contains(&"delta 268435455".to_owned()), "{missing:?}");
    assert!(missing.contains(&"Unknown_meta_event of length 128".to_owned()), "{missing:?}");
    assert!(!missing.iter().any(|word| word.starts_with("text byte")), "{missing:?}");
    let of_data = missing.iter().filter(|word| word.starts_with("data byte"));
    assert!(of_data.eq(["data byte 255"]) && missing.len() == 3, "{missing:?}");
}
