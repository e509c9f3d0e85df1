//! From a piece to its one text.

use std::io::Write;

use crate::piece::{Event, Kind, Mode, Piece};

pub fn write_text(piece: &Piece) -> Vec<u8> {
    let mut text = Vec::new();
    line(
        &mut text,
        format_args!(
            "0, 0, Header, {}, {}, {}\n",
            piece.format.number(),
            piece.tracks.len(),
            piece.division.signed()
        ),
    );
    for (index, track) in piece.tracks.iter().enumerate() {
        line(&mut text, format_args!("{}, 0, Start_track\n", index + 1));
        for event in &track.events {
            write_event(&mut text, index + 1, event);
        }
    }
    line(&mut text, format_args!("0, 0, End_of_file\n"));
    text
}

/// Appending to a vector of bytes cannot fail.
fn line(text: &mut Vec<u8>, arguments: std::fmt::Arguments) {
    let _ = text.write_fmt(arguments);
}

fn write_event(text: &mut Vec<u8>, track: usize, event: &Event) {
    line(text, format_args!("{}, {}, {}", track, event.time.0, name(&event.kind)));
    match &event.kind {
        Kind::NoteOff { channel, key: first, velocity: second }
        | Kind::NoteOn { channel, key: first, velocity: second }
        | Kind::PolyAftertouch { channel, key: first, value: second }
        | Kind::Control { channel, control: first, value: second } => {
            bytes(text, &[*channel, *first, *second]);
        }
        Kind::Program { channel, program: value } | Kind::ChannelAftertouch { channel, value } => {
            bytes(text, &[*channel, *value]);
        }
        Kind::PitchBend { channel, value } => line(text, format_args!(", {channel}, {value}")),
        Kind::SequenceNumber(number) => line(text, format_args!(", {number}")),
        Kind::Text(_, data) => quoted(text, data),
        Kind::ChannelPrefix(number) | Kind::MidiPort(number) => bytes(text, &[*number]),
        Kind::EndTrack => {}
        Kind::Tempo(tempo) => line(text, format_args!(", {tempo}")),
        Kind::SmpteOffset(numbers) => bytes(text, numbers),
        Kind::TimeSignature(numbers) => bytes(text, numbers),
        Kind::KeySignature { key, mode } => {
            line(text, format_args!(", {key}"));
            quoted(text, mode_word(*mode));
        }
        Kind::SystemExclusive(data)
        | Kind::SystemExclusivePacket(data)
        | Kind::SequencerSpecific(data) => {
            line(text, format_args!(", {}", data.len()));
            bytes(text, data);
        }
        Kind::UnknownMeta { meta_type, data } => {
            line(text, format_args!(", {}, {}", meta_type, data.len()));
            bytes(text, data);
        }
    }
    text.push(b'\n');
}

pub fn name(kind: &Kind) -> &'static str {
    match kind {
        Kind::NoteOff { .. } => "Note_off_c",
        Kind::NoteOn { .. } => "Note_on_c",
        Kind::PolyAftertouch { .. } => "Poly_aftertouch_c",
        Kind::Control { .. } => "Control_c",
        Kind::Program { .. } => "Program_c",
        Kind::ChannelAftertouch { .. } => "Channel_aftertouch_c",
        Kind::PitchBend { .. } => "Pitch_bend_c",
        Kind::SystemExclusive(_) => "System_exclusive",
        Kind::SystemExclusivePacket(_) => "System_exclusive_packet",
        Kind::SequenceNumber(_) => "Sequence_number",
        Kind::Text(text, _) => text.name(),
        Kind::ChannelPrefix(_) => "Channel_prefix",
        Kind::MidiPort(_) => "MIDI_port",
        Kind::EndTrack => "End_track",
        Kind::Tempo(_) => "Tempo",
        Kind::SmpteOffset(_) => "SMPTE_offset",
        Kind::TimeSignature(_) => "Time_signature",
        Kind::KeySignature { .. } => "Key_signature",
        Kind::SequencerSpecific(_) => "Sequencer_specific",
        Kind::UnknownMeta { .. } => "Unknown_meta_event",
    }
}

pub fn mode_word(mode: Mode) -> &'static [u8] {
    match mode {
        Mode::Major => b"major",
        Mode::Minor => b"minor",
    }
}

fn bytes(text: &mut Vec<u8>, data: &[u8]) {
    for byte in data {
        line(text, format_args!(", {byte}"));
    }
}

fn quoted(text: &mut Vec<u8>, data: &[u8]) {
    text.extend(b", \"");
    for byte in data {
        match byte {
            b'"' => text.extend(b"\"\""),
            b'\\' => text.extend(b"\\\\"),
            0..=31 | 127..=160 => line(text, format_args!("\\{byte:03o}")),
            _ => text.push(*byte),
        }
    }
    text.push(b'"');
}
