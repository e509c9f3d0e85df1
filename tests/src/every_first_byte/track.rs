//! A track made event by event: its bytes, and what tidy and file_to_text make of the file
//! that has it, in the words of document 01.

use super::channel_row;

/// A delta and its ticks.
pub type Delta = (&'static [u8], u32);

pub const AT_ONCE: Delta = (&[0], 0);

pub const END_TRACK: [u8; 3] = [0xFF, 0x2F, 0x00];

/// The one track, as far as it is made.
#[derive(Clone, Default)]
pub struct Track {
    pub bytes: Vec<u8>,
    /// As tidying writes it.
    short: Vec<u8>,
    /// Its records.
    lines: String,
    time: u32,
    pub in_force: Option<u8>,
}

impl Track {
    pub fn channel(mut self, delta: Delta, status: u8, data: &[u8], written: bool) -> Track {
        let (name, _) = channel_row(status, [0; 2]);
        let fields = match *data {
            [low, high] if name == "Pitch_bend_c" => {
                (128 * u32::from(high) + u32::from(low)).to_string()
            }
            [first, second] => format!("{first}, {second}"),
            [first] => first.to_string(),
            _ => panic!("no event of a channel has such data"),
        };
        let full = [&[status], data].concat();
        let left_out = self.in_force == Some(status);
        self.add(delta, &full[usize::from(!written)..], &full[usize::from(left_out)..]);
        self.record(&format!("{name}, {}, {fields}", status & 0x0F));
        self.in_force = Some(status);
        self
    }

    /// A system exclusive or meta event.
    pub fn other(mut self, delta: Delta, bytes: &[u8], record: &str) -> Track {
        self.add(delta, bytes, bytes);
        self.record(record);
        self.in_force = None;
        self
    }

    fn add(&mut self, (delta, ticks): Delta, bytes: &[u8], short: &[u8]) {
        self.bytes.extend([delta, bytes].concat());
        self.short.extend([delta, short].concat());
        self.time += ticks;
    }

    fn record(&mut self, record: &str) {
        self.lines += &format!("1, {}, {record}\n", self.time);
    }

    pub fn end(self, delta: Delta) -> Track {
        self.other(delta, &END_TRACK, "End_track")
    }
}

/// What check makes of a good file.
pub fn nothing(_: &Track) -> Vec<u8> {
    Vec::new()
}

/// What tidy makes of it.
pub fn short_file(track: &Track) -> Vec<u8> {
    file(&track.short)
}

/// What file_to_text makes of it.
pub fn text(track: &Track) -> Vec<u8> {
    let head = "0, 0, Header, 0, 1, 96\n1, 0, Start_track\n";
    format!("{head}{}0, 0, End_of_file\n", track.lines).into_bytes()
}

/// Where a track's first event is.
pub const FIRST: usize = 22;

pub fn file(track: &[u8]) -> Vec<u8> {
    let head = b"MThd\0\0\0\x06\0\0\0\x01\0\x60MTrk\0\0\0";
    [&head[..], &[track.len() as u8], track].concat()
}
