//! Small pieces by hand: the bytes of their manner 1 files, and how many spellings each has.

/// A piece by its manner 1 file.
pub struct Small {
    pub what: &'static str,
    pub short: Vec<u8>,
    /// The product of 4, 3, 2 or 1 for each number that takes 1, 2, 3 or 4 bytes, and of 2 for
    /// each status left out.
    pub spellings: usize,
}

/// What it is, how many spellings it has, format, division, the bodies of its tracks.
type Row = (&'static str, usize, u8, [u8; 2], &'static [&'static [u8]]);

const PULSES: [u8; 2] = [0x00, 0x60];

const ROWS: [Row; 9] = [
    ("End_track alone", 4 * 4, 0, PULSES, &[b"\0\xFF\x2F\0"]),
    (
        "document 01's example",
        (4 * 4) * 4 * (4 * 2) * (4 * 4),
        0,
        PULSES,
        &[b"\0\xFF\x03\x02\x41\x22\0\x90\x3C\x40\x60\x3C\0\0\xFF\x2F\0"],
    ),
    (
        "two statuses, each left out once; deltas 127, 128, 16383, 16384",
        4 * (3 * 2) * 3 * (2 * 2) * (4 * 4),
        0,
        PULSES,
        &[b"\x7F\x90\x3C\x40\x81\0\x3C\0\xFF\x7F\xC1\x05\x81\x80\0\x06\0\xFF\x2F\0"],
    ),
    (
        "a status left out twice, then one of another channel",
        4 * 2 * (2 * 2) * (4 * 4),
        0,
        PULSES,
        &[b"\0\xA0\x3C\x40\x81\x80\x80\0\x3C\x41\x81\x80\0\x3C\x42\xFF\xFF\xFF\x7F\xA1\x3C\x42\
            \0\xFF\x2F\0"],
    ),
    (
        "a meta event between two equal statuses",
        4 * (4 * 4) * 4 * (4 * 4),
        0,
        PULSES,
        &[b"\0\xB0\x07\x64\0\xFF\x06\x01\x42\0\xB0\x07\x65\0\xFF\x2F\0"],
    ),
    (
        "F0 and an empty F7 between equal statuses; deltas 2097151, 2097152, 268435455",
        4 * (4 * 4) * 2 * 4 * (4 * 4),
        0,
        PULSES,
        &[b"\0\xD0\x10\0\xF0\x02\x43\xF7\xFF\xFF\x7F\xD0\x11\x81\x80\x80\0\xF7\0\
            \xFF\xFF\xFF\x7F\xD0\x11\0\xFF\x2F\0"],
    ),
    (
        "a status at the end of a track and at the start of the next, 25 frames",
        (4 * 4 * 4) * (4 * (3 * 2) * (3 * 4)),
        1,
        [0xE7, 0x28],
        &[b"\0\xE3\0\x40\x7F\xFF\x2F\0", b"\0\xE3\0\x40\x81\0\x01\x40\x81\0\xFF\x2F\0"],
    ),
    (
        "three tracks of End_track alone, format 2",
        (4 * 4) * (3 * 4) * (2 * 4),
        2,
        [0x7F, 0xFF],
        &[b"\x7F\xFF\x2F\0", b"\xFF\x7F\xFF\x2F\0", b"\x81\x80\0\xFF\x2F\0"],
    ),
    (
        "fixed meta events, then an empty text",
        (4 * 4) * (3 * 4) * (2 * 4) * 4,
        0,
        PULSES,
        &[b"\0\xFF\x51\x03\x0B\x71\xB0\xFF\x7F\xFF\x59\x02\xFD\x01\
            \x81\x80\0\xFF\x01\0\x81\x80\x80\0\xFF\x2F\0"],
    ),
];

pub fn small_pieces() -> Vec<Small> {
    let mut all = Vec::new();
    for (what, spellings, format, division, bodies) in ROWS {
        all.push(Small { what, short: file_of(format, division, bodies), spellings });
    }
    let body = long_data(127, b"\0", [b"\x7F", b"\x81\0"]);
    all.push(Small {
        what: "data of 127 and 128 bytes",
        short: file_of(0, PULSES, &[&body]),
        spellings: (4 * 4) * (4 * 3) * (4 * 4),
    });
    // Deltas of four bytes, since these files take long.
    let body = long_data(16_383, b"\xFF\xFF\xFF\x7F", [b"\xFF\x7F", b"\x81\x80\0"]);
    all.push(Small {
        what: "data of 16383 and 16384 bytes",
        short: file_of(0, PULSES, &[&body]),
        spellings: 3 * 2 * (4 * 4),
    });
    all
}

fn file_of(format: u8, division: [u8; 2], bodies: &[&[u8]]) -> Vec<u8> {
    let mut file = b"MThd\0\0\0\x06\0".to_vec();
    file.extend([format, 0, bodies.len() as u8, division[0], division[1]]);
    for body in bodies {
        file.extend(b"MTrk");
        file.extend((body.len() as u32).to_be_bytes());
        file.extend(*body);
    }
    file
}

/// A text of so many bytes and an F0 event of one more, with delta and lengths spelled so.
fn long_data(count: usize, delta: &[u8], lengths: [&[u8]; 2]) -> Vec<u8> {
    let text = [delta, b"\xFF\x01", lengths[0], &vec![b'a'; count]].concat();
    let exclusive = [delta, b"\xF0", lengths[1], &vec![0x81; count + 1]].concat();
    [text, exclusive, b"\0\xFF\x2F\0".to_vec()].concat()
}
