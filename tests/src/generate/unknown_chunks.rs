//! What a file has besides its piece: extra bytes of the header, and chunks that readers
//! pass over. Much of it looks like what a reader in haste would take it for.

use crate::spelling::UnknownChunk;

use super::Rng;

/// Tags near those that are known, of programs that add chunks, and of no letters at all.
const TAGS: [[u8; 4]; 7] =
    [*b"mtrk", *b"MTrl", *b"MThd", *b"MThd", *b"XFIH", *b"XFKM", [0, 0, 0, 0]];

/// What must not be read as such where it stands.
const FALSE: [&[u8]; 8] = [
    // A track, one without events, one that goes past any end.
    b"MTrk\0\0\0\x04\0\xFF\x2F\0", b"MTrk\0\0\0\0", b"MTrk\xFF\xFF\xFF\xFF",
    // Events.
    b"\0\x90\x3C\x40\x60\x3C\0\0\xFF\x2F\0", b"\0\xFF\x2F\0",
    // A header, a whole file, another chunk that is passed over.
    b"MThd\0\0\0\x06\0\x01\0\x02\0\x60",
    b"MThd\0\0\0\x06\0\0\0\x01\0\x60MTrk\0\0\0\x04\0\xFF\x2F\0", b"XFIH\0\0\0\x02ab",
];

/// The extra bytes of a header, and chunks before each of so many tracks and behind the
/// last one. Half the time there is nothing at all.
pub fn besides(rng: &mut Rng, tracks: usize) -> (Vec<u8>, Vec<Vec<UnknownChunk>>) {
    if rng.one_in(2) {
        return (Vec::new(), vec![Vec::new(); tracks + 1]);
    }
    let extra = if rng.one_in(2) { header_extra(rng) } else { Vec::new() };
    let one_in = rng.pick(&[1, 2, 4]);
    let some = |_| if rng.one_in(one_in) { in_a_row(rng) } else { Vec::new() };
    (extra, (0..=tracks).map(some).collect())
}

/// Never empty.
pub fn header_extra(rng: &mut Rng) -> Vec<u8> {
    match rng.below(4) {
        0 => vec![rng.byte()],
        1 => rng.pick(&FALSE).to_vec(),
        _ => {
            let count = rng.between(2, 300) as usize;
            rng.bytes(count)
        }
    }
}

/// One chunk, or several.
fn in_a_row(rng: &mut Rng) -> Vec<UnknownChunk> {
    let count = rng.pick(&[1, 1, 1, 2, 3]);
    (0..count).map(|_| unknown_chunk(rng)).collect()
}

pub fn unknown_chunk(rng: &mut Rng) -> UnknownChunk {
    UnknownChunk { tag: unknown_tag(rng), data: data(rng) }
}

/// Any tag but a track's.
pub fn unknown_tag(rng: &mut Rng) -> [u8; 4] {
    match rng.below(4) {
        0 => {
            // Each of its four bytes counts, and each bit of them.
            let mut tag = *b"MTrk";
            tag[rng.index(4)] ^= 1 << rng.below(8);
            tag
        }
        1 => loop {
            let tag = (rng.word() as u32).to_be_bytes();
            if tag != *b"MTrk" {
                break tag;
            }
        },
        _ => rng.pick(&TAGS),
    }
}

fn data(rng: &mut Rng) -> Vec<u8> {
    let count = match rng.below(8) {
        0 | 1 => 0,
        2 | 3 => return rng.pick(&FALSE).to_vec(),
        4 => return [rng.pick(&FALSE), rng.pick(&FALSE)].concat(),
        // A length of three bytes.
        5 if rng.one_in(50) => rng.pick(&[65_535, 65_536, 70_000]),
        5 => rng.pick(&[127, 128, 255, 256, 257, 300, 600]),
        _ => rng.between(1, 12) as usize,
    };
    rng.bytes(count)
}
