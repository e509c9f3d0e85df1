//! The file of every division, and a text with every number that comes near one, with the
//! whole answer due to each: by the ranges of the papers, written here as numbers, and by
//! bytes and lines by hand. Nothing of it is worked out by `Division`.

use std::ops::RangeInclusive;

use crate::known::Known;

/// What a header may have: pulses, and 1 to 255 ticks of 30, 29, 25 and 24 frames.
const BITS: [RangeInclusive<u16>; 5] =
    [0x0001..=0x7FFF, 0xE201..=0xE2FF, 0xE301..=0xE3FF, 0xE701..=0xE7FF, 0xE801..=0xE8FF];

/// What a Header record may have: the same, signed.
const NUMBERS: [RangeInclusive<i64>; 5] =
    [1..=32_767, -7_679..=-7_425, -7_423..=-7_169, -6_399..=-6_145, -6_143..=-5_889];

/// The file of every division, for an operation that makes this of the good ones.
pub fn files(made: fn(u16) -> Vec<u8>) -> impl Iterator<Item = Known> {
    (0..=u16::MAX).map(move |bits| {
        let good = BITS.iter().any(|range| range.contains(&bits));
        Known {
            what: format!("division {bits:04X}"),
            input: full_file(bits),
            due: if good { Ok([made(bits), made(bits)]) } else { Err((3, 12)) },
        }
    })
}

/// All numbers of 16 bits, signed or not, and some past them.
const NEAR: RangeInclusive<i64> = -65_600..=65_600;

/// Far ones, whose low bits mostly are 96, or 25 frames of 40 ticks.
const FAR: [i64; 16] = [
    131_168, -130_976, 124_712, -137_432, 16_777_312, 2_147_483_647, 2_147_483_648, 2_147_483_744,
    -2_147_483_552, -2_147_483_648, -2_147_483_649, 4_294_960_936, 4_294_967_200, 4_294_967_295,
    -4_294_967_200, -4_294_967_295,
];

/// A text with each of these numbers as its division, for text_to_file.
pub fn texts() -> impl Iterator<Item = Known> {
    NEAR.chain(FAR).map(|number| {
        let good = NUMBERS.iter().any(|range| range.contains(&number));
        // Of a good number below 0 the 16 bits are 65,536 more.
        let bits = number.rem_euclid(65_536) as u16;
        Known {
            what: format!("division {number}"),
            input: text_with(number),
            due: if good { Ok([full_file(bits), short_file(bits)]) } else { Err((25, 1)) },
        }
    })
}

fn file(format: u8, tracks: u8, bits: u16, chunks: &[u8]) -> Vec<u8> {
    let head = [b'M', b'T', b'h', b'd', 0, 0, 0, 6, 0, format, 0, tracks];
    [&head[..], &[(bits >> 8) as u8, bits as u8], chunks].concat()
}

/// Two tracks, every status written.
fn full_file(bits: u16) -> Vec<u8> {
    let chunks =
        b"MTrk\0\0\0\x0C\0\x90\x3C\x40\x60\x90\x3C\0\0\xFF\x2F\0MTrk\0\0\0\x04\0\xFF\x2F\0";
    file(1, 2, bits, chunks)
}

/// The same with the second status left out: what tidying makes of it.
pub fn short_file(bits: u16) -> Vec<u8> {
    let chunks = b"MTrk\0\0\0\x0B\0\x90\x3C\x40\x60\x3C\0\0\xFF\x2F\0MTrk\0\0\0\x04\0\xFF\x2F\0";
    file(1, 2, bits, chunks)
}

pub fn folded_file(bits: u16) -> Vec<u8> {
    file(0, 1, bits, b"MTrk\0\0\0\x0B\0\x90\x3C\x40\x60\x3C\0\0\xFF\x2F\0")
}

fn signed(bits: u16) -> i64 {
    i64::from(bits) - if bits > 32_767 { 65_536 } else { 0 }
}

pub fn text(bits: u16) -> Vec<u8> {
    text_with(signed(bits))
}

fn text_with(division: i64) -> Vec<u8> {
    let events = "1, 0, Start_track\n1, 0, Note_on_c, 0, 60, 64\n1, 96, Note_on_c, 0, 60, 0\n\
        1, 96, End_track\n2, 0, Start_track\n2, 0, End_track\n0, 0, End_of_file\n";
    format!("0, 0, Header, 1, 2, {division}\n{events}").into_bytes()
}

pub fn sheet(bits: u16) -> Vec<u8> {
    let events = "1,0,Start_track\n1,0,Note_on_c,0,60,64\n1,96,Note_on_c,0,60,0\n\
        1,96,End_track\n2,0,Start_track\n2,0,End_track\n0,0,End_of_file\n";
    format!("0,0,Header,1,2,{}\n{events}", signed(bits)).into_bytes()
}

#[test]
fn both_tables_have_every_good_division() {
    let bits: Vec<i64> = BITS.into_iter().flatten().map(signed).collect();
    assert_eq!(bits.len(), 32_767 + 4 * 255);
    assert_eq!(bits, NUMBERS.into_iter().flatten().collect::<Vec<i64>>());
    assert_eq!(files(text).filter(|known| known.due.is_ok()).count(), bits.len());
    assert_eq!(texts().filter(|known| known.due.is_ok()).count(), bits.len());
}
