//! Divisions of both kinds, and such as are of neither.

use crate::piece::{Division, Piece};

use super::Rng;

/// The piece, which is timed in pulses, or one time in three the same timed in frames.
pub fn in_either_kind(rng: &mut Rng, piece: Piece) -> Piece {
    if rng.one_in(3) {
        Piece { division: frames(rng), ..piece }
    } else {
        piece
    }
}

fn frames(rng: &mut Rng) -> Division {
    let ticks = match rng.below(4) {
        0 => rng.pick(&[1, 255]),
        1 => rng.pick(&[2, 4, 8, 40, 80, 100, 127, 128, 254]),
        _ => rng.between(1, 255) as u8,
    };
    Division::Frames { rate: rng.pick(&Division::RATES), ticks }
}

/// High bytes of the rates 23, 26, 27, 28 and 31, round those permitted, and of 1 and 128.
const OTHER_RATES: [u8; 7] = [0xE9, 0xE6, 0xE5, 0xE4, 0xE1, 0xFF, 0x80];

/// 16 bits that a header must not have.
pub fn no_division(rng: &mut Rng) -> i16 {
    i16::from_be_bytes(match rng.below(5) {
        0 => [0, 0],
        1 | 2 => [rng.pick(&Division::RATES).wrapping_neg(), 0],
        _ => [rng.pick(&OTHER_RATES), rng.pick(&[0, 1, 40, 96, 255])],
    })
}

/// A number that the division field of a text must not have.
pub fn no_division_number(rng: &mut Rng) -> i64 {
    match rng.below(4) {
        0 => rng.pick(&[32_768, -32_769, 65_535, 4_294_967_295, -4_294_967_295]),
        1 => {
            // The low 16 bits are good, but they are not the number.
            let of_frames = frames(rng).signed();
            let good = rng.pick(&[1, 96, 32_767, of_frames]);
            i64::from(good) + rng.pick(&[65_536, -65_536])
        }
        _ => no_division(rng).into(),
    }
}

#[test]
fn both_kinds_are_good_and_the_others_none() {
    let rng = &mut Rng::new(0);
    for _ in 0..10_000 {
        let good = frames(rng);
        assert_eq!(Division::from_signed(good.signed()), Some(good));
        let bits = no_division(rng);
        assert_eq!(Division::from_signed(bits), None, "{bits}");
        let number = no_division_number(rng);
        assert_eq!(i16::try_from(number).ok().and_then(Division::from_signed), None, "{number}");
    }
}
