//! The division field of the Header: at the ends of both kinds and past them.

use super::{field, good_lines, Aim, Made};

/// The ends of each kind, and numbers spelled as they may be.
const GOOD: [&str; 20] = [
    "1", "96", "32767", "00001", "0000032767", " \t480\t ",
    // 24, 25, 29 and 30 frames of 1 and of 255 ticks: E8 01, E8 FF, E7 01, ..
    "-6143", "-5889", "-6399", "-6145", "-7423", "-7169", "-7679", "-7425", // E7 28.
    "-6360", "-06360", "-0000006360", " -6360", "-6360\t", "\t -06360 \t",
];

/// Numbers of neither kind, a name and a quoted text.
const NEITHER: [&str; 51] = [
    "0", "-0", "00000", "-0000000000", "32768", "-32769",
    // The permitted rates with 0 ticks, and with 256, which is 0 of the rate before.
    "-6144", "-5888", "-6400", "-06400", "-7424", "-7168", "-7680",
    // 23, 26, 27, 28, 31, 1 and 128 frames of 40, of 1 and of 255 ticks; 128 of 0.
    "-5848", "-6616", "-6872", "-7128", "-7896", "-216", "-32728", "-5887", "-6655", "-6911",
    "-7167", "-7935", "-255", "-32767", "-5633", "-6401", "-6657", "-6913", "-7681", "-1",
    "-32513", "-32768",
    // Further numbers with the 16 bits of 25 frames of 40 ticks and of 96 pulses.
    "59176", "0000059176", "-71896", "65632", "-65440", "65535", "65536", "-65535", "-65536",
    "2147483647", "2147483648", "-2147483648", "4294967295", "-4294967295", "SMPTE", "\"-6360\"",
];

/// Of none of the three shapes.
const SHAPELESS: [&str; 9] = [
    "- 6360", "--6360", "+6360", "-6360.0", "6360-", "0xE728", "-00000006360", "-4294967296",
    "\u{2212}6360",
];

pub fn aims() -> Vec<Aim> {
    [(0, &GOOD[..]), (25, &NEITHER), (22, &SHAPELESS)]
        .into_iter()
        .flat_map(|(number, fields)| fields.iter().map(move |field| division(field, number)))
        .collect()
}

fn division(word: &'static str, number: u8) -> Aim {
    Aim::new(format!("Header: division {word:?}"), number, move |rng| {
        let mut lines = good_lines(rng);
        lines[0][5] = field(word);
        Made::Lines(lines, (number > 0).then_some(0))
    })
}
