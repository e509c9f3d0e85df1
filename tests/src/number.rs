//! Numbers as a MIDI file spells them.

/// The greatest variable-length number: four bytes of seven bits.
pub const VARIABLE_MAX: u32 = 268_435_455;

/// Why no variable-length number could be read.
#[derive(Clone, Copy, Debug, PartialEq, Eq)]
pub enum Fault {
    /// The bytes ended before the number did.
    Ends,
    /// The fourth byte says that a fifth follows.
    TooLong,
}

/// A variable-length number as it was read.
#[derive(Clone, Copy, Debug, PartialEq, Eq)]
pub struct Variable {
    pub value: u32,
    /// The bytes it takes.
    pub width: usize,
    /// How many of them are above the fewest that hold the value.
    pub padding: usize,
}

/// The number at the front of `bytes`.
pub fn read_variable(bytes: &[u8]) -> Result<Variable, Fault> {
    let mut value = 0;
    let mut width = 0;
    loop {
        let byte = *bytes.get(width).ok_or(Fault::Ends)?;
        width += 1;
        if width == 4 && byte >= 0x80 {
            return Err(Fault::TooLong);
        }
        value = value << 7 | u32::from(byte & 0x7F);
        if byte < 0x80 {
            let fewest = fewest_bytes(value).expect("four bytes of seven bits hold it");
            return Ok(Variable { value, width, padding: width - fewest });
        }
    }
}

/// The fewest bytes that hold `value`, or nothing if four do not.
pub fn fewest_bytes(value: u32) -> Option<usize> {
    match value {
        0..=0x7F => Some(1),
        0x80..=0x3FFF => Some(2),
        0x4000..=0x1F_FFFF => Some(3),
        0x20_0000..=VARIABLE_MAX => Some(4),
        _ => None,
    }
}

/// Appends `value` in `width` bytes, which must be enough for it.
pub fn write_variable(value: u32, width: usize, out: &mut Vec<u8>) {
    for left in (0..width).rev() {
        let seven = (value >> (7 * left)) as u8 & 0x7F;
        out.push(if left > 0 { seven | 0x80 } else { seven });
    }
}

/// The number that up to four bytes spell, high byte first.
pub fn big_endian(bytes: &[u8]) -> u32 {
    bytes.iter().fold(0, |value, byte| value << 8 | u32::from(*byte))
}
