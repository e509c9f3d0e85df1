//! An input whose whole answer is known, by the papers and not by a program.

pub struct Known {
    pub what: String,
    pub input: Vec<u8>,
    /// What is made of it in manner 0 and in manner 1, or number and place of the refusal.
    pub due: Result<[Vec<u8>; 2], (u8, usize)>,
}
