//! The sums that each program comes to over the lines of a page. One text for all of them: Rust and Rattle read it alike.

/// Lines, their bytes, and a mix of their first bytes.
#[derive(Clone, Copy)]
pub struct Sums {
    pub lines: u64,
    pub bytes: u64,
    pub mix: u64,
}

impl Sums {
    /// Those of no line.
    pub const NONE: Sums = Sums {
        lines: 0,
        bytes: 0,
        mix: 0,
    };

    /// Counts a line.
    pub fn add(&mut self, line: &[u8]) {
        self.lines = self.lines.wrapping_add(1);
        self.bytes = self.bytes.wrapping_add(line.len() as u64);
        self.mix ^= u64::from(line.first().copied().unwrap_or(0)).wrapping_mul(self.lines);
    }
}
