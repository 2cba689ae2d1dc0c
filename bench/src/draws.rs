//! Draws that are the same each time.

/// A linear congruence (Knuth's MMIX), as its last draw; before the first it is the number to draw from.
pub struct Draws(pub u64);

impl Draws {
    pub fn draw(&mut self) -> u64 {
        self.0 = self
            .0
            .wrapping_mul(6364136223846793005)
            .wrapping_add(1442695040888963407);
        self.0
    }

    /// A number below `end`, by the high bits of a draw.
    pub fn below(&mut self, end: u64) -> u64 {
        (self.draw() >> 33) % end
    }
}
