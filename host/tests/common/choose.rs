//! Choices at random.

use super::random::Random;

impl Random {
    /// A whole number from low to high, both included.
    pub fn within(&mut self, low: i32, high: i32) -> i32 {
        low + (self.word() % (high - low + 1) as u64) as i32
    }

    pub fn one_in(&mut self, many: u64) -> bool {
        self.word().is_multiple_of(many)
    }

    /// From 0 to below 1.
    pub fn share(&mut self) -> f32 {
        (self.word() >> 40) as f32 / 16_777_216.0
    }

    /// One of these.
    pub fn pick<T: Copy>(&mut self, from: &[T]) -> T {
        from[self.word() as usize % from.len()]
    }
}
