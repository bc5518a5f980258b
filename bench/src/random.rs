//! The tests' source of random numbers, and two more ways to ask it.
#[allow(dead_code)]
#[path = "../../tests/src/random.rs"]
mod shared;

pub use shared::Random;

impl Random {
    /// A usual number, and once in eight times, on average, another.
    pub fn mostly(&mut self, usual: usize, seldom: usize) -> usize {
        if self.once_in(8) {
            seldom
        } else {
            usual
        }
    }

    /// A number below a usual limit, and once in eight times below another.
    pub fn below_mostly(&mut self, usual: usize, seldom: usize) -> usize {
        let limit = self.mostly(usual, seldom);
        self.below(limit)
    }
}
