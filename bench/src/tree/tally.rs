//! Both sides on the same arguments: how often they were compared, and how often they differed.
use super::{Side, LIBRARY, PLAIN};
use crate::sample::Random;
use std::fmt::Debug;

/// Numbers or bytes before and behind each lent buffer, which have to stay.
pub const GUARD: usize = 16;

pub struct Tally {
    name: &'static str,
    pub random: Random,
    compared: u64,
    differed: u64,
}

impl Tally {
    pub fn new(name: &'static str, seed: u64) -> Tally {
        Tally { name, random: Random::new(seed), compared: 0, differed: 0 }
    }

    /// What the two sides give has to be the same. The first difference is printed.
    fn count<T: PartialEq + Debug>(&mut self, [library, plain]: [T; 2], what: impl Fn() -> String) {
        self.compared += 1;
        if library == plain {
            return;
        }
        if self.differed == 0 {
            println!("{} of {}: the library gave {library:?}, plain Rust {plain:?}", self.name, what());
        }
        self.differed += 1;
    }

    /// A call that gives a number and writes nothing.
    pub fn number(&mut self, call: impl Fn(&Side) -> u32, what: impl Fn() -> String) {
        self.count([LIBRARY, PLAIN].map(|side| call(&side)), what);
    }

    /// A call that is lent a buffer of this length, which begins with the same random bytes for both sides.
    pub fn bytes(&mut self, length: usize, call: impl Fn(&Side, &mut [u8]) -> u32, what: impl Fn() -> String) {
        let before = self.random.bytes(length + 2 * GUARD);
        let results = [LIBRARY, PLAIN].map(|side| {
            let mut memory = before.clone();
            (call(&side, &mut memory[GUARD..GUARD + length]), memory)
        });
        self.count(results, what);
    }

    /// As `bytes`, of numbers.
    pub fn numbers(&mut self, length: usize, call: impl Fn(&Side, &mut [u32]) -> u32, what: impl Fn() -> String) {
        let before: Vec<u32> = (0..length + 2 * GUARD).map(|_| self.random.next() as u32).collect();
        let results = [LIBRARY, PLAIN].map(|side| {
            let mut memory = before.clone();
            (call(&side, &mut memory[GUARD..GUARD + length]), memory)
        });
        self.count(results, what);
    }

    /// Prints the counts, and gives that of the differences.
    pub fn print(&self) -> u64 {
        println!("  {:>11}  {:>9} calls compared, differences: {}", self.name, self.compared, self.differed);
        self.differed
    }
}
