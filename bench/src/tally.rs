//! What is counted of the calls that both sides get: how often each code came up, and how often the sides differed.
use crate::sample::Random;
use std::collections::BTreeMap;
use std::fmt::Debug;

/// How often each code has to come up for a comparison to count.
pub const OFTEN: u64 = 10_000;

/// How many of the differences are printed.
const PRINTED: u64 = 3;

/// One who tries the entries that the sweeps of schedules make.
pub trait Trial {
    fn random(&mut self) -> &mut Random;

    fn codes(&self) -> &Codes;

    /// Both sides have to report the same.
    fn compare(&mut self, entry: &[u8]);

    /// As `compare`, of a schedule that keeps the rules.
    fn accepted(&mut self, entry: &[u8]);
}

/// A name, and the calls of one sort, which one tries.
pub type Sweep<T> = (&'static str, fn(&mut T));

/// Takes all sweeps, and prints how many calls each of them was.
pub fn sweep<T: Trial>(tally: &mut T, sweeps: &[Sweep<T>]) {
    for (name, sweep) in sweeps {
        let before = tally.codes().calls();
        sweep(tally);
        println!("  {name:>29}  {:>9} calls", tally.codes().calls() - before);
    }
}

/// How many calls gave each code.
#[derive(Default)]
pub struct Codes(BTreeMap<u32, u64>);

impl Codes {
    pub fn count(&mut self, code: u32) {
        *self.0.entry(code).or_default() += 1;
    }

    pub fn calls(&self) -> u64 {
        self.0.values().sum()
    }

    /// Prints how often each code came up. Each of those asked for has to, this often, and no other.
    pub fn demand(&self, codes: &[u32], often: u64) {
        for (code, calls) in &self.0 {
            println!("  code {code:>2}  {calls:>9} calls");
        }
        assert!(self.0.keys().all(|code| codes.contains(code)), "a code that no report has");
        for code in codes {
            assert!(self.0.get(code).is_some_and(|calls| *calls >= often), "code {code} came up too seldom");
        }
    }
}

/// How often the sides differed.
#[derive(Default)]
pub struct Differences(u64);

impl Differences {
    /// What the two sides gave has to be the same. The first calls of which it is not are printed.
    pub fn count<R: PartialEq + Debug>(&mut self, [library, plain]: [R; 2], call: impl Fn() -> String) {
        if library == plain {
            return;
        }
        self.0 += 1;
        if self.0 <= PRINTED {
            println!("{}: the library gave {library:?}, plain Rust {plain:?}", call());
        }
    }

    /// Prints how many of the calls these are. The run ends here where there are any.
    pub fn demand_none(&self, calls: u64) {
        println!("{calls} calls in all, {} differences, by code:", self.0);
        if self.0 > 0 {
            std::process::exit(1);
        }
    }
}

/// An entry in hexadecimal.
pub fn figures(entry: &[u8]) -> String {
    entry.iter().map(|byte| format!("{byte:02x}")).collect()
}
