//! Both sides on the same entries: how often each code came up, and whether the sides differed.
use super::{LIBRARY, PLAIN};
use crate::sample::Random;
use crate::tally::{figures, Codes, Trial};
use kozbrax::Firing;

pub struct Tally {
    random: Random,
    codes: Codes,
}

impl Tally {
    pub fn new(seed: u64) -> Tally {
        Tally { random: Random::new(seed), codes: Codes::default() }
    }

    fn reported(&mut self, entry: &[u8]) -> Firing {
        let [library, plain] = [LIBRARY, PLAIN].map(|report| report(entry));
        if library != plain {
            fail(entry, &format!("the library gave {library:?}, plain Rust {plain:?}"));
        }
        self.codes.count(library.code);
        library
    }
}

/// The run ends at the first entry of which the sides do not report the same, or not 0 where it keeps the rules.
impl Trial for Tally {
    fn random(&mut self) -> &mut Random {
        &mut self.random
    }

    fn codes(&self) -> &Codes {
        &self.codes
    }

    fn compare(&mut self, entry: &[u8]) {
        self.reported(entry);
    }

    fn accepted(&mut self, entry: &[u8]) {
        let firing = self.reported(entry);
        if firing.code != 0 {
            fail(entry, &format!("it keeps the rules, and both sides gave {firing:?}"));
        }
    }
}

fn fail(entry: &[u8], what: &str) -> ! {
    println!("schedule {}: {what}", figures(entry));
    std::process::exit(1);
}
