//! Both sides on the same entries and ranges of starts: how often each code came up, and how often the sides differed.
use super::sweeps::drawn_ends;
use super::{LIBRARY, PLAIN};
use crate::sample::Random;
use crate::tally::{figures, Codes, Differences, Trial};

pub struct Tally {
    random: Random,
    codes: Codes,
    /// How often the least total was the greatest, for a range of one start and for one of more.
    one_total: [u64; 2],
    differences: Differences,
}

impl Tally {
    pub fn new(seed: u64) -> Tally {
        Tally {
            random: Random::new(seed),
            codes: Codes::default(),
            one_total: [0; 2],
            differences: Differences::default(),
        }
    }

    /// Both sides have to report the same of the starts in this range.
    pub fn compare_from(&mut self, entry: &[u8], from: u32, to: u32) {
        let [library, plain] = [LIBRARY, PLAIN].map(|report| report(entry, from, to));
        self.differences.count([library, plain], || format!("schedule {} from {from} to {to}", figures(entry)));
        self.codes.count(library.code);
        if library.code == 0 && library.least == library.greatest {
            self.one_total[usize::from(from < to)] += 1;
        }
    }

    /// All pairs of these ends, the greater one first too.
    pub fn compare_pairs(&mut self, entry: &[u8], ends: &[u32]) {
        for from in ends {
            ends.iter().for_each(|to| self.compare_from(entry, *from, *to));
        }
    }

    /// Prints what came up, each of these codes this often and no other. The run ends here where the sides differed.
    pub fn demand(&self, codes: &[u32], often: u64) {
        self.differences.demand_none(self.codes.calls());
        self.codes.demand(codes, often);
        let [of_one, of_more] = self.one_total;
        println!("  the least is the greatest: {of_one} calls with one start, {of_more} with more");
    }
}

/// Each entry with a range of starts that is drawn. A schedule that keeps the rules may be refused for its range.
impl Trial for Tally {
    fn random(&mut self) -> &mut Random {
        &mut self.random
    }

    fn codes(&self) -> &Codes {
        &self.codes
    }

    fn compare(&mut self, entry: &[u8]) {
        let (from, to) = drawn_ends(&mut self.random, entry);
        self.compare_from(entry, from, to);
    }

    fn accepted(&mut self, entry: &[u8]) {
        self.compare(entry);
    }
}
