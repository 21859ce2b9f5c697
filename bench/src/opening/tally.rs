//! Both sides on the same opening hours, minutes and lengths or entries: how often each code came up, what the calls came upon,
//! and how often the sides differed.
use super::hours::{self, Hours, KINDS};
use super::plain::{self, WEEK};
use super::situations::Situations;
use super::{sweeps, LIBRARY, OF_SCHEDULE, PLAIN, PLAIN_OF_SCHEDULE};
use crate::sample::Random;
use crate::tally::{figures, Codes, Differences, Trial, OFTEN};
use kozbrax::Start;
use std::rc::Rc;

/// The plain side takes its counts in all calls, and looks at each minute as well in one of so many, which are drawn, and wherever the
/// start is the last that may be, which is rare.
const DIRECT: usize = 2000;

/// One of so many hours in the pool is there a second time, with a window made wrong.
const WRONG: usize = 6;

pub struct Tally {
    random: Random,
    codes: Codes,
    situations: Situations,
    differences: Differences,
    /// The calls, and those of which the plain side looked at each minute.
    calls: u64,
    direct: u64,
    /// The hours that are drawn for entries.
    pool: Vec<Rc<Hours>>,
}

impl Tally {
    pub fn new(seed: u64) -> Tally {
        let mut random = Random::new(seed);
        let pool = pool(&mut random);
        let (codes, situations, differences) = Default::default();
        Tally { random, codes, situations, differences, calls: 0, direct: 0, pool }
    }

    /// Both sides have to find the same start of a firing of this length.
    pub fn compare_length(&mut self, hours: &Hours, minute: u32, length: u32) {
        let windows = &hours.windows;
        let library = LIBRARY(windows, minute, length);
        let counted = plain::report_counted(hours.counts(), minute, length);
        let call = || format!("windows {windows:?} from {minute}, length {length}");
        self.count([library, counted], minute, || PLAIN(windows, minute, length), call);
        self.situations.of_length(hours, minute, length, counted);
    }

    /// All of these minutes with all of these lengths.
    pub fn compare_lengths(&mut self, hours: &Hours, minutes: &[u32], lengths: &[u32]) {
        for minute in minutes {
            lengths.iter().for_each(|length| self.compare_length(hours, *minute, *length));
        }
    }

    /// Both sides have to find the same start of the firing that an entry holds.
    pub fn compare_schedule(&mut self, entry: &[u8], hours: &Hours, minute: u32) {
        let windows = &hours.windows;
        let library = OF_SCHEDULE(entry, windows, minute);
        let mut its_length = None;
        let counted = plain::of_schedule(entry, |length| {
            its_length = Some(length);
            plain::report_counted(hours.counts(), minute, length)
        });
        let call = || format!("schedule {}, windows {windows:?} from {minute}", figures(entry));
        self.count([library, counted], minute, || PLAIN_OF_SCHEDULE(entry, windows, minute), call);
        match its_length {
            Some(length) => self.situations.of_length(hours, minute, length, counted),
            None => self.situations.of_refused_schedule(hours, minute, counted),
        }
    }

    /// What both sides gave, the plain one by its counts, and at times what it finds where it looks at each minute.
    fn count(&mut self, sides: [Start; 2], minute: u32, direct: impl Fn() -> Start, call: impl Fn() -> String) {
        self.calls += 1;
        self.codes.count(sides[0].code);
        self.differences.count(sides, &call);
        let is_drawn = self.random.below(DIRECT) == 0;
        if is_drawn || minute.checked_add(WEEK - 1) == Some(sides[1].start) {
            self.direct += 1;
            self.differences.count([sides[0], direct()], || format!("each minute looked at, {}", call()));
        }
    }

    /// Prints what came up. The run ends here where the sides differed.
    pub fn demand(&self, codes: &[u32], situations: &[&str]) {
        println!("  in {} calls the plain side looked at each minute too", self.direct);
        self.differences.demand_none(self.calls);
        self.codes.demand(codes, OFTEN);
        self.situations.demand(situations);
    }
}

/// Hours of each kind and number of windows, and some of them made wrong.
fn pool(random: &mut Random) -> Vec<Rc<Hours>> {
    let mut pool = Vec::new();
    for (number, kind) in sweeps::NUMBERS.flat_map(|number| KINDS.map(|kind| (number, kind))) {
        let windows = hours::drawn(random, kind, number);
        if random.below(WRONG) == 0 {
            let wrong = sweeps::wrong_in(&windows, random.below(number));
            let which = random.below(wrong.len());
            pool.push(Rc::new(Hours::new(wrong[which].clone())));
        }
        pool.push(Rc::new(Hours::new(windows)));
    }
    pool
}

/// Each entry with hours and a minute that are drawn. A schedule that keeps the rules may be refused for these.
impl Trial for Tally {
    fn random(&mut self) -> &mut Random {
        &mut self.random
    }

    fn codes(&self) -> &Codes {
        &self.codes
    }

    fn compare(&mut self, entry: &[u8]) {
        let hours = Rc::clone(&self.pool[self.random.below(self.pool.len())]);
        let minute = sweeps::drawn_minute(&mut self.random, &hours);
        self.compare_schedule(entry, &hours, minute);
    }

    fn accepted(&mut self, entry: &[u8]) {
        self.compare(entry);
    }
}
