//! Opening hours that are made up, and the minutes and lengths at which their answers may change.
use super::plain::{Counts, Refusal, Week, WEEK};
use crate::sample::Random;

/// The least number that 16 bits do not hold, and the least that a signed one of 32 bits is not.
pub const PAST_16_BITS: u32 = 1 << 16;
pub const PAST_31_BITS: u32 = 1 << 31;

/// Windows, right or wrong, and what the plain side counts of them.
pub struct Hours {
    pub windows: Vec<u32>,
    pub counts: Result<Counts, Refusal>,
    /// The lengths of the runs, each of all open minutes between two closed ones; none where the hours are refused.
    pub runs: Vec<u32>,
    /// The minutes at which one window ends and another begins.
    pub meets: Vec<u32>,
}

impl Hours {
    pub fn new(windows: Vec<u32>) -> Hours {
        let counts = Week::new(&windows).map(|week| Counts::new(&week));
        let runs = counts.as_ref().map_or(Vec::new(), runs);
        let meets = windows.windows(2).filter(|two| two[0] == two[1]).map(|two| two[0]).collect();
        Hours { windows, counts, runs, meets }
    }

    pub fn counts(&self) -> Result<&Counts, Refusal> {
        self.counts.as_ref().map_err(|refusal| *refusal)
    }

    /// Each window's first minute and end and their neighbours, the week's ends, those past them, and right ones with a bit more.
    pub fn minutes(&self) -> Vec<u32> {
        let mut minutes: Vec<u32> = self.windows.iter().flat_map(neighbours).collect();
        minutes.extend([0, WEEK - 1, WEEK, WEEK + 1, PAST_16_BITS, PAST_31_BITS, u32::MAX]);
        sorted(minutes)
    }

    /// Each run's and each window's length and their neighbours, those about a week, and longer ones.
    pub fn lengths(&self) -> Vec<u32> {
        let of_windows = self.windows.chunks_exact(2).map(|window| window[1].wrapping_sub(window[0]));
        let mut lengths: Vec<u32> =
            of_windows.chain(self.runs.clone()).flat_map(|length| neighbours(&length)).collect();
        lengths.extend([0, 1, 2, WEEK - 1, WEEK, WEEK + 1, 2 * WEEK, PAST_16_BITS, PAST_16_BITS + 1]);
        lengths.extend([PAST_31_BITS - 1, PAST_31_BITS, PAST_31_BITS + 1, u32::MAX - WEEK, u32::MAX]);
        sorted(lengths)
    }
}

/// A number, the one before it and the one behind it.
pub fn neighbours(number: &u32) -> [u32; 3] {
    [number.wrapping_sub(1), *number, number.wrapping_add(1)]
}

pub fn sorted(mut numbers: Vec<u32>) -> Vec<u32> {
    numbers.sort_unstable();
    numbers.dedup();
    numbers
}

fn runs(counts: &Counts) -> Vec<u32> {
    let begins = |minute: &u32| counts.from(minute - 1) == 0 && counts.from(*minute) > 0;
    match counts.from(0) {
        WEEK => vec![WEEK],
        _ => (1..=WEEK).filter(begins).map(|minute| counts.from(minute)).collect(),
    }
}

/// The closed minutes before each of so many windows and behind the last; where they are not stated, they are drawn.
pub type Gaps = fn(&mut Random, usize) -> Vec<Option<u32>>;

/// Windows anywhere.
pub const ANY: Gaps = |_, number| gaps(None, None, number);
/// No minute of the week is left out.
pub const ALL_OPEN: Gaps = |_, number| gaps(Some(0), Some(0), number);
/// Each gap is none, one minute, or any.
pub const MIXED: Gaps = |random, number| (0..=number).map(|_| random.pick(&[Some(0), Some(1), None])).collect();
/// Each window meets the next, or ends one minute before it.
const MEETING: Gaps = |_, number| gaps(None, Some(0), number);
const APART: Gaps = |_, number| gaps(None, Some(1), number);
/// The last window meets the first one of the week after.
const ROUND: Gaps = |_, number| gaps(Some(0), None, number);

pub const KINDS: [Gaps; 7] = [ANY, MEETING, APART, ROUND, ALL_OPEN, all_but_one_minute, MIXED];

/// The same at both of the week's ends, and the same between all windows.
fn gaps(at_ends: Option<u32>, between: Option<u32>, number: usize) -> Vec<Option<u32>> {
    let mut gaps = vec![between; number + 1];
    gaps[0] = at_ends;
    gaps[number] = at_ends;
    gaps
}

fn all_but_one_minute(random: &mut Random, number: usize) -> Vec<Option<u32>> {
    let mut gaps = gaps(Some(0), Some(0), number);
    gaps[random.below(number + 1)] = Some(1);
    gaps
}

/// Right windows of a kind, so many of them. What the stated gaps leave of the week is shared out to windows and gaps at random.
pub fn drawn(random: &mut Random, kind: Gaps, number: usize) -> Vec<u32> {
    let gaps = kind(random, number);
    let stated: u32 = gaps.iter().flatten().sum();
    let drawn_gaps = gaps.iter().filter(|gap| gap.is_none()).count();
    let mut shares = shares(random, WEEK - stated - number as u32, drawn_gaps + number).into_iter();
    let mut share = || shares.next().expect("one for each window and drawn gap");
    let (mut windows, mut minute) = (Vec::new(), 0);
    for gap in &gaps[..number] {
        let first = minute + gap.unwrap_or_else(&mut share);
        minute = first + 1 + share();
        windows.extend([first, minute]);
    }
    windows
}

/// So many numbers that make up a sum.
fn shares(random: &mut Random, sum: u32, number: usize) -> Vec<u32> {
    let mut ends: Vec<u32> = (1..number).map(|_| random.below(sum as usize + 1) as u32).collect();
    ends.extend([0, sum]);
    ends.sort_unstable();
    ends.windows(2).map(|two| two[1] - two[0]).collect()
}
