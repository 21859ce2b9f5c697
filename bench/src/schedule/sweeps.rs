//! The entries that are tried: schedules that keep the rules, each field through all its values and at and past its ends, each
//! sign, damaged schedules, and bytes that are none.
use super::plain::{LONGEST_ENTRY, SEGMENT};
use crate::sample::Random;
use crate::tally::{Sweep, Trial};

pub const LOWEST: u16 = 20;
pub const HIGHEST: u16 = 1350;
pub const FASTEST: i16 = 600;
pub const LONGEST_HOLD: u16 = 5999;
pub const MOST_SEGMENTS: usize = 16;

/// Schedules that keep the rules, of each count of segments.
const OF_EACH_COUNT: usize = 20_000;
/// How many of each count are damaged, and with how many bytes more they are tried.
const DAMAGED: usize = 12;
const BYTES_MORE: usize = 40;
/// The longest of the entries that are random bytes.
const LONGEST_RANDOM: usize = 1100;

/// Each field's ends, the values past them, and those at which its bytes or its sign change.
const RATES: [i16; 18] =
    [i16::MIN, -32_767, -601, -600, -599, -257, -256, -255, -1, 0, 1, 255, 256, 257, 599, 600, 601, i16::MAX];
const TARGETS: [u16; 14] = [0, 19, 20, 21, 255, 256, 699, 700, 701, 1349, 1350, 1351, 32_768, u16::MAX];
const HOLDS: [u16; 10] = [0, 1, 255, 256, 5998, 5999, 6000, 6001, 32_768, u16::MAX];

/// The sweeps, by name, for one who tries each of their entries.
pub fn all<T: Trial>() -> [Sweep<T>; 8] {
    [
        ("schedules that keep the rules", valid_schedules),
        ("all differences at all rates", roundings),
        ("all rates, targets and holds", whole_fields),
        ("the fields' ends", ends),
        ("signs", signs),
        ("counts", counts),
        ("damaged schedules", damaged),
        ("random bytes", random_bytes),
    ]
}

#[derive(Clone, Copy)]
pub struct Segment {
    rate: i16,
    target: u16,
    hold: u16,
}

pub fn segment(rate: i16, target: u16, hold: u16) -> Segment {
    Segment { rate, target, hold }
}

/// The bytes of an entry with these segments and any count.
fn entry_with(count: u8, segments: &[Segment]) -> Vec<u8> {
    let mut entry = vec![3, count];
    for s in segments {
        entry.extend(s.rate.to_be_bytes());
        entry.extend(s.target.to_be_bytes());
        entry.extend(s.hold.to_be_bytes());
    }
    entry
}

pub fn entry(segments: &[Segment]) -> Vec<u8> {
    entry_with(segments.len() as u8, segments)
}

/// Segments that keep the rules: a sixth of them stay at their temperature, a sixth go to an end of the range.
pub fn valid(random: &mut Random, count: usize) -> Vec<Segment> {
    let mut before = LOWEST;
    let mut next = || {
        let target = match random.below(6) {
            0 => before,
            1 => random.pick(&[LOWEST, HIGHEST]),
            _ => LOWEST + random.below(usize::from(HIGHEST - LOWEST) + 1) as u16,
        };
        let size = 1 + random.below(FASTEST as usize) as i16;
        let sign = (i32::from(target) - i32::from(before)).signum() as i16;
        let hold = random.below(usize::from(LONGEST_HOLD) + 1) as u16;
        before = target;
        segment(sign * size, target, hold)
    };
    (0..count).map(|_| next()).collect()
}

/// A schedule's bytes, of segments that keep the rules.
pub fn valid_entry(random: &mut Random, count: usize) -> Vec<u8> {
    entry(&valid(random, count))
}

fn valid_schedules(tally: &mut impl Trial) {
    for count in 1..=MOST_SEGMENTS {
        for _ in 0..OF_EACH_COUNT {
            let entry = valid_entry(tally.random(), count);
            tally.accepted(&entry);
        }
    }
    let (up, down) = (segment(1, HIGHEST, LONGEST_HOLD), segment(-1, LOWEST, LONGEST_HOLD));
    tally.accepted(&entry(&[up, down].repeat(MOST_SEGMENTS / 2)));
}

/// All differences at all rates, up from 20 and down from 1,350: every way in which the minutes are rounded.
fn roundings(tally: &mut impl Trial) {
    let top = segment(FASTEST, HIGHEST, 0);
    for rate in 1..=FASTEST {
        for target in LOWEST + 1..=HIGHEST {
            tally.accepted(&entry(&[segment(rate, target, 0)]));
            tally.accepted(&entry(&[top, segment(-rate, target - 1, 7)]));
        }
    }
}

/// All rates, all targets and all holds, in a first segment and in a second one that begins at 700.
fn whole_fields(tally: &mut impl Trial) {
    let first = segment(100, 700, 0);
    let mut both = |s: Segment| {
        tally.compare(&entry(&[s]));
        tally.compare(&entry(&[first, s]));
    };
    for value in 0..=u16::MAX {
        for target in [LOWEST, LOWEST + 1, 699, 700, 701, HIGHEST] {
            both(segment(value as i16, target, 10));
        }
        for rate in [-FASTEST, -1, 0, 1, FASTEST] {
            both(segment(rate, value, 10));
        }
        for (rate, target) in [(0, LOWEST), (0, 700), (7, 1000), (-7, 500)] {
            both(segment(rate, target, value));
        }
    }
}

/// All combinations of the fields' ends, in each place of schedules that else keep the rules.
fn ends(tally: &mut impl Trial) {
    for count in [1, 2, 3, MOST_SEGMENTS] {
        for place in 0..count {
            let mut segments = valid(tally.random(), count);
            for (rate, target) in RATES.iter().flat_map(|rate| TARGETS.map(|target| (*rate, target))) {
                for hold in HOLDS {
                    segments[place] = segment(rate, target, hold);
                    tally.compare(&entry(&segments));
                }
            }
        }
    }
}

/// Each sign beside each way that a target may lie to the one before it and to 20, and the same with one more segment before.
fn signs(tally: &mut impl Trial) {
    let temperatures = [20, 21, 300, 700, 701, 1349, 1350];
    for (before, target) in temperatures.iter().flat_map(|before| temperatures.map(|target| (*before, target))) {
        let sign = i16::from(before > LOWEST);
        for rate in [-FASTEST, -59, -1, 0, 1, 59, FASTEST] {
            let [to, then] = [segment(100 * sign, before, 0), segment(rate, target, 3)];
            tally.compare(&entry(&[to, then]));
            tally.compare(&entry(&[segment(0, LOWEST, 0), to, then]));
        }
    }
}

/// Counts beside every number of segments.
fn counts(tally: &mut impl Trial) {
    for segments in 0..=MOST_SEGMENTS + 2 {
        let segments = valid(tally.random(), segments);
        for count in 0..=u8::MAX {
            tally.compare(&entry_with(count, &segments));
        }
    }
    for count in MOST_SEGMENTS + 1..=(LONGEST_ENTRY - 2) / SEGMENT + 1 {
        let entry = valid_entry(tally.random(), count);
        tally.compare(&entry);
    }
}

/// Schedules with each byte changed to each other value, cut to each length, and with bytes more.
fn damaged(tally: &mut impl Trial) {
    for count in (1..=MOST_SEGMENTS).flat_map(|count| [count; DAMAGED]) {
        let whole = valid_entry(tally.random(), count);
        for (place, value) in (0..whole.len()).flat_map(|place| (0..=u8::MAX).map(move |value| (place, value))) {
            let mut entry = whole.clone();
            entry[place] = value;
            tally.compare(&entry);
        }
        (0..whole.len()).for_each(|length| tally.compare(&whole[..length]));
        for more in (1..=BYTES_MORE).chain([LONGEST_ENTRY - whole.len(), LONGEST_ENTRY + 1 - whole.len()]) {
            let entry = [&whole[..], &tally.random().bytes(more)].concat();
            tally.compare(&entry);
        }
    }
}

/// Random bytes of every length behind each of the first bytes 0 to 4 and 255, with any count and with the one that fits.
fn random_bytes(tally: &mut impl Trial) {
    for length in 0..=LONGEST_RANDOM {
        for first in [0, 1, 2, 3, 4, 255] {
            let mut entry = tally.random().bytes(length);
            entry.iter_mut().take(1).for_each(|byte| *byte = first);
            tally.compare(&entry);
            entry.iter_mut().skip(1).take(1).for_each(|byte| *byte = (length.saturating_sub(2) / SEGMENT) as u8);
            tally.compare(&entry);
        }
    }
}
