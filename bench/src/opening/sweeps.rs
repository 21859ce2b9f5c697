//! The opening hours, minutes and lengths that are tried, and the entries.
use super::hours::{drawn, neighbours, sorted, Hours, ANY, KINDS, MIXED, PAST_16_BITS, PAST_31_BITS};
use super::plain::{MOST_WINDOWS, WEEK};
use super::tally::Tally;
use crate::sample::Random;
use crate::schedule::sweeps::{entry, segment, valid_entry, LONGEST_HOLD, LOWEST, MOST_SEGMENTS};
use crate::tally::{Sweep, Trial};
use std::ops::RangeInclusive;

pub const NUMBERS: RangeInclusive<usize> = 1..=MOST_WINDOWS;

/// How many hours of each kind are drawn for each number of windows.
const OF_EACH_KIND: usize = 3;
/// The numbers of windows that are tried with schedules.
const SOME_NUMBERS: [usize; 6] = [1, 2, 3, 8, 31, MOST_WINDOWS];
/// The most minutes that two segments at 20 last.
const LONGEST_STAY: u32 = 2 * LONGEST_HOLD as u32;
/// How many entries of each sort are tried with right and wrong hours.
const OF_EACH_SORT: usize = 40;

/// The hours that are tried with each minute of the week.
const FEW: [&[u32]; 17] = [
    &[0, WEEK],
    &[0, WEEK - 1],
    &[1, WEEK],
    &[0, 1],
    &[WEEK - 1, WEEK],
    &[100, 200],
    &[0, 5040],
    &[5040, WEEK],
    &[0, 100, 9980, WEEK],
    &[1, 100, 9980, WEEK],
    &[0, 100, 9980, WEEK - 1],
    &[0, 5040, 5040, WEEK],
    &[0, 5040, 5041, WEEK],
    &[0, 1, WEEK - 1, WEEK],
    &[100, 200, 200, 250, 251, 500],
    &[0, 10, 20, 40, 40, 41, 5000, 5100, 10_000, WEEK],
    &[480, 1080, 1920, 2520, 3360, 3960, 4800, 5400, 6240, 6840],
];

/// The numbers of which one window is made in all ways, and of which two are.
const FOR_ONE: [u32; 15] = [
    0,
    1,
    2,
    1439,
    1440,
    5040,
    WEEK - 2,
    WEEK - 1,
    WEEK,
    WEEK + 1,
    PAST_16_BITS,
    PAST_16_BITS + 1440,
    PAST_31_BITS,
    PAST_31_BITS + 1440,
    u32::MAX,
];
const FOR_TWO: [u32; 8] = [0, 1, 5040, 5041, WEEK - 1, WEEK, WEEK + 1, u32::MAX];

pub const OF_LENGTHS: [Sweep<Tally>; 6] = [
    ("each minute, few windows", each_minute),
    ("one window at the edges", one_window),
    ("two windows at the edges", two_windows),
    ("hours of each kind", each_kind),
    ("numbers of windows", numbers),
    ("windows made wrong", made_wrong),
];

pub const OF_SCHEDULES: [Sweep<Tally>; 3] = [
    ("totals, hours of each kind", totals_of_each_kind),
    ("each total", each_total),
    ("right and wrong of each", right_and_wrong),
];

/// A minute, drawn: any number, an edge, or one of the week.
pub fn drawn_minute(random: &mut Random, hours: &Hours) -> u32 {
    match random.below(20) {
        0 => random.next() as u32,
        1..=9 => random.pick(&hours.minutes()),
        _ => random.below(WEEK as usize) as u32,
    }
}

fn compare_edges(tally: &mut Tally, hours: &Hours) {
    tally.compare_lengths(hours, &hours.minutes(), &hours.lengths());
}

fn each_minute(tally: &mut Tally) {
    let minutes: Vec<u32> = (0..WEEK + 2).collect();
    for windows in FEW {
        let hours = Hours::new(windows.to_vec());
        tally.compare_lengths(&hours, &minutes, &hours.lengths());
    }
}

/// All windows from one of these numbers to another, the greater one first too.
fn windows_of(numbers: &[u32]) -> Vec<[u32; 2]> {
    numbers.iter().flat_map(|first| numbers.iter().map(|end| [*first, *end])).collect()
}

fn one_window(tally: &mut Tally) {
    for window in windows_of(&FOR_ONE) {
        compare_edges(tally, &Hours::new(window.to_vec()));
    }
}

fn two_windows(tally: &mut Tally) {
    let windows = windows_of(&FOR_TWO);
    for (one, other) in windows.iter().flat_map(|one| windows.iter().map(move |other| (one, other))) {
        compare_edges(tally, &Hours::new([*one, *other].concat()));
    }
}

fn each_kind(tally: &mut Tally) {
    for (number, kind) in NUMBERS.flat_map(|number| KINDS.map(|kind| (number, kind))) {
        for _ in 0..OF_EACH_KIND {
            let hours = Hours::new(drawn(tally.random(), kind, number));
            compare_edges(tally, &hours);
        }
    }
}

/// Every count of numbers to 66 and beyond, odd ones too, each window right by itself and in order; and counts that 8 or 16 bits
/// would take for right ones.
fn numbers(tally: &mut Tally) {
    let most = WEEK as usize;
    let in_order: Vec<u32> = (0..WEEK / 2).flat_map(|window| [2 * window, 2 * window + 1]).collect();
    for count in (0..=2 * MOST_WINDOWS + 2).chain(67..=600).chain([most - 1, most]) {
        let hours = Hours::new(in_order[..count].to_vec());
        tally.compare_lengths(&hours, &[0, 1, 64, WEEK - 1, WEEK], &hours.lengths());
    }
    for bits in [8, 16, 17] {
        for count in (0..=2 * MOST_WINDOWS + 2).map(|count| count + (1 << bits)) {
            let hours = Hours::new(in_order.iter().cycle().take(count).copied().collect());
            tally.compare_lengths(&hours, &[0, 1], &[0, 1, WEEK]);
        }
    }
}

/// Windows with each number of one of them replaced by those about it, by its neighbours' and by edges, its two numbers exchanged,
/// and it exchanged with the next, or the first, one. A few of them are right.
pub fn wrong_in(windows: &[u32], place: usize) -> Vec<Vec<u32>> {
    let own = [2 * place, 2 * place + 1];
    let near = &windows[own[0].saturating_sub(2)..windows.len().min(own[0] + 4)];
    let mut values: Vec<u32> = near.iter().flat_map(neighbours).collect();
    values.extend(own.iter().flat_map(|number| [PAST_16_BITS, PAST_31_BITS].map(|bit| windows[*number] + bit)));
    values.extend([0, 1, WEEK - 1, WEEK, WEEK + 1, PAST_31_BITS, u32::MAX]);
    let values = sorted(values);
    let replaced = |number: usize, value: u32| {
        let mut wrong = windows.to_vec();
        wrong[number] = value;
        wrong
    };
    let mut all: Vec<Vec<u32>> =
        own.iter().flat_map(|number| values.iter().map(|value| replaced(*number, *value))).collect();
    let next = (2 * place + 2) % windows.len();
    for exchanged in [vec![(own[0], own[1])], vec![(own[0], next), (own[1], next + 1)]] {
        let mut wrong = windows.to_vec();
        exchanged.iter().for_each(|(one, other)| wrong.swap(*one, *other));
        all.push(wrong);
    }
    all
}

fn made_wrong(tally: &mut Tally) {
    for (number, kind) in NUMBERS.flat_map(|number| [ANY, MIXED].map(|kind| (number, kind))) {
        let windows = drawn(tally.random(), kind, number);
        for place in 0..number {
            for wrong in wrong_in(&windows, place) {
                let hours = Hours::new(wrong);
                tally.compare_lengths(&hours, &[0, windows[2 * place], WEEK - 1], &[0, 1, 100, WEEK]);
            }
        }
    }
}

/// A schedule that stays at 20 for so many minutes.
fn stay(minutes: u32) -> Vec<u8> {
    let first = minutes.min(u32::from(LONGEST_HOLD));
    entry(&[first, minutes - first].map(|hold| segment(0, LOWEST, hold as u16)))
}

fn totals_of_each_kind(tally: &mut Tally) {
    for (number, kind) in SOME_NUMBERS.iter().flat_map(|number| KINDS.map(|kind| (*number, kind))) {
        let hours = Hours::new(drawn(tally.random(), kind, number));
        let minutes = hours.minutes();
        for length in hours.lengths().into_iter().filter(|length| *length <= LONGEST_STAY) {
            let entry = stay(length);
            minutes.iter().for_each(|minute| tally.compare_schedule(&entry, &hours, *minute));
        }
    }
}

fn each_total(tally: &mut Tally) {
    let [whole, but_one, most] = [0, 1, 12].map(|few: usize| Hours::new(FEW[few].to_vec()));
    for entry in (0..=LONGEST_STAY).map(stay) {
        for (hours, minute) in
            [&whole, &but_one, &most].into_iter().flat_map(|hours| [0, 1, 5041].map(|minute| (hours, minute)))
        {
            tally.compare_schedule(&entry, hours, minute);
        }
    }
}

/// Entries that keep the rules, break them, or have not 19's shape, each with right and wrong hours and minutes.
fn right_and_wrong(tally: &mut Tally) {
    for count in (1..=MOST_SEGMENTS).flat_map(|count| [count; OF_EACH_SORT]) {
        let right = valid_entry(tally.random(), count);
        let against_rules = [&right[..], &[0]].concat();
        let misshapen = [&[4], &right[1..]].concat();
        let number = 1 + tally.random().below(MOST_WINDOWS);
        let windows = drawn(tally.random(), MIXED, number);
        let odd = windows[1..].to_vec();
        for hours in [windows, odd].map(Hours::new) {
            for minute in [0, WEEK - 1, WEEK, u32::MAX] {
                for entry in [&right, &against_rules, &misshapen, &stay(1), &stay(0)] {
                    tally.compare_schedule(entry, &hours, minute);
                }
            }
        }
    }
}
