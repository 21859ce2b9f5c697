//! The ranges of starts that are tried, with schedules that keep the rules and with others.
use super::tally::Tally;
use crate::sample::Random;
use crate::schedule::plain::LONGEST_ENTRY;
use crate::schedule::sweeps::{entry, segment, valid, valid_entry, FASTEST, HIGHEST, LOWEST, MOST_SEGMENTS};
use crate::tally::{Sweep, Trial};

/// How many schedules of each count of segments are tried with all pairs of edges: such as keep the rules, and damaged ones.
const OF_EACH_COUNT: usize = 200;
const DAMAGED: usize = 100;

/// The first rates and targets that are tried with all pairs of ends.
const ALL_PAIRS: [(i16, u16); 8] =
    [(0, LOWEST), (1, 21), (600, 22), (7, 100), (59, 256), (61, 700), (1, HIGHEST), (600, HIGHEST)];

/// The least number that 16 bits do not hold, and the least that a signed one of 32 bits is not.
const PAST_16_BITS: u32 = 1 << 16;
const PAST_31_BITS: u32 = 1 << 31;

pub const ALL: [Sweep<Tally>; 7] = [
    ("edges, rules kept", edges_of_valid),
    ("edges, all rates", edges_at_all_rates),
    ("edges, first rate 0", edges_at_rate_0),
    ("edges, damaged schedules", edges_of_damaged),
    ("edges, other shapes", edges_of_shapes),
    ("each start at all rates", each_start),
    ("all pairs of ends", all_pairs),
];

/// A schedule's first target, or 1,350 where an entry is too short to have one.
pub fn first_target(entry: &[u8]) -> u16 {
    entry.get(4..6).map_or(HIGHEST, |bytes| u16::from_be_bytes([bytes[0], bytes[1]]))
}

/// The ends at which an answer may change for a schedule with this first target, those past them, and right ones with a bit more.
fn edges(first_target: u16) -> Vec<u32> {
    let target = u32::from(first_target);
    let below = target.saturating_sub(1);
    let mut edges = vec![0, 1, 19, 20, 21, below, target, target + 1, 1349, 1350, 1351, 65_535];
    edges.extend([0, 20, below].map(|right| PAST_16_BITS + right));
    edges.extend([PAST_31_BITS - 1, PAST_31_BITS, PAST_31_BITS + 20, u32::MAX]);
    edges.sort_unstable();
    edges.dedup();
    edges
}

/// Two ends, drawn: any numbers, edges, or two up to the first target, the lesser one first.
pub fn drawn_ends(random: &mut Random, entry: &[u8]) -> (u32, u32) {
    let target = first_target(entry);
    match random.below(10) {
        0 => (random.next() as u32, random.next() as u32),
        1..=4 => {
            let edges = edges(target);
            (random.pick(&edges), random.pick(&edges))
        }
        _ => {
            let [one, other] = [(); 2].map(|()| random.below(usize::from(target) + 1) as u32);
            (one.min(other), one.max(other))
        }
    }
}

fn compare_edges(tally: &mut Tally, entry: &[u8]) {
    tally.compare_pairs(entry, &edges(first_target(entry)));
}

fn edges_of_valid(tally: &mut Tally) {
    for count in (1..=MOST_SEGMENTS).flat_map(|count| [count; OF_EACH_COUNT]) {
        let entry = valid_entry(tally.random(), count);
        compare_edges(tally, &entry);
    }
}

fn edges_at_all_rates(tally: &mut Tally) {
    for rate in 1..=FASTEST {
        for target in [LOWEST + 1, LOWEST + 2, 700, HIGHEST] {
            compare_edges(tally, &entry(&[segment(rate, target, 0)]));
        }
    }
}

/// A first segment that stays at 20, with more behind it: every pair of ends about 20, and the edges.
fn edges_at_rate_0(tally: &mut Tally) {
    let stay = segment(0, LOWEST, 10);
    let ends: Vec<u32> = (0..=60).chain(edges(LOWEST).into_iter().filter(|edge| *edge > 60)).collect();
    for more in 0..MOST_SEGMENTS {
        let entry = entry(&[&[stay], &valid(tally.random(), more)[..]].concat());
        tally.compare_pairs(&entry, &ends);
    }
}

/// Schedules that are cut, have bytes more or a byte changed; a few of them still keep the rules.
fn edges_of_damaged(tally: &mut Tally) {
    for count in (1..=MOST_SEGMENTS).flat_map(|count| [count; DAMAGED]) {
        let random = tally.random();
        let mut entry = valid_entry(random, count);
        let place = random.below(entry.len());
        match random.below(4) {
            0 => entry.truncate(place),
            1 => entry.extend(random.bytes(1 + place)),
            _ => entry[place] ^= 1 + random.below(255) as u8,
        }
        compare_edges(tally, &entry);
    }
}

/// Schedules behind other first bytes, too long ones and the longest, strikes, and no byte at all.
fn edges_of_shapes(tally: &mut Tally) {
    for count in 1..=MOST_SEGMENTS {
        let whole = valid_entry(tally.random(), count);
        for first in [0, 1, 2, 4, 255] {
            compare_edges(tally, &[&[first], &whole[1..]].concat());
        }
        for length in [LONGEST_ENTRY, LONGEST_ENTRY + 1] {
            let rest = tally.random().bytes(length - whole.len());
            compare_edges(tally, &[whole.clone(), rest].concat());
        }
    }
    compare_edges(tally, &[2, 0, 0, 0, 1]);
    compare_edges(tally, &[]);
}

/// Ranges of one start: each start up to 1,351 at each rate.
fn each_start(tally: &mut Tally) {
    for (rate, target) in (1..=FASTEST).flat_map(|rate| [(rate, 700), (rate, HIGHEST)]) {
        let entry = entry(&[segment(rate, target, 0)]);
        (0..=u32::from(HIGHEST) + 1).for_each(|start| tally.compare_from(&entry, start, start));
    }
}

/// Every pair of ends up to 2 past the first target, the greater one first too.
fn all_pairs(tally: &mut Tally) {
    for (rate, target) in ALL_PAIRS {
        let ends: Vec<u32> = (0..=u32::from(target) + 2).collect();
        tally.compare_pairs(&entry(&[segment(rate, target, 0)]), &ends);
    }
}
