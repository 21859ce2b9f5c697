//! What is reported of a firing schedule: the library's against plain Rust's.
pub mod plain;
pub mod sweeps;
mod tally;
pub mod warm;

use crate::sample::Random;
use crate::stack;
use crate::tally::{sweep, Trial, OFTEN};
use crate::timing::{Clock, Race};
use kozbrax::Firing;
use std::hint::black_box;
use tally::Tally;

const ROUNDS: usize = 100;

/// How many schedules are reported in turn while the time is taken: one, whose branches the processor learns, and many.
const IN_TURN: [usize; 2] = [1, 1024];

type Report = fn(&[u8]) -> Firing;

const LIBRARY: Report = kozbrax::schedule;
const PLAIN: Report = plain::report;

pub fn run(seed: u64) {
    println!("code, minutes and peak, the same from the library and from plain Rust, seed {seed}:");
    let mut tally = Tally::new(seed);
    sweep(&mut tally, &sweeps::all());
    println!("{} calls in all, no difference, by code:", tally.codes().calls());
    tally.codes().demand(&[0, plain::MISSHAPEN, plain::AGAINST_RULES], OFTEN);
    println!("nanoseconds of processor time for a call, best and median of {ROUNDS} rounds:");
    let random = &mut Random::new(seed);
    for (segments, count) in [1, 16].iter().flat_map(|segments| IN_TURN.map(|count| (*segments, count))) {
        time(random, segments, count);
    }
    println!("stack of a call, in bytes, its return address included:");
    for segments in [1, 16] {
        print_stack(&sweeps::valid_entry(random, segments), segments);
    }
    warm::run(seed);
}

fn report_all(report: Report, schedules: &[Vec<u8>]) {
    for entry in schedules {
        black_box(report(black_box(entry)));
    }
}

fn time(random: &mut Random, segments: usize, count: usize) {
    let schedules: Vec<Vec<u8>> = (0..count).map(|_| sweeps::valid_entry(random, segments)).collect();
    let mut race = Race::new(Clock::Processor, || report_all(black_box(PLAIN), &schedules));
    for _ in 0..ROUNDS {
        race.round(|| report_all(black_box(LIBRARY), &schedules), || report_all(black_box(PLAIN), &schedules));
    }
    race.print_nanoseconds(&format!("{segments:>2} segments, {count:>4} schedules in turn"), [count, count]);
}

fn print_stack(entry: &[u8], segments: usize) {
    let nothing: Report = |_| Firing { code: 0, minutes: 0, peak: 0 };
    let used = stack::of_call(LIBRARY, nothing, |report| {
        black_box(report(black_box(entry)));
    });
    println!("  {segments:>2} segments  {used}");
}
