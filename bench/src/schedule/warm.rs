//! The least and the greatest total time of a schedule in a kiln that is still warm: the library's against plain Rust's.
mod plain;
mod sweeps;
mod tally;

use super::plain::{AGAINST_RULES, MISSHAPEN};
use super::sweeps::{valid_entry, HIGHEST};
use super::{IN_TURN, ROUNDS};
use crate::sample::Random;
use crate::stack;
use crate::tally::{sweep, OFTEN};
use crate::timing::{Clock, Race};
use kozbrax::Totals;
use std::hint::black_box;
use tally::Tally;

type Report = fn(&[u8], u32, u32) -> Totals;

const LIBRARY: Report = kozbrax::schedule_warm;
const PLAIN: Report = plain::report;

/// A range of starts that is timed, and how often the library goes through the schedules while plain Rust does once, so that the
/// library's time too is long enough for the clock.
struct Range {
    name: &'static str,
    from: u32,
    to: u32,
    library_passes: usize,
}

/// One start, and all that a first target of 1,350 lets be.
const RANGES: [Range; 2] = [
    Range { name: "from 20 to 20", from: 20, to: 20, library_passes: 1 },
    Range { name: "from 0 to 1,349", from: 0, to: HIGHEST as u32 - 1, library_passes: 100 },
];

pub fn run(seed: u64) {
    println!("code, least and greatest total, from the library and from plain Rust, seed {seed}:");
    let mut tally = Tally::new(seed);
    sweep(&mut tally, &sweeps::ALL);
    println!("  each entry of the sweeps above, made anew, with ends that are drawn:");
    sweep(&mut tally, &super::sweeps::all());
    tally.demand(&[0, MISSHAPEN, AGAINST_RULES, plain::START_REFUSED], OFTEN);
    println!("nanoseconds of processor time for a call, best and median of {ROUNDS} rounds:");
    let random = &mut Random::new(seed);
    for (segments, count) in [1, 16].iter().flat_map(|segments| IN_TURN.map(|count| (*segments, count))) {
        let schedules: Vec<Vec<u8>> = (0..count).map(|_| hottest_first(random, segments)).collect();
        RANGES.iter().for_each(|range| time(&schedules, segments, range));
    }
    println!("stack of a call, in bytes, its return address included:");
    for segments in [1, 16] {
        let entry = hottest_first(random, segments);
        RANGES.iter().for_each(|range| print_stack(&entry, segments, range));
    }
}

/// A schedule that keeps the rules and first heats to 1,350.
fn hottest_first(random: &mut Random, segments: usize) -> Vec<u8> {
    let any = || valid_entry(random, segments);
    let is_hottest = |entry: &Vec<u8>| sweeps::first_target(entry) == HIGHEST;
    std::iter::repeat_with(any).find(is_hottest).expect("a twelfth of all do")
}

fn report_all(report: Report, schedules: &[Vec<u8>], range: &Range, passes: usize) {
    for entry in (0..passes).flat_map(|_| schedules) {
        black_box(report(black_box(entry), black_box(range.from), black_box(range.to)));
    }
}

fn time(schedules: &[Vec<u8>], segments: usize, range: &Range) {
    let library = || report_all(black_box(LIBRARY), schedules, range, range.library_passes);
    let plain = || report_all(black_box(PLAIN), schedules, range, 1);
    let mut race = Race::new(Clock::Processor, plain);
    for _ in 0..ROUNDS {
        race.round(library, plain);
    }
    let count = schedules.len();
    let name = format!("{segments:>2} segments, {count:>4} schedules in turn, {:>15}", range.name);
    race.print_nanoseconds(&name, [count * range.library_passes, count]);
}

fn print_stack(entry: &[u8], segments: usize, range: &Range) {
    let nothing: Report = |_, _, _| Totals { code: 0, least: 0, greatest: 0 };
    let used = stack::of_call(LIBRARY, nothing, |report| {
        black_box(report(black_box(entry), range.from, range.to));
    });
    println!("  {segments:>2} segments, {:>15}  {used}", range.name);
}
