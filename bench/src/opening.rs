//! The earliest start of a firing within opening hours: the library's against plain Rust's.
mod hours;
mod plain;
mod situations;
mod speed;
mod sweeps;
mod tally;

use crate::schedule::plain::{AGAINST_RULES, MISSHAPEN};
use crate::tally::sweep;
use kozbrax::Start;
use plain::{HOURS_REFUSED, NO_START};
use tally::Tally;

type Report = fn(&[u32], u32, u32) -> Start;
type ReportOfSchedule = fn(&[u8], &[u32], u32) -> Start;

const LIBRARY: Report = kozbrax::opening;
const PLAIN: Report = plain::report;
const OF_SCHEDULE: ReportOfSchedule = kozbrax::schedule_opening;
const PLAIN_OF_SCHEDULE: ReportOfSchedule = plain::report_schedule;

pub fn run(seed: u64) {
    println!("code and start of a length, from the library and from plain Rust, seed {seed}:");
    let mut tally = Tally::new(seed);
    sweep(&mut tally, &sweeps::OF_LENGTHS);
    tally.demand(&[0, HOURS_REFUSED, NO_START], &situations::OF_LENGTHS);
    println!("code and start of a schedule, from the library and from plain Rust, seed {seed}:");
    let mut tally = Tally::new(seed);
    sweep(&mut tally, &sweeps::OF_SCHEDULES);
    println!("  each entry that `schedule` tries, made anew, with hours and a minute that are drawn:");
    sweep(&mut tally, &crate::schedule::sweeps::all());
    tally.demand(&[0, MISSHAPEN, AGAINST_RULES, HOURS_REFUSED, NO_START], &situations::OF_SCHEDULES);
    speed::run(seed);
}
