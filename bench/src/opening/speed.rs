//! The time and the stack of a call.
use super::hours::{drawn, ALL_OPEN, ANY};
use super::plain::{MOST_WINDOWS, WEEK};
use super::{Report, ReportOfSchedule, LIBRARY, OF_SCHEDULE, PLAIN, PLAIN_OF_SCHEDULE};
use crate::sample::Random;
use crate::schedule::sweeps::valid_entry;
use crate::stack;
use crate::timing::{Clock, Race};
use kozbrax::Start;
use std::hint::black_box;

const ROUNDS: usize = 100;

/// How many calls are made in turn where they are drawn, and the longest firing that is drawn.
const IN_TURN: usize = 1024;
const LONGEST_DRAWN: usize = 60;

/// How far the windows' first minutes lie apart.
const SPACE: u32 = WEEK / MOST_WINDOWS as u32;

/// Windows of which the first has some minutes and each other one minute less.
struct Spaced {
    number: usize,
    minutes: u32,
    /// How often the library answers while plain Rust does once, so that its time too is long enough for the clock: where the start
    /// is found at once, and where it is not.
    library_calls: [usize; 2],
}

const SPACED: [Spaced; 4] = [
    Spaced { number: 1, minutes: 2, library_calls: [10, 100] },
    Spaced { number: 1, minutes: 9000, library_calls: [100, 10_000] },
    Spaced { number: MOST_WINDOWS, minutes: 2, library_calls: [10, 100] },
    Spaced { number: MOST_WINDOWS, minutes: 300, library_calls: [10, 10_000] },
];

struct Call {
    windows: Vec<u32>,
    minute: u32,
    length: u32,
}

impl Call {
    fn give(&self, report: Report) -> Start {
        report(black_box(&self.windows), black_box(self.minute), black_box(self.length))
    }
}

/// A call with a schedule in place of a length.
struct Firing {
    entry: Vec<u8>,
    windows: Vec<u32>,
    minute: u32,
}

impl Firing {
    fn give(&self, report: ReportOfSchedule) -> Start {
        report(black_box(&self.entry), black_box(&self.windows), black_box(self.minute))
    }
}

pub fn run(seed: u64) {
    println!("nanoseconds of processor time for a call, best and median of {ROUNDS} rounds:");
    let random = &mut Random::new(seed);
    for spaced in &SPACED {
        for (name, call, library_calls) in spaced.calls() {
            time(&name, &[call], library_calls, [LIBRARY, PLAIN], |call, report| call.give(report));
        }
    }
    for number in [1, MOST_WINDOWS] {
        let call = Call { windows: drawn(random, ALL_OPEN, number), minute: 1, length: WEEK };
        let name = format!("{number:>2} windows, all open, length 10080");
        time(&name, &[call], 100, [LIBRARY, PLAIN], |call, report| call.give(report));
        let calls: Vec<Call> = (0..IN_TURN).map(|_| drawn_call(random, number)).collect();
        let name = format!("{number:>2} windows, {IN_TURN} calls in turn");
        time(&name, &calls, 10, [LIBRARY, PLAIN], |call, report| call.give(report));
    }
    for (segments, number) in [(1, 1), (16, MOST_WINDOWS)] {
        let firings: Vec<Firing> = (0..IN_TURN).map(|_| drawn_firing(random, segments, number)).collect();
        let name = format!("{number:>2} windows, all open, {IN_TURN} schedules of {segments} in turn");
        time(&name, &firings, 10, [OF_SCHEDULE, PLAIN_OF_SCHEDULE], |firing, report| firing.give(report));
    }
    print_stacks(random);
}

impl Spaced {
    /// Calls whose start is found at once, whose start is the last that may be, and that have none.
    fn calls(&self) -> [(String, Call, usize); 3] {
        let &Spaced { number, minutes, library_calls: [at_once, later] } = self;
        let first_others = (1..number as u32).map(|window| window * SPACE);
        let others = first_others.flat_map(|first| [first, first + minutes - 1]);
        let windows: Vec<u32> = [0, minutes].into_iter().chain(others).collect();
        let call = |situation: &str, minute, length, library_calls| {
            let name = format!("{number:>2} windows, length {length:>4}, {situation:>13}");
            (name, Call { windows: windows.clone(), minute, length }, library_calls)
        };
        [
            call("found at once", 0, minutes, at_once),
            call("at m + 10,079", 1, minutes, later),
            call("34", 0, minutes + 1, later),
        ]
    }
}

/// Any windows and minute, and a short firing.
fn drawn_call(random: &mut Random, number: usize) -> Call {
    let windows = drawn(random, ANY, number);
    Call { windows, minute: random.below(WEEK as usize) as u32, length: 1 + random.below(LONGEST_DRAWN) as u32 }
}

/// A schedule that keeps the rules, and windows that leave no minute of the week out.
fn drawn_firing(random: &mut Random, segments: usize, number: usize) -> Firing {
    let (entry, windows) = (valid_entry(random, segments), drawn(random, ALL_OPEN, number));
    Firing { entry, windows, minute: random.below(WEEK as usize) as u32 }
}

/// All calls in turn, of which the library makes so many while plain Rust makes one.
fn time<C, R: Copy>(
    name: &str,
    calls: &[C],
    library_calls: usize,
    [library, plain]: [R; 2],
    give: impl Fn(&C, R) -> Start,
) {
    let all = |report: R, passes: usize| {
        for call in (0..passes).flat_map(|_| calls) {
            black_box(give(call, black_box(report)));
        }
    };
    let mut race = Race::new(Clock::Processor, || all(plain, 1));
    for _ in 0..ROUNDS {
        race.round(|| all(library, library_calls), || all(plain, 1));
    }
    race.print_nanoseconds(&format!("{name:>50}"), [calls.len() * library_calls, calls.len()]);
}

fn print_stacks(random: &mut Random) {
    println!("stack of a call, in bytes, its return address included:");
    for (name, call, _) in SPACED.iter().flat_map(Spaced::calls) {
        let nothing: Report = |_, _, _| Start { code: 0, start: 0 };
        print_stack(&name, LIBRARY, nothing, |report| call.give(report));
    }
    for (segments, number) in [(1, 1), (1, MOST_WINDOWS), (16, 1), (16, MOST_WINDOWS)] {
        let firing = drawn_firing(random, segments, number);
        let nothing: ReportOfSchedule = |_, _, _| Start { code: 0, start: 0 };
        let name = format!("{number:>2} windows, a schedule of {segments:>2}");
        print_stack(&name, OF_SCHEDULE, nothing, |report| firing.give(report));
    }
}

fn print_stack<R: Copy>(name: &str, library: R, nothing: R, give: impl Fn(R) -> Start) {
    let used = stack::of_call(library, nothing, |report| {
        black_box(give(*report));
    });
    println!("  {name:>50}  {used}");
}
