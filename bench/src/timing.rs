//! Two sides timed in turns, in rounds so short that a change of the machine's pace meets both.
use std::ffi::c_long;

const ROUND_SECONDS: f64 = 0.001;

/// A clock of Linux, by its number there.
#[derive(Clone, Copy)]
pub enum Clock {
    /// The time that passes: CLOCK_MONOTONIC.
    Wall = 1,
    /// The time that a processor spends on this thread: CLOCK_THREAD_CPUTIME_ID.
    Processor = 3,
}

#[repr(C)]
struct Time {
    seconds: c_long,
    nanoseconds: c_long,
}

extern "C" {
    fn clock_gettime(clock: i32, time: *mut Time) -> i32;
}

impl Clock {
    fn seconds(self) -> f64 {
        let mut time = Time { seconds: 0, nanoseconds: 0 };
        // SAFETY: the C library that std links has this function, and `Time` is its `timespec` on x86-64 Linux and on 32-bit x86.
        let failed = unsafe { clock_gettime(self as i32, &mut time) };
        assert_eq!(failed, 0, "a clock that Linux has");
        time.seconds as f64 + time.nanoseconds as f64 * 1e-9
    }
}

/// What was measured of two sides so far.
pub struct Race {
    clock: Clock,
    calls: u32,
    /// The seconds that a call of each side took, round by round.
    rounds: Vec<(f64, f64)>,
}

impl Race {
    /// No round yet; a round is to have as many calls of each side as take a millisecond of the side given.
    pub fn new(clock: Clock, mut side: impl FnMut()) -> Race {
        let mut calls = 1;
        while seconds_for_a_call(clock, calls, &mut side) * f64::from(calls) < ROUND_SECONDS {
            calls *= 2;
        }
        Race { clock, calls, rounds: Vec::new() }
    }

    /// One round: calls of the one side and then of the other, which take turns to go first.
    pub fn round(&mut self, mut first: impl FnMut(), mut second: impl FnMut()) {
        let (a, b);
        if self.rounds.len() & 1 == 0 {
            a = seconds_for_a_call(self.clock, self.calls, &mut first);
            b = seconds_for_a_call(self.clock, self.calls, &mut second);
        } else {
            b = seconds_for_a_call(self.clock, self.calls, &mut second);
            a = seconds_for_a_call(self.clock, self.calls, &mut first);
        }
        self.rounds.push((a, b));
    }

    /// The seconds for a call on the best round of each side.
    pub fn best(&self) -> (f64, f64) {
        let least = |times: &mut dyn Iterator<Item = f64>| times.fold(f64::INFINITY, f64::min);
        let rounds = self.rounds.iter();
        (least(&mut rounds.clone().map(|round| round.0)), least(&mut rounds.map(|round| round.1)))
    }

    /// The seconds for a call of each side: the medians of the rounds.
    pub fn medians(&self) -> (f64, f64) {
        let rounds = self.rounds.iter();
        (median(rounds.clone().map(|round| round.0)), median(rounds.map(|round| round.1)))
    }

    /// The second side's time over the first's in the same round: the median of the rounds.
    fn median_ratio(&self) -> f64 {
        median(self.rounds.iter().map(|(a, b)| b / a))
    }

    /// A line with the compressions a second of the library, which was the first side, and of plain Rust.
    pub fn print(&self, name: &str, compressions: u64) {
        let (library, plain) = self.best();
        println!(
            "  {name:>14}  library {:>9.0}  plain {:>9.0}  ratio {:.3}  median of the rounds' ratios {:.3}",
            compressions as f64 / library,
            compressions as f64 / plain,
            plain / library,
            self.median_ratio(),
        );
    }

    /// A line with the nanoseconds for a call of the library, which was the first side, and of plain Rust, best and median,
    /// where a call of a round makes so many of each.
    pub fn print_nanoseconds(&self, name: &str, [of_library, of_plain]: [usize; 2]) {
        let (best, median) = (self.best(), self.medians());
        let [library, plain] = [of_library, of_plain].map(|calls| 1e9 / calls as f64);
        println!(
            "  {name}  library {:.1}, {:.1}  plain {:.1}, {:.1}",
            best.0 * library,
            median.0 * library,
            best.1 * plain,
            median.1 * plain
        );
    }
}

fn median(values: impl Iterator<Item = f64>) -> f64 {
    let mut values: Vec<f64> = values.collect();
    values.sort_by(f64::total_cmp);
    values[values.len() / 2]
}

fn seconds_for_a_call(clock: Clock, calls: u32, f: &mut impl FnMut()) -> f64 {
    let start = clock.seconds();
    for _ in 0..calls {
        f();
    }
    (clock.seconds() - start) / f64::from(calls)
}
