//! The earliest start within opening hours in plain Rust, minute by minute, written from document 02, j, by one who had read of
//! the Rattle sources for it the header alone. Codes 19 and 26 and the total are those of `schedule/plain.rs`. No unsafe code.
use crate::schedule::plain as schedule;
use kozbrax::Start;

pub const HOURS_REFUSED: u32 = 33;
pub const NO_START: u32 = 34;
pub const WEEK: u32 = 10_080;
pub const MOST_WINDOWS: usize = 32;

/// Why windows are refused with 33: the first reason that is found.
#[derive(Clone, Copy, PartialEq, Debug)]
pub enum Refusal {
    HalfWindow,
    Number,
    Empty,
    PastWeek,
    Order,
    Overlap,
}

/// Which minutes of the week lie in windows.
pub struct Week([bool; WEEK as usize]);

impl Week {
    /// Of windows that are given as first minute and end.
    pub fn new(numbers: &[u32]) -> Result<Week, Refusal> {
        let (windows, half) = numbers.as_chunks::<2>();
        if !half.is_empty() {
            return Err(Refusal::HalfWindow);
        }
        if !(1..=MOST_WINDOWS).contains(&windows.len()) {
            return Err(Refusal::Number);
        }
        let mut open = [false; WEEK as usize];
        let mut first_before = 0;
        for &[first, end] in windows {
            judge(first, end, first_before)?;
            for minute in first..end {
                if std::mem::replace(&mut open[minute as usize], true) {
                    return Err(Refusal::Overlap);
                }
            }
            first_before = first;
        }
        Ok(Week(open))
    }

    /// Of any minute, counted round the week.
    fn is_open(&self, minute: u32) -> bool {
        self.0[(minute % WEEK) as usize]
    }

    /// Whether every minute of a firing lies in windows. One of a week or more has every minute of the week, some of them again.
    fn is_open_for(&self, start: u32, length: u32) -> bool {
        (start..start + length.min(WEEK)).all(|minute| self.is_open(minute))
    }

    fn earliest(&self, minute: u32, length: u32) -> Option<u32> {
        (minute..minute + WEEK).find(|start| self.is_open_for(*start, length))
    }
}

/// A window by itself, and its place behind the one before it.
fn judge(first: u32, end: u32, first_before: u32) -> Result<(), Refusal> {
    if end <= first {
        return Err(Refusal::Empty);
    }
    if end > WEEK {
        return Err(Refusal::PastWeek);
    }
    if first < first_before {
        return Err(Refusal::Order);
    }
    Ok(())
}

/// How many minutes from each minute of two weeks on lie in windows until one does not, a week's at most. The same search is fast
/// with these, and the run compares it with the one that looks at each minute.
pub struct Counts(Vec<u16>);

impl Counts {
    pub fn new(week: &Week) -> Counts {
        let mut counts = vec![0; 3 * WEEK as usize + 1];
        for minute in (0..3 * WEEK).rev() {
            let behind = counts[minute as usize + 1];
            counts[minute as usize] = if week.is_open(minute) { (behind + 1).min(WEEK as u16) } else { 0 };
        }
        counts.truncate(2 * WEEK as usize);
        Counts(counts)
    }

    /// From a minute of the two weeks on.
    pub fn from(&self, minute: u32) -> u32 {
        u32::from(self.0[minute as usize])
    }

    fn earliest(&self, minute: u32, length: u32) -> Option<u32> {
        let wanted = length.min(WEEK) as u16;
        let counts = &self.0[minute as usize..(minute + WEEK) as usize];
        counts.iter().position(|count| *count >= wanted).map(|later| minute + later as u32)
    }
}

/// The answer where the hours were read, or refused, and the earliest start is found in them so.
fn answer<T>(hours: Result<&T, Refusal>, minute: u32, earliest: impl Fn(&T) -> Option<u32>) -> Start {
    let refused = |code| Start { code, start: 0 };
    match hours {
        Ok(hours) if minute < WEEK => earliest(hours).map_or(refused(NO_START), |start| Start { code: 0, start }),
        _ => refused(HOURS_REFUSED),
    }
}

/// The code and the earliest start; that is 0 where it is refused.
pub fn report(windows: &[u32], minute: u32, length: u32) -> Start {
    let week = Week::new(windows);
    answer(week.as_ref().map_err(|refusal| *refusal), minute, |week| week.earliest(minute, length))
}

/// The same from counts.
pub fn report_counted(counts: Result<&Counts, Refusal>, minute: u32, length: u32) -> Start {
    answer(counts, minute, |counts| counts.earliest(minute, length))
}

/// The same of the firing that an entry holds: what is reported of its length, unless the schedule is refused.
pub fn of_schedule(entry: &[u8], report: impl FnOnce(u32) -> Start) -> Start {
    match schedule::report(entry) {
        firing if firing.code != 0 => Start { code: firing.code, start: 0 },
        firing => report(firing.minutes),
    }
}

pub fn report_schedule(entry: &[u8], windows: &[u32], minute: u32) -> Start {
    of_schedule(entry, |length| report(windows, minute, length))
}
