//! What the calls came upon, so that the run can tell that it met each kind.
use super::hours::Hours;
use super::plain::{Counts, Refusal, HOURS_REFUSED, NO_START, WEEK};
use crate::schedule::plain::{AGAINST_RULES, MISSHAPEN};
use kozbrax::Start;
use std::collections::BTreeMap;

/// How often each situation has to come up.
const OFTEN: u64 = 500;

/// The situations that have to come up with any length.
pub const OF_LENGTHS: [&str; 23] = [
    "0: length 0, minute closed",
    "0: length 0, minute open",
    "0: at once",
    "0: later in the week",
    "0: in the week after",
    "0: at m + 10,079",
    "0: minute open, its run's rest too short",
    "0: over the week's end",
    "0: through windows that meet",
    "0: fills its run",
    "0: fills its run but for a minute",
    "0: a week or more",
    "33: minute past the week",
    "33: half a window",
    "33: number of windows",
    "33: empty window",
    "33: window past the week",
    "33: windows out of order",
    "33: windows overlap",
    "33: where 34 would be",
    "34: by one minute",
    "34: a week or more",
    "34: enough minutes, not in one run",
];

/// Those that have to with schedules beside these.
pub const OF_SCHEDULES: [&str; 4] =
    ["19: minute past the week", "19: hours refused", "26: minute past the week", "26: hours refused"];

#[derive(Default)]
pub struct Situations(BTreeMap<&'static str, u64>);

impl Situations {
    fn note(&mut self, situations: &[(bool, &'static str)]) {
        for (_, name) in situations.iter().filter(|(holds, _)| *holds) {
            *self.0.entry(name).or_default() += 1;
        }
    }

    /// What a call with a length came upon.
    pub fn of_length(&mut self, hours: &Hours, minute: u32, length: u32, answer: Start) {
        match (answer.code, &hours.counts) {
            (0, Ok(counts)) => self.found(counts, minute, length, answer.start, &hours.meets),
            (NO_START, Ok(_)) => self.none(&hours.runs, length),
            (HOURS_REFUSED, counts) => self.refused(counts.as_ref().err(), &hours.runs, minute, length),
            _ => {}
        }
    }

    /// What a call with a schedule that is refused came upon.
    pub fn of_refused_schedule(&mut self, hours: &Hours, minute: u32, answer: Start) {
        let (past, refused) = (minute >= WEEK, hours.counts.is_err());
        self.note(&[
            (answer.code == MISSHAPEN && past, "19: minute past the week"),
            (answer.code == MISSHAPEN && refused, "19: hours refused"),
            (answer.code == AGAINST_RULES && past, "26: minute past the week"),
            (answer.code == AGAINST_RULES && refused, "26: hours refused"),
        ]);
    }

    fn found(&mut self, counts: &Counts, minute: u32, length: u32, start: u32, meets: &[u32]) {
        let open = counts.from(minute) > 0;
        let run = counts.from(start);
        let first = start % WEEK;
        let met = meets.iter().any(|meet| (1..length).contains(&((meet + WEEK - first) % WEEK)));
        self.note(&[
            (length == 0 && !open, "0: length 0, minute closed"),
            (length == 0 && open, "0: length 0, minute open"),
            (length > 0 && start == minute, "0: at once"),
            (start > minute && start < WEEK, "0: later in the week"),
            (start >= WEEK, "0: in the week after"),
            (start == minute + WEEK - 1, "0: at m + 10,079"),
            (start > minute && open, "0: minute open, its run's rest too short"),
            (length < WEEK && first + length > WEEK, "0: over the week's end"),
            (length < WEEK && met, "0: through windows that meet"),
            (start > minute && length == run, "0: fills its run"),
            (start > minute && length + 1 == run, "0: fills its run but for a minute"),
            (length >= WEEK, "0: a week or more"),
        ]);
    }

    fn none(&mut self, runs: &[u32], length: u32) {
        let longest = runs.iter().max().copied().unwrap_or(0);
        self.note(&[
            (length == longest + 1, "34: by one minute"),
            (length >= WEEK, "34: a week or more"),
            (length <= runs.iter().sum(), "34: enough minutes, not in one run"),
        ]);
    }

    fn refused(&mut self, refusal: Option<&Refusal>, runs: &[u32], minute: u32, length: u32) {
        let fits = runs.iter().any(|run| *run >= length.min(WEEK));
        let is = |wanted| refusal == Some(&wanted);
        self.note(&[
            (refusal.is_none(), "33: minute past the week"),
            (is(Refusal::HalfWindow), "33: half a window"),
            (is(Refusal::Number), "33: number of windows"),
            (is(Refusal::Empty), "33: empty window"),
            (is(Refusal::PastWeek), "33: window past the week"),
            (is(Refusal::Order), "33: windows out of order"),
            (is(Refusal::Overlap), "33: windows overlap"),
            (refusal.is_none() && minute >= WEEK && !fits, "33: where 34 would be"),
        ]);
    }

    /// Prints how often each came up. Each of those asked for has to.
    pub fn demand(&self, wanted: &[&str]) {
        for (name, calls) in &self.0 {
            println!("  {name:>42}  {calls:>9} calls");
        }
        for name in wanted {
            assert!(self.0.get(name).is_some_and(|calls| *calls >= OFTEN), "\"{name}\" came up too seldom");
        }
    }
}
