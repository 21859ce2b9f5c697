//! The least and the greatest total time in plain Rust, written from document 02, i, by one who had read of the Rattle sources
//! for it the export and its result alone: every whole start in the range is tried. Codes 19 and 26, the segments and their
//! rules are those of `schedule/plain.rs`. No unsafe code.
use crate::schedule::plain::{self, firing_from, SEGMENT};
use kozbrax::Totals;

pub const START_REFUSED: u32 = 32;

const HOTTEST_START: u32 = 1350;

/// The code, the least and the greatest total of minutes; the last two are 0 where it is refused.
pub fn report(entry: &[u8], from: u32, to: u32) -> Totals {
    let refused = |code| Totals { code, least: 0, greatest: 0 };
    let judged_from_20 = plain::report(entry).code;
    if judged_from_20 != 0 {
        return refused(judged_from_20);
    }
    plain::segments(entry).and_then(|segments| totals(segments, from, to)).unwrap_or(refused(START_REFUSED))
}

/// The least and the greatest over the starts of a range, if it is one and the segments keep the rules from each of its starts.
fn totals(segments: &[[u8; SEGMENT]], from: u32, to: u32) -> Option<Totals> {
    if from > to || from > HOTTEST_START || to > HOTTEST_START {
        return None;
    }
    let (mut least, mut greatest) = (u32::MAX, 0);
    for start in from..=to {
        let minutes = firing_from(start as i32, segments)?.minutes;
        least = least.min(minutes);
        greatest = greatest.max(minutes);
    }
    Some(Totals { code: 0, least, greatest })
}
