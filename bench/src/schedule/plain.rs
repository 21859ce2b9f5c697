//! Firing schedules in plain Rust, written from document 02, d, and document 01 for 19's shape, by one who had read the Rattle
//! sources. No unsafe code.
use kozbrax::Firing;

pub const MISSHAPEN: u32 = 19;
pub const AGAINST_RULES: u32 = 26;
pub const LONGEST_ENTRY: usize = 1024;
pub const SEGMENT: usize = 6;

const START: i32 = 20;

/// The code, the total of minutes and the highest target; the last two are 0 where it is refused.
pub fn report(entry: &[u8]) -> Firing {
    if !has_shape(entry) {
        return Firing { code: MISSHAPEN, minutes: 0, peak: 0 };
    }
    firing(entry).unwrap_or(Firing { code: AGAINST_RULES, minutes: 0, peak: 0 })
}

/// 19's shape: 1 to 1,024 bytes of which the first is 1, 2 or 3, and 5 bytes where it is 2.
pub fn has_shape(entry: &[u8]) -> bool {
    match entry {
        [1 | 3, ..] => entry.len() <= LONGEST_ENTRY,
        [2, ..] => entry.len() == 5,
        _ => false,
    }
}

/// What is reported of a schedule that keeps the rules.
fn firing(entry: &[u8]) -> Option<Firing> {
    firing_from(START, segments(entry)?)
}

/// The segments of an entry that is laid out as a schedule: 1 to 16, as many as its count says, and nothing behind them.
pub fn segments(entry: &[u8]) -> Option<&[[u8; SEGMENT]]> {
    let [3, count @ 1..=16, body @ ..] = entry else { return None };
    let (segments, rest) = body.as_chunks::<SEGMENT>();
    (segments.len() == usize::from(*count) && rest.is_empty()).then_some(segments)
}

/// What is reported of segments that keep the rules in a kiln that starts at a temperature.
pub fn firing_from(start: i32, segments: &[[u8; SEGMENT]]) -> Option<Firing> {
    let (mut temperature, mut minutes, mut peak) = (start, 0, 0);
    for &[r, s, t, u, h, i] in segments {
        let rate = i32::from(i16::from_be_bytes([r, s]));
        let target = i32::from(u16::from_be_bytes([t, u]));
        let hold = i32::from(u16::from_be_bytes([h, i]));
        minutes += segment_minutes(temperature, rate, target, hold)?;
        temperature = target;
        peak = peak.max(target);
    }
    Some(Firing { code: 0, minutes, peak: peak as u32 })
}

/// 26 of a Write: an entry that begins as a schedule and is none that keeps the rules.
pub fn breaks_rules(entry: &[u8]) -> bool {
    entry.first() == Some(&3) && firing(entry).is_none()
}

/// How long a segment lasts from a temperature on, if it keeps the rules.
fn segment_minutes(temperature: i32, rate: i32, target: i32, hold: i32) -> Option<u32> {
    let difference = target - temperature;
    let in_range = (-600..=600).contains(&rate) && (20..=1350).contains(&target) && (0..=5999).contains(&hold);
    if !in_range || rate.signum() != difference.signum() {
        return None;
    }
    let moving = match rate {
        0 => 0,
        _ => (60 * difference.unsigned_abs()).div_ceil(rate.unsigned_abs()),
    };
    Some(moving + hold as u32)
}
