//! Firing schedules and opening hours.
use kozbrax::{code, Firing, Start, Totals};

/// Up to 120 degrees at 100 an hour with a hold of 10 minutes, down to 60 at 60 an hour with one of 5.
const SCHEDULE: [u8; 14] = [3, 2, 0, 100, 0, 120, 0, 10, 0xff, 0xc4, 0, 60, 0, 5];

/// Monday from 8:00 to 17:00.
const MONDAY: [u32; 2] = [480, 1020];

#[test]
fn a_schedule_has_its_time_and_peak() {
    let expected = Firing { code: 0, minutes: 60 + 10 + 60 + 5, peak: 120 };
    assert_eq!(kozbrax::schedule(&SCHEDULE), expected, "from 20 degrees");
    let refused = |code| Firing { code, minutes: 0, peak: 0 };
    assert_eq!(kozbrax::schedule(&SCHEDULE[..13]), refused(code::NO_SCHEDULE_BY_THE_RULES), "a byte less");
    assert_eq!(kozbrax::schedule(b""), refused(code::ENTRY_NOT_ALLOWED), "no entry");
}

#[test]
fn a_warm_kiln_takes_less_time() {
    let expected = Totals { code: 0, least: 48 + 75, greatest: 72 + 75 };
    assert_eq!(kozbrax::schedule_warm(&SCHEDULE, 0, 40), expected, "80 to 120 degrees to heat");
    let refused = Totals { code: code::STARTS_NOT_ALLOWED, least: 0, greatest: 0 };
    assert_eq!(kozbrax::schedule_warm(&SCHEDULE, 40, 0), refused, "the range's ends exchanged");
}

#[test]
fn a_firing_begins_within_opening_hours() {
    let found = |start| Start { code: 0, start };
    assert_eq!(kozbrax::opening(&MONDAY, 0, 60), found(480), "at 8:00");
    assert_eq!(kozbrax::opening(&MONDAY, 961, 60), found(10_080 + 480), "the next Monday");
    let refused = |code| Start { code, start: 0 };
    assert_eq!(kozbrax::opening(&MONDAY, 0, 541), refused(code::NO_START_IN_THE_HOURS), "a minute too long");
    assert_eq!(
        kozbrax::opening(&[1020, 480], 0, 60),
        refused(code::HOURS_NOT_ALLOWED),
        "an end before the first minute"
    );
    assert_eq!(kozbrax::schedule_opening(&SCHEDULE, &MONDAY, 500), found(500), "135 minutes from 8:20 on");
    assert_eq!(kozbrax::schedule_opening(&SCHEDULE, &MONDAY, 886), found(10_560), "135 minutes end after 17:00");
}
