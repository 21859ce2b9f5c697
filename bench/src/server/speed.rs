//! What a call costs: time for each stored record that it scans, a Commit beside a bare check of its signature, and stack.
use super::case::Case;
use super::message::{signed_body, Message};
use super::{Serve, LIBRARY, PLAIN};
use crate::lms::Key;
use crate::plain_lms::SIGNATURE;
use crate::plain_server::{lg, owner, COMMIT, GIVE_UP, HASH, HEAD, LAST_POSITION, LONGEST_ANSWER, NODE, OPERATION};
use crate::plain_server::{
    PUT_NODE, PUT_OPERATION, RECORD, RECORD_HEADER, REQUEST_HEADER, RESERVE, SIGNED_MARK, STATUS,
};
use crate::sample::Random;
use crate::timing::{Clock, Race};
use crate::{numbers, plain_lms, stack};
use kozbrax::{Served, Settings};
use std::cell::RefCell;
use std::hint::black_box;

const ROUNDS: usize = 100;
pub const SCANS: &str =
    "nanoseconds of processor time for each stored record of a call that scans them: best and median of 100 rounds";

/// How many servers there are, and the level of the node that a Node or PutNode is about: its owner is the server.
#[derive(Clone, Copy)]
pub struct Place {
    pub servers: u32,
    pub level: u8,
}

const PLACE: Place = Place { servers: 4, level: 1 };

/// The head's position, full at each of its levels, behind all that is stored for the timing.
pub const P: u32 = LAST_POSITION;

/// The records of a store one after the other, by kind and body length, again from the start when they are through.
const MIXES: [(&str, &[(u8, usize)]); 5] = [
    ("PutNode, 44 bytes", &[(PUT_NODE, HASH)]),
    ("PutOperation, 112 bytes", &[(PUT_OPERATION, 100)]),
    ("PutOperation, 1,036 bytes", &[(PUT_OPERATION, 1024)]),
    ("Commit, 2,552 bytes", &[(COMMIT, HASH + SIGNATURE)]),
    ("the first three in turn", &[(PUT_NODE, HASH), (PUT_OPERATION, 100), (PUT_OPERATION, 1024)]),
];

pub fn print(key: &Key) {
    println!("{SCANS}");
    for count in [1000, 20_000] {
        for (name, mix) in MIXES {
            print_scans(key, PLACE, &store(count, mix), count, name);
        }
    }
    print_commit(key);
    print_stack(key);
}

/// Whole records at positions 2, 4, 6 and on, none of them at the head's.
fn store(count: usize, mix: &[(u8, usize)]) -> Vec<u8> {
    let mut random = Random::new(count as u64);
    let mut records = Vec::new();
    for (i, (kind, length)) in (1..).zip(mix.iter().cycle().take(count)) {
        let p = 2 * i;
        let l = match *kind {
            PUT_NODE => 1,
            COMMIT => lg(p) as u8,
            _ => 0,
        };
        records.extend(Message { kind: *kind, author: 1, p, l, body: random.bytes(*length) }.record());
    }
    records
}

/// A call that is valid apart from what is not stored, on the store given and a free part for one record of any kind.
fn call(key: &Key, place: Place, kind: u8, records: &[u8]) -> Case {
    let mut random = Random::new(u64::from(kind));
    let servers = place.servers;
    let l = match kind {
        STATUS | NODE | PUT_NODE => place.level,
        COMMIT | RECORD => lg(P) as u8,
        _ => 0,
    };
    let own = owner(P, l, servers);
    let log = random.array();
    let digest = random.array();
    let body = match kind {
        COMMIT => signed_body(key, &log, P, &digest, &mut random),
        RESERVE | GIVE_UP => digest.to_vec(),
        PUT_NODE => random.bytes(HASH),
        PUT_OPERATION => random.bytes(1024),
        _ => Vec::new(),
    };
    let (p, l) = if kind == STATUS { (0, 0) } else { (P, l) };
    let mut case = Case {
        servers,
        own,
        log,
        users: key.public.clone(),
        head: [0; HEAD],
        store: [records, &[0; RECORD_HEADER + HASH + SIGNATURE]].concat(),
        used: records.len() as u64,
        request: Message { kind, author: 1, p, l, body }.request(&log),
        answer: vec![0; LONGEST_ANSWER],
    };
    case.set_head(P, l, 1, &digest);
    case.set_earlier(P - 1, 0, 1, &digest);
    case
}

/// The same call again and again: head and used length are given anew each time, so that what one changes the next does not see.
fn again(case: &mut Case, serve: Serve) -> Served {
    let settings = Settings { servers: case.servers, own: case.own, log: &case.log, users: &case.users };
    let (mut head, store, answer) = (case.head, &mut case.store, &mut case.answer);
    serve(
        black_box(&settings),
        black_box(&mut head),
        black_box(store),
        case.used,
        black_box(&case.request),
        black_box(answer),
    )
}

/// Rounds of the library against plain Rust on one call, which is to end with the code and the same on both sides. Both take
/// the same buffers, so that what the processor keeps of them serves both.
fn race(case: Case, code: u32) -> Race {
    assert!(case.run(LIBRARY) == case.run(PLAIN), "the library and plain Rust differ on a large store");
    let case = RefCell::new(case);
    let call = |serve: Serve| assert_eq!(again(&mut case.borrow_mut(), serve).code, code);
    let mut race = Race::new(Clock::Processor, || call(LIBRARY));
    for _ in 0..ROUNDS {
        race.round(|| call(LIBRARY), || call(PLAIN));
    }
    race
}

/// Nanoseconds for each record of a store, by three calls that scan it.
pub fn print_scans(key: &Key, place: Place, records: &[u8], count: usize, mix: &str) {
    let each = |seconds: f64| seconds * 1e9 / count as f64;
    for (name, kind, code) in [("Status", STATUS, 0), ("missing Node", NODE, 8), ("new PutNode", PUT_NODE, 0)] {
        let race = race(call(key, place, kind, records), code);
        let ((best, plain_best), (median, plain_median)) = (race.best(), race.medians());
        println!(
            "  {count:>7} records, {mix:>25}, {name:>12}: library {:>6.2}, {:>6.2}; plain {:>6.2}, {:>6.2}",
            each(best),
            each(median),
            each(plain_best),
            each(plain_median)
        );
    }
}

/// A Commit that is accepted and stored, with nothing stored before, beside a check of its signature alone.
fn print_commit(key: &Key) {
    let case = call(key, PLACE, COMMIT, &[]);
    let (digest, signature) = case.request[REQUEST_HEADER..].split_at(HASH);
    let text = [&SIGNED_MARK[..], &case.log, &P.to_be_bytes(), digest].concat();
    let check = |check: fn(&[u8], &[u8], &[u8]) -> u32| {
        black_box(check(black_box(&key.public), black_box(&text), black_box(signature)));
    };
    let mut checks = Race::new(Clock::Processor, || check(numbers::lms_check));
    for _ in 0..ROUNDS {
        checks.round(|| check(numbers::lms_check), || check(plain_lms::check));
    }
    let commits = race(case.clone(), 0);
    println!("microseconds of processor time, best and median:");
    for (name, race) in [("a Commit, accepted and stored", &commits), ("a check of its signature alone", &checks)] {
        let ((best, plain_best), (median, plain_median)) = (race.best(), race.medians());
        println!(
            "  {name:>30}: library {:.2}, {:.2}; plain {:.2}, {:.2}",
            best * 1e6,
            median * 1e6,
            plain_best * 1e6,
            plain_median * 1e6
        );
    }
}

/// Each kind on a store of 100 records; a pull finds what it asks for.
fn print_stack(key: &Key) {
    println!("stack of a call, in bytes, its return address included:");
    for (name, kind, stored) in [
        ("Status", STATUS, PUT_NODE),
        ("Node, a leaf", NODE, PUT_OPERATION),
        ("Node, above", NODE, PUT_NODE),
        ("Operation", OPERATION, PUT_OPERATION),
        ("Record", RECORD, COMMIT),
        ("Reserve", RESERVE, PUT_NODE),
        ("PutOperation", PUT_OPERATION, PUT_NODE),
        ("PutNode", PUT_NODE, PUT_OPERATION),
        ("Commit", COMMIT, PUT_NODE),
        ("give-up", GIVE_UP, PUT_NODE),
    ] {
        let found = call(key, PLACE, stored, &[]);
        let body = found.request[REQUEST_HEADER..].to_vec();
        let l = found.request[25];
        let record = Message { kind: stored, author: 1, p: P, l, body }.record();
        let mut case = call(key, PLACE, kind, &[store(100, MIXES[4].1), record].concat());
        if kind == NODE {
            case.request[25] = l;
            case.own = owner(P, l, PLACE.servers);
        }
        assert_eq!(again(&mut case, LIBRARY).code, 0, "{name}");
        let used = stack::of_call(LIBRARY, nothing as Serve, |serve| {
            again(&mut case, *serve);
        });
        println!("  {name:>14}  {used}");
    }
}

fn nothing(_: &Settings, _: &mut [u8; HEAD], _: &mut [u8], used: u64, _: &[u8], _: &mut [u8]) -> Served {
    Served { code: 0, answer: 0, used }
}
