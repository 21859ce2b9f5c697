//! What a step costs: its time beside plain Rust's, and its stack.
use super::case::{Case, Memory, Shared, Step, Tally};
use super::honest::steps;
use super::plain_tree::leaf;
use super::world::{MadeUp, Table};
use super::{Side, LIBRARY, PLAIN};
use crate::lms::Key;
use crate::plain_server::LAST_POSITION;
use crate::sample::Random;
use crate::stack;
use crate::timing::{Clock, Race};
use kozbrax::{Asked, SettledAnswer};
use std::cell::RefCell;
use std::hint::black_box;

const ROUNDS: usize = 100;
const SERVERS: u32 = 16;

/// From version 1 to here a cover has most nodes, 39; the path of the next position has most levels, 21.
const LAST: u32 = LAST_POSITION - 1;

const NOTHING: Side = Side {
    update_start: |_, _| NO_ANSWER,
    write_start: |_, _, _, _, _| NO_ANSWER,
    read_start: |_, _, _| NO_ANSWER,
    give_up_start: |_, _| NO_ANSWER,
    take: |_, _, _, _| NO_ANSWER,
    settled: |_, _, _| SettledAnswer { code: 0, settled: 0 },
};
const NO_ANSWER: Asked = Asked { code: 0, refusal: 0, server: 0, length: 0, ended: 0, author: 0, entry: 0 };

pub fn print(keys: &[Key], table: &Table) {
    let calls = calls(keys, table);
    println!("microseconds of processor time for a step, best and median of {ROUNDS} rounds:");
    for (name, case) in &calls {
        print_time(name, case);
    }
    println!("stack of a call, in bytes, its return address included:");
    for (name, case) in &calls {
        println!("  {name:>34}  {}", stack_of(case));
    }
    println!("  {:>34}  {}", "settled", stack_of_settled(&calls[0].1));
}

/// The starts, and steps of a long Update, of a Write behind it, of a Read and of a give-up that tells all servers.
fn calls<'a>(keys: &'a [Key], table: &'a Table) -> Vec<(&'static str, Case<'a>)> {
    let [short, long] = [1, LAST].map(|version| user(keys, table, version));
    let entry = [&[1][..], &[7; 1023]].concat();
    let mut open = long.clone();
    open.memory.set_write([1, 0, 21, 0, 0, 0]);
    open.memory.path[..32].copy_from_slice(&leaf(1, &entry));
    let writing = Step::Write { entry, randomizer: [5; 32] };
    let reading = Step::Read { position: 333_333 };
    let (update, write) = (answers(&short, Step::Update, keys, table), answers(&short, writing.clone(), keys, table));
    let read = answers(&long, reading.clone(), keys, table);
    let given_up = answers(&open, Step::GiveUp, keys, table);
    assert_eq!(given_up.len(), SERVERS as usize, "21 levels have an owner in each server");
    let record = SERVERS as usize;
    let (updated, written, done) = (update.len() - 1, write.len() - 1, read.len() - 1);
    vec![
        ("Update, start", short.with(Step::Update)),
        ("Update, a Status", update[0].clone()),
        ("Update, the last Status", update[record - 1].clone()),
        ("Update, the Record", update[record].clone()),
        ("Update, a Node", update[record + 1].clone()),
        ("Update, the last of 39 Nodes", update[updated].clone()),
        ("Write, start", short.with(writing.clone())),
        ("Write, start of an open one", open.with(writing)),
        ("Write, the Record", write[record].clone()),
        ("Write, the last of 39 Nodes: path", write[updated].clone()),
        ("Write, the first of 21 Reserves", write[updated + 1].clone()),
        ("Write, the last of 21 Reserves", write[updated + 21].clone()),
        ("Write, the PutOperation", write[updated + 22].clone()),
        ("Write, the last PutNode: signing", write[written - 1].clone()),
        ("Write, the Commit", write[written].clone()),
        ("Read, start", long.with(reading)),
        ("Read, the Operation", read[0].clone()),
        ("Read, a Node", read[1].clone()),
        ("Read, the last Node", read[done].clone()),
        ("give-up, start", open.with(Step::GiveUp)),
        ("give-up, an answer", given_up[0].clone()),
        ("give-up, the last answer", given_up[given_up.len() - 1].clone()),
    ]
}

fn user<'a>(keys: &'a [Key], table: &Table, version: u32) -> Case<'a> {
    let users = keys.iter().flat_map(|key| key.public.clone()).collect();
    let shared = Shared { servers: SERVERS, log: *b"a log of figures", users };
    let mut case = Case::new(&shared, 1, &keys[0], &mut Random::new(1));
    case.memory.keep(version, table);
    case
}

/// The steps of an honest call behind its start.
fn answers<'a>(user: &Case<'a>, step: Step, keys: &[Key], table: &Table) -> Vec<Case<'a>> {
    let (shared, random) = (user.shared.clone(), Random::new(2));
    let mut servers = MadeUp { table, shared, author: (2, &keys[1]), last: LAST, random };
    let (steps, _) = steps(&mut Tally::default(), &mut user.clone(), step, &mut servers);
    steps.into_iter().map(|(case, answer)| case.with(Step::Take { answer })).collect()
}

/// Rounds of the library against plain Rust. What is kept and the call are put back before each step, since they are all that
/// one leaves for the same step again; the other buffers get the same bytes each time.
fn print_time(name: &str, case: &Case) {
    let memory = RefCell::new(case.memory.clone());
    let step = |side: &Side| {
        let mut memory = memory.borrow_mut();
        memory.kept.copy_from_slice(&case.memory.kept);
        memory.call.copy_from_slice(&case.memory.call);
        let asked = case.step_on(black_box(side), black_box(&mut memory.lent()));
        assert_eq!(asked.code, 0, "an honest step was refused");
    };
    let mut race = Race::new(Clock::Processor, || step(&LIBRARY));
    for _ in 0..ROUNDS {
        race.round(|| step(&LIBRARY), || step(&PLAIN));
    }
    let ((best, plain_best), (median, plain_median)) = (race.best(), race.medians());
    let [best, median, plain_best, plain_median] =
        [best, median, plain_best, plain_median].map(|seconds| seconds * 1e6);
    println!("  {name:>34}: library {best:>8.2}, {median:>8.2}; plain {plain_best:>8.2}, {plain_median:>8.2}");
}

/// Each call gets a memory of its own, made before: nothing else than the step may use the stack.
fn stack_of(case: &Case) -> usize {
    let mut memories: Vec<Memory> = vec![case.memory.clone(); 8];
    let mut lent = memories.iter_mut().map(Memory::lent);
    stack::of_call(LIBRARY, NOTHING, |side| {
        let mut lent = lent.next().expect("a memory for each call");
        case.step_on(side, black_box(&mut lent));
    })
}

fn stack_of_settled(case: &Case) -> usize {
    let kept = case.memory.kept[..].try_into().expect("46 bytes");
    stack::of_call(LIBRARY, NOTHING, |side| {
        black_box((side.settled)(black_box(&case.shared.settings(case.own)), kept, 1));
    })
}
