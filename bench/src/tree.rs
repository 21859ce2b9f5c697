//! Labels, owners, waits, covers, leaves, digests and the board: the library's against plain Rust's.
mod plain;
mod sweeps;
mod tally;

use crate::sample::Random;
use crate::timing::{Clock, Race};
use crate::{numbers, stack};
use plain::{HASH, LAST_POSITION, NODE};
use std::hint::black_box;
use tally::Tally;

const ROUNDS: usize = 40;

/// The longest cover's nodes.
const MOST_NODES: usize = 39;

/// The seven functions of one side, with their arguments as include/kozbrax.h has them.
pub struct Side {
    first_label: fn(u32) -> u32,
    owner: fn(u32, u32, u32) -> u32,
    wait: fn(u32, u32) -> u32,
    cover: fn(u32, u32, &mut [u8]) -> u32,
    leaf: fn(u16, &[u8], &mut [u8]) -> u32,
    digest: fn(&[u8], &mut [u8]) -> u32,
    board: fn(&[u32], &mut [u32]) -> u32,
}

pub const LIBRARY: Side = Side {
    first_label: numbers::first_label,
    owner: numbers::owner,
    wait: numbers::wait,
    cover: numbers::cover,
    leaf: kozbrax::leaf,
    digest: kozbrax::digest,
    board: kozbrax::board,
};

pub const PLAIN: Side = Side {
    first_label: plain::first_label,
    owner: plain::owner,
    wait: plain::wait,
    cover: plain::cover,
    leaf: plain::leaf,
    digest: plain::digest,
    board: plain::board,
};

const NOTHING: Side = Side {
    first_label: |_| 0,
    owner: |_, _, _| 0,
    wait: |_, _| 0,
    cover: |_, _, _| 0,
    leaf: |_, _, _| 0,
    digest: |_, _| 0,
    board: |_, _| 0,
};

const SUBJECTS: [(&str, fn(&mut Tally)); 7] = [
    ("first label", sweeps::first_labels),
    ("owner", sweeps::owners),
    ("wait", sweeps::waits),
    ("cover", sweeps::covers),
    ("leaf", sweeps::leaves),
    ("digest", sweeps::digests),
    ("board", sweeps::boards),
];

pub fn run(seed: u64) {
    println!("results, every lent byte and {} each side of it, seed {seed}:", tally::GUARD);
    let mut differences = 0;
    for (name, sweep) in SUBJECTS {
        let mut tally = Tally::new(name, seed);
        sweep(&mut tally);
        differences += tally.print();
    }
    if differences > 0 {
        std::process::exit(1);
    }
    println!("microseconds of processor time for a call, best and median of {ROUNDS} rounds:");
    let random = &mut Random::new(seed);
    for count in [1024, 100_000] {
        time_digest(&random.bytes(HASH * count));
    }
    for count in [1024, 16_384, 131_072, LAST_POSITION as usize] {
        time_board("random", &sweeps::targets(random, count));
    }
    time_board("insertions", &vec![0; LAST_POSITION as usize]);
    time_board("undoing", &sweeps::undoing(LAST_POSITION as usize));
    print_stack(random);
}

fn print_time(name: &str, race: &Race) {
    let (best, median) = (race.best(), race.medians());
    println!(
        "  {name:>24}  library {:.1}, {:.1}  plain {:.1}, {:.1}",
        best.0 * 1e6,
        median.0 * 1e6,
        best.1 * 1e6,
        median.1 * 1e6
    );
}

fn time_digest(leaves: &[u8]) {
    let (mut ours, mut out) = ([0; HASH], [0; HASH]);
    let mut race = Race::new(Clock::Processor, || {
        plain::digest(black_box(leaves), black_box(&mut out));
    });
    for _ in 0..ROUNDS {
        race.round(
            || {
                kozbrax::digest(black_box(leaves), black_box(&mut ours));
            },
            || {
                plain::digest(black_box(leaves), black_box(&mut out));
            },
        );
    }
    assert_eq!(ours, out, "digest");
    print_time(&format!("digest of {} leaves", leaves.len() / HASH), &race);
}

/// Plain Rust in one pass: the comparison's looks at every later entry.
fn time_board(kind: &str, targets: &[u32]) {
    let (mut ours, mut out) = (vec![0; targets.len()], vec![0; targets.len()]);
    let mut race = Race::new(Clock::Processor, || {
        plain::board_in_one_pass(black_box(targets), black_box(&mut out));
    });
    for _ in 0..ROUNDS {
        race.round(
            || {
                kozbrax::board(black_box(targets), black_box(&mut ours));
            },
            || {
                plain::board_in_one_pass(black_box(targets), black_box(&mut out));
            },
        );
    }
    assert_eq!(ours, out, "board");
    print_time(&format!("board of {} {kind}", targets.len()), &race);
    let an_entry = 1e9 / targets.len() as f64;
    println!(
        "  {:>24}  library {:.2}  plain {:.2}",
        "ns an entry, best",
        race.best().0 * an_entry,
        race.best().1 * an_entry
    );
}

fn print_stack(random: &mut Random) {
    println!("stack of a call, in bytes, its return address included:");
    stack_of("first label of 1024", |side| (side.first_label)(black_box(1024)));
    stack_of("first label of 1025", |side| (side.first_label)(black_box(1025)));
    stack_of("owner", |side| (side.owner)(black_box(16), black_box(LAST_POSITION), black_box(20)));
    stack_of("wait", |side| (side.wait)(black_box(16), black_box(1)));
    let mut nodes = [0; NODE * MOST_NODES];
    stack_of("cover", |side| (side.cover)(black_box(524_287), black_box(1_048_575), black_box(&mut nodes)));
    let entry = random.bytes(1024);
    let mut out = [0; HASH];
    stack_of("leaf", |side| (side.leaf)(black_box(1), black_box(&entry), black_box(&mut out)));
    let leaves = random.bytes(HASH * LAST_POSITION as usize);
    stack_of("digest of 1048576 leaves", |side| (side.digest)(black_box(&leaves), black_box(&mut out)));
    let targets = sweeps::targets(random, 1000);
    let mut standing = [0; 1000];
    stack_of("board of 1000 entries", |side| (side.board)(black_box(&targets), black_box(&mut standing)));
}

fn stack_of(name: &str, mut call: impl FnMut(&Side) -> u32) {
    let used = stack::of_call(LIBRARY, NOTHING, |side| {
        black_box(call(side));
    });
    println!("  {name:>24}  {used}");
}
