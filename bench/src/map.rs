//! The owner map's work, by the library and by an earlier one in the same run: first labels, and the owners of every node of
//! the paths, near a log's start and at the end of the longest one; and the program `paths`, which draws the map, with its
//! earlier one. Time, and instructions counted by callgrind.
use crate::timing::{Clock, Race};
use crate::{before, numbers};
use std::env;
use std::hint::black_box;
use std::io::Write;
use std::ops::RangeInclusive;
use std::path::{Path, PathBuf};
use std::process::{Command, Output, Stdio};
use std::time::Instant;

const ROUNDS: usize = 400;
const RUNS_OF_A_PROGRAM: usize = 40;
const SERVERS: u32 = 16;
const RANGES: [RangeInclusive<u32>; 2] = [1..=1024, 1_047_553..=1_048_576];

struct Side {
    name: &'static str,
    first_label: fn(u32) -> u32,
    owner: fn(u32, u32, u32) -> u32,
}

const SIDES: [Side; 2] = [
    Side { name: "before", first_label: before::first_label, owner: before::owner },
    Side { name: "after", first_label: numbers::first_label, owner: numbers::owner },
];

type Work = fn(&Side, RangeInclusive<u32>) -> u64;

const WORKS: [(&str, Work); 2] = [("first labels", first_labels), ("owners of all nodes", owners)];

/// The first label of each position; their sum.
fn first_labels(side: &Side, positions: RangeInclusive<u32>) -> u64 {
    positions.map(|p| u64::from((side.first_label)(p))).sum()
}

/// The owner of each node of each position's path; their sum. The path goes up to the least l with 2^l >= p.
fn owners(side: &Side, positions: RangeInclusive<u32>) -> u64 {
    let path = |p: u32| (0..=p.next_power_of_two().ilog2()).map(move |l| u64::from((side.owner)(SERVERS, p, l)));
    positions.flat_map(path).sum()
}

pub fn run() {
    compare();
    print_functions();
    print_programs();
}

fn print_functions() {
    println!(
        "{SERVERS} servers; microseconds of processor time, best and median of {ROUNDS} rounds, and instructions:"
    );
    for (w, (name, work)) in WORKS.iter().enumerate() {
        for (r, positions) in RANGES.iter().enumerate() {
            let race = timed(*work, positions);
            let (best, median) = (race.best(), race.medians());
            for (s, (best, median)) in [(best.0, median.0), (best.1, median.1)].into_iter().enumerate() {
                println!(
                    "  {name:>20}, {:>7}..{:<7}  {:>6}  {:>8.2} {:>8.2}  {:>9}",
                    positions.start(),
                    positions.end(),
                    SIDES[s].name,
                    best * 1e6,
                    median * 1e6,
                    instructions(w, r, s),
                );
            }
        }
    }
}

/// Both libraries give the same first label for each position and those beyond, and the same owners in both ranges.
fn compare() {
    let [before, after] = &SIDES;
    for p in 0..=1_048_600 {
        assert_eq!((before.first_label)(p), (after.first_label)(p), "first label of {p}");
    }
    for p in RANGES.into_iter().flatten() {
        for l in 0..=22 {
            assert_eq!((before.owner)(SERVERS, p, l), (after.owner)(SERVERS, p, l), "owner of ({p}, {l})");
        }
    }
    println!("first labels of 0..1048600, and owners of levels 0..22 in both ranges: no difference");
}

fn timed(work: Work, positions: &RangeInclusive<u32>) -> Race {
    let on = |side: &Side| {
        black_box(work(black_box(side), positions.clone()));
    };
    let [before, after] = &SIDES;
    let mut race = Race::new(Clock::Processor, || on(before));
    for _ in 0..ROUNDS {
        race.round(|| on(before), || on(after));
    }
    race
}

/// The instructions of one work, in a process of its own.
fn instructions(work: usize, range: usize, side: usize) -> String {
    let number = (4 * work + 2 * range + side).to_string();
    let program = env::current_exe().expect("this program's own path");
    collected(
        Command::new("valgrind")
            .args(callgrind("--toggle-collect=counted_work"))
            .arg(program)
            .args(["map-once", &number]),
        "",
    )
}

fn callgrind(option: &str) -> [&str; 3] {
    ["--tool=callgrind", "--callgrind-out-file=/dev/null", option]
}

/// How many instructions callgrind says it has counted.
fn collected(valgrind: &mut Command, input: &str) -> String {
    let report = answer(valgrind.stderr(Stdio::piped()), input).stderr;
    let report = String::from_utf8_lossy(&report);
    let count = report.lines().find_map(|line| line.split_once("Collected : "));
    count.expect("callgrind says what it collected").1.to_owned()
}

fn answer(command: &mut Command, input: &str) -> Output {
    let mut child = command.stdin(Stdio::piped()).stdout(Stdio::piped()).spawn().expect("the program starts");
    child.stdin.take().expect("it was piped").write_all(input.as_bytes()).expect("the program reads its input");
    child.wait_with_output().expect("the program ends")
}

/// `paths` of the earlier repository and of this one: equal answers, time of whole processes, instructions.
fn print_programs() {
    let here = Path::new(env!("CARGO_MANIFEST_DIR")).join("../crates");
    let programs = [Path::new(env!("KOZBRAX_BEFORE")).to_owned(), here].map(|crates| crates.join("paths/out/paths"));
    println!("paths; milliseconds for a whole process, best of {RUNS_OF_A_PROGRAM} in turns, and instructions:");
    for last in [1024, 1_048_576] {
        let input = format!("{SERVERS} {last}");
        let best = race_of_programs(&programs, &input);
        for s in 0..2 {
            let count =
                collected(Command::new("valgrind").args(callgrind("--collect-atstart=yes")).arg(&programs[s]), &input);
            println!("  {input:>20}  {:>6}  {:>8.2}  {count:>10}", SIDES[s].name, best[s] * 1e3);
        }
    }
}

fn race_of_programs(programs: &[PathBuf; 2], input: &str) -> [f64; 2] {
    let mut best = [f64::INFINITY; 2];
    for _ in 0..RUNS_OF_A_PROGRAM {
        let outputs = [0, 1].map(|s| {
            let start = Instant::now();
            let output = answer(&mut Command::new(&programs[s]), input).stdout;
            best[s] = best[s].min(start.elapsed().as_secs_f64());
            output
        });
        assert!(outputs[0] == outputs[1], "paths answers {input} alike");
    }
    best
}

/// The work that `instructions` counts, by its number.
pub fn once(number: usize) {
    counted_work(WORKS[number / 4].1, &SIDES[number % 2], RANGES[number / 2 % 2].clone());
}

/// Under a name that callgrind is told.
#[no_mangle]
#[inline(never)]
fn counted_work(work: Work, side: &Side, positions: RangeInclusive<u32>) {
    black_box(work(black_box(side), positions));
}
