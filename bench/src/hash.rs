//! SHA-256: the library's hash against plain Rust's.
use crate::sample::bytes;
use crate::timing::{Clock, Race};
use crate::{plain, stack};
use std::hint::black_box;

const ROUNDS: usize = 1000;

pub fn run() {
    println!("results: {} messages, the same from the library and from plain Rust", compare());
    println!("buffers: the message is filled once before the timing; the output buffer is not cleared between calls");
    println!("compressions a second on the best round of each side, and the library's over plain Rust's:");
    time(&[("55 B", 55), ("64 B", 64), ("1 KiB", 1 << 10), ("1 MiB", 1 << 20)]);
    println!("stack of a call, in bytes, its return address included:");
    for (name, length) in [("0 B", 0), ("55 B", 55), ("64 B", 64), ("1 KiB", 1 << 10)] {
        println!("  {name:>6}  {}", stack_of(length));
    }
}

/// Every length from 0 to 600, and longer ones about the ends of blocks up to 2 MiB.
fn lengths() -> Vec<usize> {
    let mut all: Vec<usize> = (0..=600).collect();
    for blocks in (10..200).step_by(7).chain((200..2000).step_by(171)).chain([4096, 16384, 32768]) {
        all.extend([0, 1, 54, 55, 56, 57, 63].map(|more| 64 * blocks + more));
    }
    all
}

/// Panics where the two differ, where bytes past the hash change, or where a short buffer is not refused.
fn compare() -> usize {
    let lengths = lengths();
    for &length in &lengths {
        let message = bytes(length, length as u64);
        let mut expected = [0; 32];
        plain::sha256(&message, &mut expected);
        let mut out = [0x5a; 40];
        assert_eq!(kozbrax::sha256(&message, &mut out), 0, "code at {length} bytes");
        assert_eq!(out[..32], expected, "hash of {length} bytes");
        assert_eq!(out[32..], [0x5a; 8], "bytes past the hash at {length} bytes");
    }
    for short in 0..32 {
        let mut out = vec![0x5a; short];
        assert_eq!(kozbrax::sha256(b"abc", &mut out), 21, "code for a buffer of {short} bytes");
        assert!(out.iter().all(|byte| *byte == 0x5a), "a refused buffer of {short} bytes");
    }
    lengths.len()
}

/// The rounds go through all lengths again and again, so that a quiet moment of the machine serves each of them.
fn time(subjects: &[(&str, usize)]) {
    let messages: Vec<Vec<u8>> = subjects.iter().map(|subject| bytes(subject.1, 1)).collect();
    let mut out = [0; 32];
    let mut races: Vec<Race> = messages
        .iter()
        .map(|message| Race::new(Clock::Wall, || plain::sha256(black_box(message), black_box(&mut out))))
        .collect();
    let mut other = [0; 32];
    for _ in 0..ROUNDS {
        for (race, message) in races.iter_mut().zip(&messages) {
            race.round(
                || {
                    kozbrax::sha256(black_box(message), black_box(&mut other));
                },
                || plain::sha256(black_box(message), black_box(&mut out)),
            );
        }
    }
    for (race, (name, length)) in races.iter().zip(subjects) {
        race.print(name, ((length + 8) / 64 + 1) as u64);
    }
}

/// The stack below a call.
fn stack_of(length: usize) -> usize {
    let message = bytes(length, 2);
    let mut out = [0; 32];
    stack::of_call(kozbrax::sha256 as fn(&[u8], &mut [u8]) -> u32, nothing, |f| {
        f(black_box(&message), black_box(&mut out));
    })
}

fn nothing(_message: &[u8], _out: &mut [u8]) -> u32 {
    0
}
