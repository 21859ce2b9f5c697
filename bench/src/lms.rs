//! LMS signatures: the library's against plain Rust's.
use crate::plain_lms::{KEY, NO, NUMBER_TOO_LARGE, SHORT, SIGNATURE, TREE};
use crate::sample::{array, bytes};
use crate::timing::{Clock, Race};
use crate::{numbers, plain_lms, stack};
use kozbrax::Signer;
use std::hint::black_box;
use std::ops::Range;

/// The timing goes as often through the three calls: a round of key generation, then some of signing and of checking.
const CYCLES: usize = 40;
const SHORT_ROUNDS: usize = 25;

const PAINT: u8 = 0x5a;
const PAST: usize = 40;

struct Side {
    generate: fn(&[u8; 32], &[u8; 16], &mut [u8]) -> u32,
    public_key: fn(&[u8; 16], &[u8], &mut [u8]) -> u32,
    sign: fn(&Signer, &[u8], &[u8], &mut [u8]) -> u32,
    check: fn(&[u8], &[u8], &[u8]) -> u32,
}

const LIBRARY: Side = Side {
    generate: kozbrax::lms_generate,
    public_key: kozbrax::lms_public_key,
    sign: kozbrax::lms_sign,
    check: numbers::lms_check,
};

const PLAIN: Side = Side {
    generate: plain_lms::generate,
    public_key: plain_lms::public_key,
    sign: plain_lms::sign,
    check: plain_lms::check,
};

const NOTHING: Side = Side { generate: |_, _, _| 0, public_key: |_, _, _| 0, sign: |_, _, _, _| 0, check: |_, _, _| 0 };

pub fn run() {
    compare_with_the_rfc();
    println!(
        "RFC 8554, test case 2, top level: tree, public key, signature and check as the RFC has them, on both sides"
    );
    let keys: Vec<Key> = (1..=4).map(Key::new).collect();
    println!("trees and public keys of {} seeds: the same from the library and from plain Rust", keys.len());
    println!("signatures and checks: {}, the same; each text altered: refused by both", compare_signatures(&keys));
    compare_altered(&keys[0], &keys[1]);
    println!("refusals for length or number: {}, the same codes, every buffer as it was", compare_refusals(&keys[0]));
    time(&keys[2]);
    print_stack(&keys[3]);
}

/// Both sides write into a painted buffer with bytes past what they are to write: those stay, and the rest is the same.
fn written(length: usize, what: &str, call: impl Fn(&Side, &mut [u8]) -> u32) -> Vec<u8> {
    let [mut ours, plain] = [LIBRARY, PLAIN].map(|side| {
        let mut out = vec![PAINT; length + PAST];
        assert_eq!(call(&side, &mut out), 0, "code: {what}");
        assert!(out[length..].iter().all(|byte| *byte == PAINT), "bytes past the {length}: {what}");
        out
    });
    assert!(ours == plain, "{what}: the library and plain Rust differ");
    ours.truncate(length);
    ours
}

/// Both sides refuse with the code, and leave the buffer as it was.
fn refused(length: usize, code: u32, what: &str, call: impl Fn(&Side, &mut [u8]) -> u32) {
    for side in [LIBRARY, PLAIN] {
        let before = bytes(length, 77);
        let mut out = before.clone();
        assert_eq!(call(&side, &mut out), code, "code: {what}");
        assert!(out == before, "a refused buffer: {what}");
    }
}

/// What both sides answer.
fn checked(key: &[u8], text: &[u8], signature: &[u8], what: &str) -> u32 {
    let [ours, plain] = [LIBRARY, PLAIN].map(|side| (side.check)(key, text, signature));
    assert_eq!(ours, plain, "check: {what}");
    ours
}

fn not_valid(key: &[u8], text: &[u8], signature: &[u8], what: &str) {
    assert_eq!(checked(key, text, signature, what), NO, "accepted: {what}");
}

/// A key that both sides agree on.
pub struct Key {
    pub seed: [u8; 32],
    pub id: [u8; 16],
    pub tree: Vec<u8>,
    pub public: Vec<u8>,
}

impl Key {
    pub fn new(n: u64) -> Key {
        Key::of(array(1000 + n), array(2000 + n))
    }

    fn of(seed: [u8; 32], id: [u8; 16]) -> Key {
        let tree = written(TREE, "tree", |side, out| (side.generate)(&seed, &id, out));
        let public = written(KEY, "public key", |side, out| (side.public_key)(&id, &tree, out));
        Key { seed, id, tree, public }
    }

    fn signer<'a>(&'a self, number: u32, randomizer: &'a [u8; 32]) -> Signer<'a> {
        Signer { seed: &self.seed, id: &self.id, number, randomizer }
    }

    /// The signature that both sides make.
    pub fn signed(&self, number: u32, randomizer: &[u8; 32], text: &[u8]) -> Vec<u8> {
        let signer = self.signer(number, randomizer);
        let tree = self.tree.clone();
        let what = format!("signature, number {number}, text of {} bytes", text.len());
        let signature = written(SIGNATURE, &what, |side, out| (side.sign)(&signer, text, &tree, out));
        assert!(tree == self.tree, "a lent tree changed: {what}");
        signature
    }
}

fn compare_with_the_rfc() {
    let file = include_str!("../vectors/lms_rfc8554_case2_top.txt");
    let field = |name: &str| {
        let start = format!("{name} = ");
        file.lines().find_map(|line| line.strip_prefix(&start)).expect("a field of the file")
    };
    let hex = |name: &str| -> Vec<u8> {
        let figures = field(name);
        let byte = |i: usize| u8::from_str_radix(&figures[i..i + 2], 16).expect("two hexadecimal figures");
        (0..figures.len()).step_by(2).map(byte).collect()
    };
    let key = Key::of(hex("seed").try_into().expect("32 bytes"), hex("i").try_into().expect("16 bytes"));
    assert_eq!(key.public, hex("pub"), "the RFC's public key");
    let number = field("q").parse().expect("a number");
    let randomizer = hex("c").try_into().expect("32 bytes");
    assert_eq!(key.signed(number, &randomizer, &hex("msg")), hex("sig"), "the RFC's signature");
    assert_eq!(checked(&hex("pub"), &hex("msg"), &hex("sig"), "the RFC's"), number);
}

/// Every length from 0 to 300 and longer ones with the first key; with each key the numbers at the ends and others.
fn compare_signatures(keys: &[Key]) -> usize {
    let lengths = (0..=300).chain([1000, 1023, 1024, 4096, 65_535, 100_000]);
    let mut cases: Vec<(&Key, u32, usize)> =
        lengths.map(|length| (&keys[0], sample_number(length as u64), length)).collect();
    for (key, n) in keys.iter().zip(1..) {
        let others = (0..40).map(|i| sample_number(100 * n + i));
        let numbers = [0, 1, 2, 511, 512, 1022, 1023].into_iter().chain(others);
        cases.extend(numbers.map(|number| (key, number, 54 + (number as usize * 7 + n as usize) % 90)));
    }
    for (i, (key, number, length)) in cases.iter().enumerate() {
        let mut text = bytes(*length, i as u64);
        let signature = key.signed(*number, &array(5000 + i as u64), &text);
        let what = format!("number {number}, text of {length} bytes");
        assert_eq!(checked(&key.public, &text, &signature, &what), *number, "{what}");
        text.push(0);
        not_valid(&key.public, &text, &signature, "a text with a byte more");
        text.pop();
        if let Some(last) = text.last_mut() {
            *last ^= 1;
            not_valid(&key.public, &text, &signature, "a text with its last bit changed");
        }
    }
    cases.len()
}

fn sample_number(seed: u64) -> u32 {
    u32::from(u16::from_be_bytes(array(9000 + seed))) % 1024
}

/// One valid signature: each bit of its small fields and of the key is changed, and a bit of each other byte; each type
/// and each length is tried; and it stands under another key. Both sides refuse all of it.
fn compare_altered(key: &Key, other: &Key) {
    let text = bytes(54, 3);
    let signature = key.signed(437, &array(4), &text);
    assert_eq!(checked(&key.public, &text, &signature, "unaltered"), 437);
    let small = [("number", 0..4), ("one-time type", 4..8), ("type", 2184..2188)];
    let wide = [("randomizer", 8..40), ("chain values", 40..2184), ("path", 2188..SIGNATURE)];
    for (name, field) in small {
        alter(name, &signature, bits(field), |altered| not_valid(&key.public, &text, altered, name));
    }
    for (name, field) in wide {
        alter(name, &signature, field.map(|i| (i, 1 << (i % 8))), |altered| {
            not_valid(&key.public, &text, altered, name)
        });
    }
    for (name, field) in
        [("key's type", 0..4), ("key's one-time type", 4..8), ("key's I", 8..24), ("key's root", 24..KEY)]
    {
        alter(name, &key.public, bits(field), |altered| not_valid(altered, &text, &signature, name));
    }
    compare_lengths(key, &text, &signature);
    not_valid(&other.public, &text, &signature, "another key");
    let foreign = Key { seed: key.seed, id: key.id, tree: bytes(TREE, 6), public: key.public.clone() };
    not_valid(&key.public, &text, &foreign.signed(437, &array(4), &text), "a path of another tree");
    println!("  another key, a path of another tree: refused by both");
}

fn bits(field: Range<usize>) -> impl Iterator<Item = (usize, u8)> {
    field.flat_map(|i| (0..8).map(move |bit| (i, 1 << bit)))
}

fn alter(name: &str, original: &[u8], changes: impl Iterator<Item = (usize, u8)>, refuse: impl Fn(&[u8])) {
    let mut altered = original.to_vec();
    let mut count = 0;
    for (place, change) in changes {
        altered[place] ^= change;
        refuse(&altered);
        altered[place] ^= change;
        count += 1;
    }
    println!("  {name} altered in {count} ways: refused by both");
}

/// Each shorter signature and key, longer ones, and the other types of the RFC's tables.
fn compare_lengths(key: &Key, text: &[u8], signature: &[u8]) {
    let long_signature = [signature, &[0; PAST]].concat();
    for length in (0..SIGNATURE).chain(SIGNATURE + 1..=SIGNATURE + PAST) {
        not_valid(&key.public, text, &long_signature[..length], "length of a signature");
    }
    let long_key = [&key.public[..], &[0; PAST]].concat();
    for length in (0..KEY).chain(KEY + 1..=KEY + PAST) {
        not_valid(&long_key[..length], text, signature, "length of a key");
    }
    for (lms_type, ots_type) in (0..=20).flat_map(|a| (0..=8).map(move |b| (a, b))).filter(|pair| *pair != (6, 3)) {
        let (mut key, mut signature) = (key.public.clone(), signature.to_vec());
        (key[3], key[7]) = (lms_type, ots_type);
        not_valid(&key, text, &signature, "types of a key");
        (signature[2187], signature[7]) = (lms_type, ots_type);
        not_valid(&key, text, &signature, "types of a key and of a signature");
    }
    println!("  every length below, and {PAST} above, of signature and key; other types in both: refused by both");
}

fn compare_refusals(key: &Key) -> usize {
    let mut count = 0;
    let short_trees = [0, 1, 32, TREE / 2, TREE - 32, TREE - 1];
    for short in short_trees {
        refused(short, SHORT, "tree's place", |side, out| (side.generate)(&key.seed, &key.id, out));
        refused(KEY + PAST, SHORT, "tree", |side, out| (side.public_key)(&key.id, &key.tree[..short], out));
        count += 2;
    }
    for short in 0..KEY {
        refused(short, SHORT, "key's place", |side, out| (side.public_key)(&key.id, &key.tree, out));
        count += 1;
    }
    let randomizer = array(8);
    let mut refused_sign = |tree: usize, place: usize, number: u32, code: u32| {
        let signer = key.signer(number, &randomizer);
        let what = format!("signing with number {number}, a tree of {tree} and a place of {place} bytes");
        refused(place, code, &what, |side, out| (side.sign)(&signer, b"text", &key.tree[..tree], out));
        count += 1;
    };
    for number in [0, 1023, 1024, u32::MAX] {
        for short in short_trees {
            refused_sign(short, SIGNATURE + PAST, number, SHORT);
        }
        for short in (0..SIGNATURE).step_by(109).chain([SIGNATURE - 1]) {
            refused_sign(TREE, short, number, SHORT);
            refused_sign(TREE - 1, short, number, SHORT);
        }
    }
    for number in [1024, 1025, 2047, 2048, 65_536, 1 << 31, u32::MAX - 1, u32::MAX] {
        refused_sign(TREE, SIGNATURE, number, NUMBER_TOO_LARGE);
        refused_sign(TREE, SIGNATURE + PAST, number, NUMBER_TOO_LARGE);
    }
    count
}

/// The compressions of plain Rust for key generation, signing and checking: they are the floor that the scheme leaves.
fn count(key: &Key, signer: &Signer, text: &[u8], signature: &mut [u8]) -> [u64; 3] {
    let mut tree = vec![0; TREE];
    let counts = [
        plain_lms::compressions(|| assert_eq!((PLAIN.generate)(&key.seed, &key.id, &mut tree), 0)),
        plain_lms::compressions(|| assert_eq!((PLAIN.sign)(signer, text, &tree, signature), 0)),
        plain_lms::compressions(|| assert_eq!((PLAIN.check)(&key.public, text, signature), signer.number)),
    ];
    let digits = plain_lms::digits(signer.id, signer.number, signer.randomizer, text);
    let d: u64 = digits.map(u64::from).iter().sum();
    assert_eq!(counts, [1_135_614, 69 + d, 1_062 - d], "compressions at the floor");
    println!(
        "compressions counted in plain Rust, text of {} bytes, d = {d} the sum of its digits: key generation {}, signing {} \
         = 69 + d, checking {} = 1062 - d",
        text.len(),
        counts[0],
        counts[1],
        counts[2]
    );
    counts
}

fn time(key: &Key) {
    let text = bytes(54, 9);
    let randomizer = array(10);
    let signer = key.signer(700, &randomizer);
    let mut signature = vec![0; SIGNATURE];
    let counts = count(key, &signer, &text, &mut signature);
    let mut tree = vec![0; TREE];
    let mut place = vec![0; SIGNATURE];
    let mut generate = |side: &Side| {
        (side.generate)(black_box(&key.seed), black_box(&key.id), black_box(&mut tree));
    };
    let mut sign = |side: &Side| {
        (side.sign)(black_box(&signer), black_box(&text), black_box(&key.tree), black_box(&mut place));
    };
    let check = |side: &Side| {
        black_box((side.check)(black_box(&key.public), black_box(&text), black_box(&signature)));
    };
    let mut generating = Race::new(Clock::Processor, || generate(&PLAIN));
    let mut signing = Race::new(Clock::Processor, || sign(&PLAIN));
    let mut checking = Race::new(Clock::Processor, || check(&PLAIN));
    for _ in 0..CYCLES {
        in_turns(&mut generating, 1, &mut generate);
        in_turns(&mut signing, SHORT_ROUNDS, &mut sign);
        in_turns(&mut checking, SHORT_ROUNDS, check);
    }
    println!(
        "compressions a second of processor time on the best round of each side, and the library's over plain Rust's:"
    );
    generating.print("key generation", counts[0]);
    signing.print("signing", counts[1]);
    checking.print("checking", counts[2]);
}

/// Rounds of the library against plain Rust. One closure serves both: it is called again before the other side is.
fn in_turns(race: &mut Race, rounds: usize, call: impl FnMut(&Side)) {
    let call = std::cell::RefCell::new(call);
    for _ in 0..rounds {
        race.round(|| (call.borrow_mut())(&LIBRARY), || (call.borrow_mut())(&PLAIN));
    }
}

fn print_stack(key: &Key) {
    let text = bytes(54, 11);
    let randomizer = array(12);
    let signer = key.signer(300, &randomizer);
    let mut tree = vec![0; TREE];
    let mut public = [0; KEY];
    let mut signature = vec![0; SIGNATURE];
    println!("stack of a call, in bytes, its return address included:");
    let used = stack::of_call(LIBRARY, NOTHING, |side| {
        (side.generate)(black_box(&key.seed), black_box(&key.id), black_box(&mut tree));
    });
    println!("  {:>14}  {used}", "key generation");
    let used = stack::of_call(LIBRARY, NOTHING, |side| {
        (side.public_key)(black_box(&key.id), black_box(&key.tree), black_box(&mut public));
    });
    println!("  {:>14}  {used}", "public key");
    let used = stack::of_call(LIBRARY, NOTHING, |side| {
        (side.sign)(black_box(&signer), black_box(&text), black_box(&key.tree), black_box(&mut signature));
    });
    println!("  {:>14}  {used}", "signing");
    let signature = key.signed(300, &randomizer, &text);
    let used = stack::of_call(LIBRARY, NOTHING, |side| {
        black_box((side.check)(black_box(&key.public), black_box(&text), black_box(&signature)));
    });
    println!("  {:>14}  {used}", "checking");
}
