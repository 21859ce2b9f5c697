//! The arguments that are tried: small ranges whole, the edges, what is out of range, random ones, and every length of a
//! buffer about the one that is needed.
use super::plain::{cover_nodes, lg, HASH, LAST_POSITION, NODE};
use super::tally::Tally;
use crate::sample::Random;

const SMALL_POSITIONS: u32 = 5000;
const SMALL_COVER: u32 = 300;
const SMALL_DIGEST: usize = 1100;
const RANDOM_CALLS: usize = 200_000;

/// A width that a number is cut to if it is cut: 2^8, 2^16, 2^31, and the last number.
const FAR: [u32; 8] = [255, 256, 258, 260, 65_536, 65_540, 1 << 31, u32::MAX];

/// Each power of two up to 2^20 and its neighbours.
fn about_powers() -> impl Iterator<Item = u32> + Clone {
    (0..=20).flat_map(|k| [(1 << k) - 1, 1 << k, (1 << k) + 1])
}

/// Positions that no log has.
fn beyond() -> impl Iterator<Item = u32> + Clone {
    [0, LAST_POSITION + 1, LAST_POSITION + 2, 2 * LAST_POSITION, 1 << 24].into_iter().chain(FAR)
}

fn position(random: &mut Random) -> u32 {
    1 + random.below(LAST_POSITION as usize) as u32
}

pub fn first_labels(tally: &mut Tally) {
    for p in (0..LAST_POSITION + 2000).chain(beyond()) {
        tally.number(|side| (side.first_label)(p), || format!("{p}"));
    }
    for _ in 0..RANDOM_CALLS {
        let p = tally.random.next() as u32;
        tally.number(|side| (side.first_label)(p), || format!("{p}"));
    }
}

fn owner(tally: &mut Tally, servers: u32, p: u32, l: u32) {
    tally.number(|side| (side.owner)(servers, p, l), || format!("{servers} servers, position {p}, level {l}"));
}

pub fn owners(tally: &mut Tally) {
    for p in 0..=SMALL_POSITIONS {
        for servers in 0..=18 {
            for l in 0..=lg(p) + 2 {
                owner(tally, servers, p, l);
            }
        }
    }
    for p in about_powers().chain(beyond()) {
        for servers in (0..=18).chain(FAR) {
            for l in (0..=24).chain(FAR) {
                owner(tally, servers, p, l);
            }
        }
    }
    for _ in 0..RANDOM_CALLS {
        let p = position(&mut tally.random);
        let servers = 2 + tally.random.below(15) as u32;
        let l = tally.random.below(22) as u32;
        owner(tally, servers, p, l);
    }
}

fn wait(tally: &mut Tally, servers: u32, p: u32) {
    tally.number(|side| (side.wait)(servers, p), || format!("position {p}, {servers} servers"));
}

pub fn waits(tally: &mut Tally) {
    for p in (0..=SMALL_POSITIONS).chain(about_powers()).chain(beyond()) {
        for servers in (0..=18).chain(FAR) {
            wait(tally, servers, p);
        }
    }
    for _ in 0..RANDOM_CALLS {
        let p = position(&mut tally.random);
        let servers = 2 + tally.random.below(15) as u32;
        wait(tally, servers, p);
    }
}

fn cover(tally: &mut Tally, v: u32, w: u32, length: usize) {
    tally.bytes(length, |side, out| (side.cover)(v, w, out), || format!("{v} to {w}, {length} bytes"));
}

/// The cover with the bytes that it needs, one and seven more, one less, and none.
fn cover_about(tally: &mut Tally, v: u32, w: u32) {
    let needed = NODE * cover_nodes(v, w).len();
    for length in [needed, needed + 1, needed + 7, needed.saturating_sub(1), 0] {
        cover(tally, v, w, length);
    }
}

pub fn covers(tally: &mut Tally) {
    for w in 1..=SMALL_COVER {
        (0..=w).for_each(|v| cover_about(tally, v, w));
        (w + 1..w + 20).for_each(|v| cover(tally, v, w, 400));
    }
    for w in about_powers().filter(|w| (1..=LAST_POSITION).contains(w)) {
        about_powers().filter(|v| *v <= w).for_each(|v| cover_about(tally, v, w));
    }
    for v in about_powers().chain(beyond()) {
        for w in beyond() {
            cover(tally, v, w, 400);
            cover(tally, w, v, 400);
        }
    }
    for (v, w) in [(0, 1), (2, 5), (5, 8), (300, 300), (524_287, 1_048_575), (349_525, 699_050)] {
        (0..=220).for_each(|length| cover(tally, v, w, length));
    }
    for _ in 0..RANDOM_CALLS / 5 {
        let w = position(&mut tally.random);
        let v = tally.random.below(w as usize + 1) as u32;
        cover_about(tally, v, w);
    }
}

fn leaf(tally: &mut Tally, author: u16, entry: usize, length: usize) {
    let text = tally.random.bytes(entry);
    let what = || format!("author {author}, {entry} bytes, into {length}");
    tally.bytes(length, |side, out| (side.leaf)(author, &text, out), what);
}

pub fn leaves(tally: &mut Tally) {
    for entry in (0..=1100).chain([2000, 4096, 65_536, 1 << 20]) {
        for author in [0, 1, 2, 64, 255, 256, 258, u16::MAX] {
            leaf(tally, author, entry, HASH);
        }
        leaf(tally, 7, entry, HASH - 1);
    }
    for author in 0..=u16::MAX {
        leaf(tally, author, 20, HASH + 3);
    }
    (0..=80).for_each(|length| leaf(tally, 3, 33, length));
}

fn digest(tally: &mut Tally, leaves: usize, length: usize) {
    let bytes = tally.random.bytes(leaves);
    let what = || format!("{leaves} bytes of leaves, into {length}");
    tally.bytes(length, |side, out| (side.digest)(&bytes, out), what);
}

pub fn digests(tally: &mut Tally) {
    (1..=SMALL_DIGEST).for_each(|count| digest(tally, HASH * count, HASH + 5));
    (0..=40 * HASH).for_each(|bytes| digest(tally, bytes, HASH));
    for count in
        about_powers().filter(|p| (2048..=1 << 17).contains(p)).chain([100_000, LAST_POSITION - 1, LAST_POSITION])
    {
        digest(tally, HASH * count as usize, HASH);
    }
    let last = HASH * LAST_POSITION as usize;
    for bytes in [last - 1, last + 1, last + HASH, 2 * last] {
        digest(tally, bytes, HASH);
    }
    for length in 0..=80 {
        for bytes in [0, 1, HASH, HASH + 1, 5 * HASH] {
            digest(tally, bytes, length);
        }
    }
}

fn board(tally: &mut Tally, targets: &[u32], length: usize) {
    let what = || match targets.len() {
        0..=20 => format!("{targets:?} into {length}"),
        long => format!("{long} targets into {length}"),
    };
    tally.numbers(length, |side, out| (side.board)(targets, out), what);
}

/// Every board of `count` entries with targets below 8.
fn small_boards(tally: &mut Tally, count: u32) {
    for number in 0..8_u32.pow(count) {
        let targets: Vec<u32> = (0..count).map(|i| number / 8_u32.pow(i) % 8).collect();
        board(tally, &targets, count as usize);
    }
}

/// Insertions, strikes of earlier entries, many of them of the last four, so that strikes are struck, of later ones, of themselves,
/// and of none.
pub fn targets(random: &mut Random, count: usize) -> Vec<u32> {
    let target = |i: usize| match random.below(10) {
        0..3 => 0,
        3..6 => random.below(i + 1) as u32,
        6..8 => i.saturating_sub(random.below(4)) as u32,
        8 => random.below(count + 3) as u32,
        _ => random.pick(&[i as u32 + 1, count as u32, count as u32 + 1, 1 << 31, u32::MAX]),
    };
    (0..count).map(target).collect()
}

/// An insertion, and entries each of which strikes the one before it.
pub fn undoing(count: usize) -> Vec<u32> {
    (0..count as u32).collect()
}

pub fn boards(tally: &mut Tally) {
    (0..=6).for_each(|count| small_boards(tally, count));
    for (count, length) in (0..40).flat_map(|count| (0..40).map(move |length| (count, length))) {
        let targets = targets(&mut tally.random, count);
        board(tally, &targets, length);
    }
    for count in (0..3000).chain([10_000, 100_000]) {
        let targets = targets(&mut tally.random, count);
        board(tally, &targets, count);
        board(tally, &undoing(count), count);
    }
}
