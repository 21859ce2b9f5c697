//! The server's time for each stored record, on the stores of an honest log: PutOperations, PutNodes and Commits as its writes
//! leave them on one server.
use crate::lms::Key;
use crate::plain_lms::SIGNATURE;
use crate::plain_server::{owner, COMMIT, HASH, LONGEST_ENTRY, PUT_NODE, PUT_OPERATION, RECORD_HEADER};
use crate::sample::Random;
use crate::server::message::{owned_levels, Message};
use crate::server::speed::{self, Place};
use crate::user;

const GROUPS: [u32; 3] = [2, 4, 16];

/// As many records, or all that the longest log leaves on a server where these are fewer.
const COUNTS: [usize; 3] = [20_000, 100_000, 1_000_000];
const SHORTEST_ENTRY: usize = 20;

/// As many positions are written by a user's Writes, to see that a store made here has the records that they leave.
const WRITTEN: u32 = 70;

pub fn run(seed: u64) {
    let key = Key::new(101);
    for servers in GROUPS {
        for (own, store) in (1..).zip(user::written_stores(&key, servers, WRITTEN, seed)) {
            let records = headers(&store);
            assert_eq!(headers(&made(servers, own, records.len(), seed)), records, "server {own} of {servers}");
        }
    }
    println!("the first records made here are those that Writes of {WRITTEN} entries leave on each server");
    println!("{}", speed::SCANS);
    for servers in GROUPS {
        for count in COUNTS {
            let lengths =
                (1..=servers).map(|own| (records(servers, own).take(count).map(expected).sum::<usize>(), own));
            let (least, most) = (lengths.clone().min().expect("a server"), lengths.max().expect("a server"));
            for own in [least.1, most.1] {
                print(&key, servers, own, &made(servers, own, count, seed));
            }
        }
    }
}

fn print(key: &Key, servers: u32, own: u32, store: &[u8]) {
    let level = (1..=20).find(|l| owner(speed::P, *l, servers) == own).expect("21 levels on 16 servers at most");
    println!("  server {own} of {servers}: {}", mix(store));
    let place = Place { servers, level };
    speed::print_scans(key, place, store, headers(store).len(), &format!("server {own} of {servers}"));
}

/// The records that a server of an honest log stores before the last position, in order: position, kind and level.
fn records(servers: u32, own: u32) -> impl Iterator<Item = (u32, u8, u8)> {
    let nodes = (1..speed::P).flat_map(|p| [PUT_OPERATION, PUT_NODE, COMMIT].map(|kind| (p, kind)));
    nodes.flat_map(move |(p, kind)| owned_levels(kind, p, servers, own).into_iter().map(move |l| (p, kind, l)))
}

/// A record's length, with the mean of the entries' lengths.
fn expected((_, kind, _): (u32, u8, u8)) -> usize {
    RECORD_HEADER
        + match kind {
            PUT_OPERATION => (SHORTEST_ENTRY + LONGEST_ENTRY) / 2,
            PUT_NODE => HASH,
            _ => HASH + SIGNATURE,
        }
}

/// The first records of a server. Entries have 20 to 1,024 bytes; all bodies are random bytes, since a scan does not look
/// into them.
fn made(servers: u32, own: u32, count: usize, seed: u64) -> Vec<u8> {
    let mut random = Random::new(seed);
    let mut store = Vec::new();
    for (p, kind, l) in records(servers, own).take(count) {
        let length = match kind {
            PUT_OPERATION => SHORTEST_ENTRY + random.below(LONGEST_ENTRY - SHORTEST_ENTRY + 1),
            PUT_NODE => HASH,
            _ => HASH + SIGNATURE,
        };
        store.extend(Message { kind, author: 1, p, l, body: random.bytes(length) }.record());
    }
    store
}

/// Kind, position and level of each record.
fn headers(mut store: &[u8]) -> Vec<(u8, u32, u8)> {
    let mut all = Vec::new();
    while !store.is_empty() {
        let p = u32::from_be_bytes(store[3..7].try_into().expect("4 bytes"));
        all.push((store[2], p, store[7]));
        store = &store[RECORD_HEADER + usize::from(u16::from_be_bytes([store[10], store[11]]))..];
    }
    all
}

/// How many records of each kind a store has, and its length.
fn mix(store: &[u8]) -> String {
    let headers = headers(store);
    let of = |kind| headers.iter().filter(|header| header.0 == kind).count();
    format!(
        "{} PutOperations, {} PutNodes, {} Commits, {} bytes, last position {}",
        of(PUT_OPERATION),
        of(PUT_NODE),
        of(COMMIT),
        store.len(),
        headers.last().map_or(0, |header| header.1)
    )
}
