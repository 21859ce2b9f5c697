//! The user's calls: the library's against plain Rust's.
mod case;
mod damage;
mod exchange;
mod give_ups;
mod honest;
mod plain;
mod plain_answer;
mod plain_tree;
mod speed;
mod sweeps;
mod world;

use crate::lms::Key;
use crate::plain_lms::SIGNATURE;
use crate::plain_server::{HASH, REQUEST_HEADER};
use crate::sample::Random;
use case::Tally;
use exchange::Exchange;
use honest::{Log, MadeUpLog};
use kozbrax::{Asked, Lent, Settings, SettledAnswer, Signing, KEPT};
use sweeps::Sweeps;
use world::Table;

const EXCHANGES: u64 = 1000;
const CALLS: usize = 30;

/// How often each code has to come up for each kind of step that may have it, for the comparison to count.
const OFTEN: usize = 50;

pub const LEAST_REQUEST: usize = REQUEST_HEADER + HASH + SIGNATURE;

/// The six calls of one side. A Write's start takes the entry and the randomizer, a Read's the position, a step the answer.
pub struct Side {
    pub update_start: fn(&Settings, &mut Lent) -> Asked,
    pub write_start: fn(&Settings, &Signing, &[u8], &[u8; 32], &mut Lent) -> Asked,
    pub read_start: fn(&Settings, u32, &mut Lent) -> Asked,
    pub give_up_start: fn(&Settings, &mut Lent) -> Asked,
    pub take: fn(&Settings, &Signing, &[u8], &mut Lent) -> Asked,
    pub settled: fn(&Settings, &[u8; KEPT], u32) -> SettledAnswer,
}

pub const PLAIN: Side = Side {
    update_start: plain::update_start,
    write_start: plain::write_start,
    read_start: plain::read_start,
    give_up_start: plain::give_up_start,
    take: plain::take,
    settled: plain::settled,
};

pub const LIBRARY: Side = Side {
    update_start: kozbrax::update_start,
    write_start: kozbrax::write_start,
    read_start: kozbrax::read_start,
    give_up_start: kozbrax::give_up_start,
    take: kozbrax::take,
    settled: kozbrax::settled,
};

/// The used parts of the servers' stores of a log that one user has written without a fault.
pub fn written_stores(key: &Key, servers: u32, last: u32, seed: u64) -> Vec<Vec<u8>> {
    let mut tally = Tally::default();
    let mut log = Log::new(&mut tally, std::slice::from_ref(key), servers, seed);
    for _ in 0..last {
        log.write(0);
    }
    log.stores()
}

pub fn run(seed: u64) {
    let keys: Vec<Key> = (1..=3).map(|n| Key::new(100 + n)).collect();
    let mut tally = Tally::default();
    let table = Table::new();
    println!("steps with one thing taken through its values, the same from the library and from plain Rust:");
    Sweeps { tally: &mut tally, random: Random::new(seed), keys: &keys, table: &table }.run();
    honest::run(&mut tally, &keys, seed);
    MadeUpLog { tally: &mut tally, random: Random::new(seed), keys: &keys, table: &table }.run();
    println!("calls without a fault, on the library's servers and on a made-up log: each ended with 0 after the stated answers");
    for exchange in 0..EXCHANGES {
        let mut exchange = Exchange::new(seed.wrapping_mul(EXCHANGES).wrapping_add(exchange), &keys, &table);
        for _ in 0..CALLS {
            exchange.call(&mut tally);
        }
    }
    println!("{EXCHANGES} random exchanges of {CALLS} calls, seed {seed}: the same in result and every lent byte");
    println!("{} steps in all, by kind and code:", tally.total());
    tally.print();
    tally.demand(OFTEN);
    speed::print(&keys, &table);
}
