//! The server's call: the library's against plain Rust's.
mod case;
mod damage;
mod exchange;
mod give_ups;
mod honest;
pub mod message;
pub mod speed;
pub mod sweeps;

use crate::lms::Key;
use crate::plain_server;
use crate::plain_server::HEAD;
use crate::sample::Random;
use case::Tally;
use exchange::Exchange;
use honest::Log;
use kozbrax::{Served, Settings};
use sweeps::Sweeps;

const EXCHANGES: u64 = 4000;
const STEPS: usize = 120;

/// How often each code has to come up, in all and for each kind that may have it, for the comparison to count.
const OFTEN: usize = 2000;
const OFTEN_FOR_A_KIND: usize = 300;

/// Settings, head, store, its used length, request, answer's buffer.
pub type Serve = fn(&Settings, &mut [u8; HEAD], &mut [u8], u64, &[u8], &mut [u8]) -> Served;

pub const LIBRARY: Serve = kozbrax::server;
pub const PLAIN: Serve = plain_server::serve;

pub fn run(seed: u64) {
    let keys: Vec<Key> = (1..=3).map(|n| Key::new(100 + n)).collect();
    let mut tally = Tally::default();
    println!("calls with one thing taken through its values, the same from the library and from plain Rust:");
    Sweeps { tally: &mut tally, random: Random::new(seed), keys: &keys }.run();
    for servers in 2..=16 {
        Log::new(&mut tally, Random::new(seed), &keys, servers).run();
    }
    println!("logs of 2 to 16 servers written without a fault: each request accepted, and everything stored found;");
    println!("  before each write another one is reserved in part and given up, after which every head is as before");
    for exchange in 0..EXCHANGES {
        let mut exchange = Exchange::new(seed.wrapping_mul(EXCHANGES).wrapping_add(exchange), &keys);
        for _ in 0..STEPS {
            exchange.step(&mut tally);
        }
    }
    println!("{EXCHANGES} random exchanges of {STEPS} calls, seed {seed}: the same in code, answer, head and store");
    println!("{} calls in all, by kind and code:", tally.total());
    tally.print();
    tally.demand(OFTEN, OFTEN_FOR_A_KIND);
    speed::print(&keys[0]);
}
