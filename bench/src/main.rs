//! Compares the proved library with plain Rust: first the results, then the speed. See README.md.
#[cfg(before)]
mod before;
mod hash;
mod lms;
#[cfg(before)]
mod map;
mod numbers;
mod opening;
mod plain;
mod plain_lms;
mod plain_server;
mod sample;
mod schedule;
mod server;
mod stack;
mod store;
mod tally;
mod timing;
mod tree;
mod user;

fn main() {
    let subject = std::env::args().nth(1).unwrap_or_default();
    let seed = std::env::args().nth(2).map_or(1, |seed| seed.parse().expect("the seed is a number"));
    match subject.as_str() {
        "hash" => hash::run(),
        "lms" => lms::run(),
        #[cfg(before)]
        "map" => map::run(),
        #[cfg(before)]
        "map-once" => map::once(seed as usize),
        "opening" => opening::run(seed),
        "schedule" => schedule::run(seed),
        "server" => server::run(seed),
        "store" => store::run(seed),
        "tree" => tree::run(seed),
        "user" => user::run(seed),
        _ => {
            eprintln!(
                "usage: cargo run --release -- SUBJECT, where SUBJECT is: hash, lms, opening [SEED], schedule [SEED], server [SEED], \
                 store [SEED], tree [SEED], user [SEED]; or map, if it was built with KOZBRAX_BEFORE=FOLDER (README.md)"
            );
            std::process::exit(2);
        }
    }
}
