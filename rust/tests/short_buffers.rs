//! Each lent buffer that is a byte too short is refused, and nothing is written.
mod common;

use common::{servers, Key, Server, User};
use kozbrax::code::BUFFER_TOO_SHORT;
use kozbrax::{Signer, ANSWER, ENTRY, HASH, NODE, PUBLIC_KEY, REQUEST, SIGNATURE, TREE};

/// The call gets a buffer that is one byte shorter than what it needs.
fn refused(needed: usize, what: &str, call: impl FnOnce(&mut [u8]) -> u32) {
    let mut short = vec![0x5a; needed - 1];
    assert_eq!(call(&mut short), BUFFER_TOO_SHORT, "code: {what}");
    assert!(short.iter().all(|byte| *byte == 0x5a), "the buffer stays: {what}");
}

#[test]
fn hashes_and_keys() {
    let key = Key::new(8);
    let short_tree = &key.tree[1..];
    let signer = Signer { seed: &key.seed, id: &key.id, number: 0, randomizer: &[9; 32] };
    refused(HASH, "hash", |out| kozbrax::sha256(b"abc", out));
    refused(HASH, "leaf", |out| kozbrax::leaf(1, b"entry", out));
    refused(HASH, "digest", |out| kozbrax::digest(&[0; HASH], out));
    refused(TREE, "tree", |tree| kozbrax::lms_generate(&key.seed, &key.id, tree));
    refused(PUBLIC_KEY, "public key", |out| kozbrax::lms_public_key(&key.id, &key.tree, out));
    refused(PUBLIC_KEY + 1, "tree of a public key", |out| kozbrax::lms_public_key(&key.id, short_tree, out));
    refused(SIGNATURE, "signature", |out| kozbrax::lms_sign(&signer, b"", &key.tree, out));
    refused(SIGNATURE + 1, "tree of a signature", |out| kozbrax::lms_sign(&signer, b"", short_tree, out));
    let mut nodes = [0x5a; 2 * NODE - 1];
    assert_eq!(kozbrax::cover(0, 3, &mut nodes), None, "nodes of a cover");
    assert_eq!(nodes, [0x5a; 2 * NODE - 1], "the nodes' buffer stays");
    let mut standing = [9; 2];
    assert_eq!(kozbrax::board(&[0; 3], &mut standing), BUFFER_TOO_SHORT, "a board of three in two places");
    assert_eq!(standing, [9; 2], "the board's buffer stays");
}

#[test]
fn a_servers_answer() {
    let key = Key::new(9);
    let (mut user, mut servers) = (User::new(), servers());
    let asked = user.update_start(&key);
    assert_eq!(asked.code, 0, "the Update starts");
    let before = servers[0].clone();
    let request = &user.request[..asked.length as usize];
    refused(ANSWER, "answer", |answer| servers[0].serve_into(&key.public, request, answer).code);
    assert!(servers[0] == before, "head, store and used length stay");
}

/// The user's step is refused, and every byte that it lends stays.
fn step_refused(user: &mut User, what: &str, step: impl FnOnce(&mut User) -> kozbrax::Asked) {
    let before = user.clone();
    assert_eq!(step(user).code, BUFFER_TOO_SHORT, "code: {what}");
    assert!(*user == before, "everything stays: {what}");
}

#[test]
fn a_users_starts() {
    let mut key = Key::new(10);
    let (mut user, mut servers) = (User::new(), servers());
    let asked = user.write_start(&key, b"\x01entry");
    user.finish(&key, &mut servers, asked);
    user.request.truncate(REQUEST - 1);
    step_refused(&mut user, "request of an Update", |user| user.update_start(&key));
    step_refused(&mut user, "request of a Write", |user| user.write_start(&key, b"\x01entry"));
    step_refused(&mut user, "request of a Read", |user| user.read_start(&key, 1));
    user.request.push(0);
    user.entry.truncate(ENTRY - 1);
    step_refused(&mut user, "entry of a Read", |user| user.read_start(&key, 1));
    user.entry.push(0);
    key.tree.truncate(TREE - 1);
    step_refused(&mut user, "tree of a Write", |user| user.write_start(&key, b"\x01entry"));
}

/// An answer to a give-up, in a short buffer for the next request.
fn give_up_refused(mut user: User, key: &Key, servers: &mut [Server]) {
    let asked = user.give_up_start(key);
    let answer = user.answer(key, servers, asked);
    user.request.truncate(REQUEST - 1);
    step_refused(&mut user, "request at a give-up's answer", |user| user.take(key, &answer));
}

#[test]
fn a_users_steps() {
    let mut key = Key::new(11);
    let (mut user, mut servers) = (User::new(), servers());
    let mut asked = user.write_start(&key, b"\x01entry");
    // With an empty log the Update within the Write is one Status of each server; then the Write is open.
    for _ in 0..common::SERVERS {
        let answer = user.answer(&key, &mut servers, asked);
        asked = user.take(&key, &answer);
    }
    assert_eq!((asked.code, user.kept[40]), (0, 1), "the Write is open");
    let answer = user.answer(&key, &mut servers, asked);
    let last = key.tree.pop().expect("a tree has bytes");
    step_refused(&mut user, "tree of an open Write", |user| user.take(&key, &answer));
    key.tree.push(last);
    user.request.truncate(REQUEST - 1);
    step_refused(&mut user, "request of an open Write", |user| user.take(&key, &answer));
    step_refused(&mut user, "request of a give-up", |user| user.give_up_start(&key));
    user.request.push(0);
    give_up_refused(user.clone(), &key, &mut servers.clone());
    asked = user.take(&key, &answer);
    user.finish(&key, &mut servers, asked);
    asked = user.read_start(&key, 1);
    let answer = user.answer(&key, &mut servers, asked);
    user.entry.truncate(ENTRY - 1);
    step_refused(&mut user, "entry of a Read", |user| user.take(&key, &answer));
}
