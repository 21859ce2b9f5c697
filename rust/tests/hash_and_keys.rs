//! SHA-256, LMS signatures, and the functions of the log's tree and board.
mod common;

use common::Key;
use kozbrax::{Signer, HASH, NODE, SIGNATURE};

const OF_ABC: &str = "ba7816bf8f01cfea414140de5dae2223b00361a396177a9cb410ff61f20015ad";

fn figures(bytes: &[u8]) -> String {
    bytes.iter().map(|byte| format!("{byte:02x}")).collect()
}

#[test]
fn sha256_of_abc() {
    let mut out = [0x5a; HASH + 3];
    assert_eq!(kozbrax::sha256(b"abc", &mut out), 0, "code");
    assert_eq!(figures(&out[..HASH]), OF_ABC, "FIPS 180-4's example");
    assert_eq!(out[HASH..], [0x5a; 3], "bytes past the hash stay");
}

#[test]
fn a_signature_is_valid_and_a_damaged_one_is_not() {
    let key = Key::new(1);
    assert_eq!(key.public[..8], [0, 0, 0, 6, 0, 0, 0, 3], "types of the public key");
    assert_eq!(key.public[24..], key.tree[..HASH], "the public key ends with the tree's first node");
    let mut signature = [0; SIGNATURE];
    let signer = Signer { seed: &key.seed, id: &key.id, number: 5, randomizer: &[9; 32] };
    assert_eq!(kozbrax::lms_sign(&signer, b"a text", &key.tree, &mut signature), 0, "code of signing");
    assert_eq!(signature[..4], [0, 0, 0, 5], "the number stands first");
    assert_eq!(kozbrax::lms_check(&key.public, b"a text", &signature), Some(5), "valid, with its number");
    assert_eq!(kozbrax::lms_check(&key.public, b"a texT", &signature), None, "of another text");
    signature[100] ^= 1;
    assert_eq!(kozbrax::lms_check(&key.public, b"a text", &signature), None, "with a bit changed");
}

#[test]
fn a_key_has_1024_numbers() {
    let key = Key::new(2);
    let sign = |number| {
        let mut signature = [0x5a; SIGNATURE];
        let signer = Signer { seed: &key.seed, id: &key.id, number, randomizer: &[9; 32] };
        (kozbrax::lms_sign(&signer, b"", &key.tree, &mut signature), signature)
    };
    let (code, signature) = sign(1023);
    assert_eq!((code, kozbrax::lms_check(&key.public, b"", &signature)), (0, Some(1023)), "the last number");
    assert_eq!(sign(1024), (17, [0x5a; SIGNATURE]), "the number after it, and the buffer as it was");
}

#[test]
fn labels_owners_and_waits() {
    assert_eq!([1, 2, 3, 4].map(kozbrax::first_label), [1, 2, 4, 7].map(Some), "paths of 1, 2, 3 and 3 nodes");
    assert_eq!([0, 1_048_577].map(kozbrax::first_label), [None; 2], "no positions");
    assert_eq!([(1, 0), (2, 0), (2, 1)].map(|(p, l)| kozbrax::owner(2, p, l)), [1, 2, 1].map(Some), "labels 1, 2, 3");
    assert_eq!(kozbrax::owner(2, 1, 1), None, "position 1 has level 0 alone");
    assert_eq!(kozbrax::owner(17, 1, 0), None, "more than 16 servers");
    assert_eq!(kozbrax::wait(4, 1), Some(2), "Q(1, 4)");
    assert_eq!(kozbrax::wait(1, 1), None, "fewer than 2 servers");
}

#[test]
fn cover_leaf_and_digest() {
    let mut nodes = [0x5a; 2 * NODE];
    assert_eq!(kozbrax::cover(0, 3, &mut nodes), Some(2), "entries 1 and 2, and entry 3");
    assert_eq!(nodes, [0, 0, 0, 2, 1, 0, 0, 0, 3, 0], "nodes (2, 1) and (3, 0)");
    assert_eq!(kozbrax::cover(3, 2, &mut nodes), None, "v above w");
    let (mut leaf, mut digest) = ([0; HASH], [0; HASH]);
    assert_eq!(kozbrax::leaf(1, b"entry", &mut leaf), 0, "code of the leaf");
    assert_eq!(kozbrax::digest(&leaf, &mut digest), 0, "code of the digest");
    assert_eq!(digest, leaf, "the digest of one leaf is the leaf");
    assert_eq!(kozbrax::digest(&leaf[1..], &mut digest), 24, "31 bytes are no leaves");
}

#[test]
fn the_board_marks_what_stands() {
    let mut standing = [9; 4];
    assert_eq!(kozbrax::board(&[0, 0, 1, 3], &mut standing), 0, "code");
    assert_eq!(standing, [1, 1, 0, 0], "entry 4 strikes the strike of entry 1");
    assert_eq!(kozbrax::board(&[0, 0, 1], &mut standing[..3]), 0, "code without entry 4");
    assert_eq!(standing[..3], [0, 1, 0], "entry 1 is struck");
}
