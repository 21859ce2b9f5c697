//! LMS (RFC 8554) in plain Rust over the SHA-256 of plain.rs, written from the RFC apart from the Rattle sources. One set:
//! LMS_SHA256_M32_H10 (type 6) with LMOTS_SHA256_N32_W4 (type 3), and the secret strings of appendix A. The functions take
//! and return what the library's do, so that the two can be compared. No unsafe code.
use crate::plain::{compress, INITIAL};
use kozbrax::Signer;
use std::cell::Cell;

/// Section 4.1, Table 1: 67 chains of 15 links, and the checksum moved left by 4 bits.
const OTS_TYPE: u32 = 3;
const P: usize = 67;
const LAST: u8 = 15;
const LS: u32 = 4;

/// Section 5.1, Table 2: a tree of height 10.
const LMS_TYPE: u32 = 6;
const H: usize = 10;
const LEAVES: u32 = 1 << H;

/// Section 7.1: what a hashed string is about.
const D_PBLC: u16 = 0x8080;
const D_MESG: u16 = 0x8181;
const D_LEAF: u16 = 0x8282;
const D_INTR: u16 = 0x8383;

pub const TREE: usize = 32 * (2 * LEAVES as usize - 1);
pub const KEY: usize = 4 + 4 + 16 + 32;
pub const SIGNATURE: usize = 4 + (4 + 32 + 32 * P) + 4 + 32 * H;

pub const NUMBER_TOO_LARGE: u32 = 17;
pub const SHORT: u32 = 21;
pub const NO: u32 = u32::MAX;

thread_local! {
    static COMPRESSIONS: Cell<u64> = const { Cell::new(0) };
}

/// The compressions that f makes on this side.
pub fn compressions(f: impl FnOnce()) -> u64 {
    let before = COMPRESSIONS.get();
    f();
    COMPRESSIONS.get() - before
}

fn counted_compress(state: &mut [u32; 8], block: &[u8; 64]) {
    COMPRESSIONS.set(COMPRESSIONS.get() + 1);
    compress(state, block);
}

fn put_words(out: &mut [u8], state: [u32; 8]) {
    for (bytes, word) in out.chunks_exact_mut(4).zip(state) {
        bytes.copy_from_slice(&word.to_be_bytes());
    }
}

/// SHA-256 of the parts one behind the other. Whole blocks within a part are taken from where they lie.
fn hash(parts: &[&[u8]]) -> [u8; 32] {
    let mut state = INITIAL;
    let mut block = [0u8; 64];
    let mut filled = 0;
    let mut length = 0u64;
    for part in parts {
        let mut rest = *part;
        length += rest.len() as u64;
        if filled > 0 {
            let (now, later) = rest.split_at(rest.len().min(64 - filled));
            block[filled..filled + now.len()].copy_from_slice(now);
            filled += now.len();
            rest = later;
            if filled == 64 {
                counted_compress(&mut state, &block);
                filled = 0;
            }
        }
        let mut blocks = rest.chunks_exact(64);
        for whole in &mut blocks {
            counted_compress(&mut state, whole.try_into().expect("a chunk has 64 bytes"));
        }
        let rest = blocks.remainder();
        block[filled..filled + rest.len()].copy_from_slice(rest);
        filled += rest.len();
    }
    finish(state, block, filled, length)
}

/// The last blocks: what is left of the message, the bit 1, zeros, and the message's length in bits.
fn finish(mut state: [u32; 8], mut block: [u8; 64], filled: usize, length: u64) -> [u8; 32] {
    block[filled] = 0x80;
    block[filled + 1..].fill(0);
    if filled >= 56 {
        counted_compress(&mut state, &block);
        block = [0; 64];
    }
    block[56..].copy_from_slice(&(8 * length).to_be_bytes());
    counted_compress(&mut state, &block);
    let mut out = [0; 32];
    put_words(&mut out, state);
    out
}

/// A value of chain i inside the one padded block of its strings, I || u32str(q) || u16str(i) || u8str(j) || value: from
/// link to link only j and the value change.
struct Chain {
    block: [u8; 64],
}

impl Chain {
    fn new(id: &[u8; 16], q: u32, i: usize, value: &[u8]) -> Chain {
        let mut block = [0; 64];
        block[..16].copy_from_slice(id);
        block[16..20].copy_from_slice(&q.to_be_bytes());
        block[20..22].copy_from_slice(&(i as u16).to_be_bytes());
        block[23..55].copy_from_slice(value);
        block[55] = 0x80;
        block[56..].copy_from_slice(&(8 * 55u64).to_be_bytes());
        Chain { block }
    }

    /// Appendix A: the secret string of chain i is the hash of I || u32str(q) || u16str(i) || u8str(0xff) || SEED.
    fn secret(id: &[u8; 16], q: u32, i: usize, seed: &[u8; 32]) -> Chain {
        let mut chain = Chain::new(id, q, i, seed);
        chain.link(0xff);
        chain
    }

    fn link(&mut self, j: u8) {
        self.block[22] = j;
        let mut state = INITIAL;
        counted_compress(&mut state, &self.block);
        put_words(&mut self.block[23..55], state);
    }

    fn links(&mut self, from: u8, to: u8) {
        for j in from..to {
            self.link(j);
        }
    }

    fn value(&self) -> &[u8] {
        &self.block[23..55]
    }
}

/// Section 4.3, Algorithm 1: the public key of number q, K = H(I || u32str(q) || u16str(D_PBLC) || y[0] || .. || y[66]).
fn one_time_key(id: &[u8; 16], q: u32, ends: &[u8; 32 * P]) -> [u8; 32] {
    hash(&[id, &q.to_be_bytes(), &D_PBLC.to_be_bytes(), ends])
}

/// Sections 4.4 to 4.6: the digits of Q || Cksm(Q), Q the hash of the text.
pub fn digits(id: &[u8; 16], q: u32, randomizer: &[u8], text: &[u8]) -> [u8; P] {
    let q_hash = hash(&[id, &q.to_be_bytes(), &D_MESG.to_be_bytes(), randomizer, text]);
    let missing: u16 = (0..64).map(|i| u16::from(LAST - coef(&q_hash, i))).sum();
    let checksum = (missing << LS).to_be_bytes();
    std::array::from_fn(|i| if i < 64 { coef(&q_hash, i) } else { coef(&checksum, i - 64) })
}

/// Section 3.1.3 with w = 4: the i-th half of a byte.
fn coef(s: &[u8], i: usize) -> u8 {
    (s[i / 2] >> (4 * (1 - i % 2))) & 15
}

fn leaf(id: &[u8; 16], r: u32, key: &[u8; 32]) -> [u8; 32] {
    hash(&[id, &r.to_be_bytes(), &D_LEAF.to_be_bytes(), key])
}

fn inner(id: &[u8; 16], r: u32, left: &[u8], right: &[u8]) -> [u8; 32] {
    hash(&[id, &r.to_be_bytes(), &D_INTR.to_be_bytes(), left, right])
}

/// Node r of a tree, from 1 for the root.
fn node(tree: &[u8], r: u32) -> &[u8] {
    &tree[32 * (r as usize - 1)..][..32]
}

fn put_node(tree: &mut [u8], r: u32, value: [u8; 32]) {
    tree[32 * (r as usize - 1)..][..32].copy_from_slice(&value);
}

/// Section 5.3: nodes 1 to 2,047 into the tree's first 65,504 bytes.
#[inline(never)]
pub fn generate(seed: &[u8; 32], id: &[u8; 16], tree: &mut [u8]) -> u32 {
    if tree.len() < TREE {
        return SHORT;
    }
    let mut ends = [0; 32 * P];
    for q in 0..LEAVES {
        for (i, end) in ends.chunks_exact_mut(32).enumerate() {
            let mut chain = Chain::secret(id, q, i, seed);
            chain.links(0, LAST);
            end.copy_from_slice(chain.value());
        }
        let r = LEAVES + q;
        put_node(tree, r, leaf(id, r, &one_time_key(id, q, &ends)));
    }
    for r in (1..LEAVES).rev() {
        let value = inner(id, r, node(tree, 2 * r), node(tree, 2 * r + 1));
        put_node(tree, r, value);
    }
    0
}

/// Section 5.3: u32str(type) || u32str(otstype) || I || T[1].
#[inline(never)]
pub fn public_key(id: &[u8; 16], tree: &[u8], key: &mut [u8]) -> u32 {
    if tree.len() < TREE || key.len() < KEY {
        return SHORT;
    }
    key[..4].copy_from_slice(&LMS_TYPE.to_be_bytes());
    key[4..8].copy_from_slice(&OTS_TYPE.to_be_bytes());
    key[8..24].copy_from_slice(id);
    key[24..KEY].copy_from_slice(node(tree, 1));
    0
}

/// Section 5.4.1: u32str(q) || u32str(otstype) || C || y[0] || .. || y[66] || u32str(type) || path[0] || .. || path[9].
#[inline(never)]
pub fn sign(signer: &Signer, text: &[u8], tree: &[u8], signature: &mut [u8]) -> u32 {
    let Signer { seed, id, number: q, randomizer } = *signer;
    if tree.len() < TREE || signature.len() < SIGNATURE {
        return SHORT;
    }
    if q >= LEAVES {
        return NUMBER_TOO_LARGE;
    }
    signature[..4].copy_from_slice(&q.to_be_bytes());
    signature[4..8].copy_from_slice(&OTS_TYPE.to_be_bytes());
    signature[8..40].copy_from_slice(randomizer);
    let (values, rest) = signature[40..].split_at_mut(32 * P);
    let digits = digits(id, q, randomizer, text);
    for (i, (value, digit)) in values.chunks_exact_mut(32).zip(digits).enumerate() {
        let mut chain = Chain::secret(id, q, i, seed);
        chain.links(0, digit);
        value.copy_from_slice(chain.value());
    }
    rest[..4].copy_from_slice(&LMS_TYPE.to_be_bytes());
    for (level, beside) in rest[4..4 + 32 * H].chunks_exact_mut(32).enumerate() {
        beside.copy_from_slice(node(tree, ((LEAVES + q) >> level) ^ 1));
    }
    0
}

/// The number used, or 4294967295 where section 5.4.2 says INVALID or the key is not of this set.
#[inline(never)]
pub fn check(key: &[u8], text: &[u8], signature: &[u8]) -> u32 {
    valid_number(key, text, signature).unwrap_or(NO)
}

/// Algorithms 6 and 6a, with Algorithm 4b inside.
fn valid_number(key: &[u8], text: &[u8], signature: &[u8]) -> Option<u32> {
    if key.len() != KEY || number_at(key, 0) != LMS_TYPE || number_at(key, 4) != OTS_TYPE {
        return None;
    }
    let id: &[u8; 16] = key[8..24].try_into().expect("16 bytes");
    if signature.len() != SIGNATURE || number_at(signature, 4) != OTS_TYPE {
        return None;
    }
    let q = number_at(signature, 0);
    let (values, rest) = signature[40..].split_at(32 * P);
    if number_at(rest, 0) != LMS_TYPE || q >= LEAVES {
        return None;
    }
    let mut ends = [0; 32 * P];
    let digits = digits(id, q, &signature[8..40], text);
    for (i, (end, digit)) in ends.chunks_exact_mut(32).zip(digits).enumerate() {
        let mut chain = Chain::new(id, q, i, &values[32 * i..][..32]);
        chain.links(digit, LAST);
        end.copy_from_slice(chain.value());
    }
    let mut r = LEAVES + q;
    let mut value = leaf(id, r, &one_time_key(id, q, &ends));
    for beside in rest[4..].chunks_exact(32) {
        value = if r % 2 == 1 { inner(id, r / 2, beside, &value) } else { inner(id, r / 2, &value, beside) };
        r /= 2;
    }
    (value == key[24..]).then_some(q)
}

fn number_at(s: &[u8], i: usize) -> u32 {
    u32::from_be_bytes(s[i..i + 4].try_into().expect("4 bytes"))
}
