//! Requests and stored records, written field by field.
use crate::lms::Key;
use crate::plain_lms::SIGNATURE;
use crate::plain_server::{lg, owner, COMMIT, LAST_POSITION, NODE, OPERATION, PUT_NODE, PUT_OPERATION, RECORD, STATUS};
use crate::plain_server::{GIVE_UP, HASH, LONGEST_ENTRY, RECORD_MARK, REQUEST_MARK, RESERVE, SIGNED_MARK};
use crate::sample::Random;

#[derive(Clone)]
pub struct Message {
    pub kind: u8,
    pub author: u16,
    pub p: u32,
    pub l: u8,
    pub body: Vec<u8>,
}

impl Message {
    pub fn request(&self, log: &[u8; 16]) -> Vec<u8> {
        let (author, p) = (self.author.to_be_bytes(), self.p.to_be_bytes());
        [&REQUEST_MARK[..], &[self.kind], log, &author, &p, &[self.l], &self.body].concat()
    }

    pub fn record(&self) -> Vec<u8> {
        let (author, p) = (self.author.to_be_bytes(), self.p.to_be_bytes());
        let length = (self.body.len() as u16).to_be_bytes();
        [&RECORD_MARK[..], &[self.kind], &p, &[self.l], &author, &length, &self.body].concat()
    }
}

/// A body of the length that the kind asks for, of random bytes.
pub fn body(kind: u8, random: &mut Random) -> Vec<u8> {
    let length = match kind {
        RESERVE | GIVE_UP | PUT_NODE => HASH,
        PUT_OPERATION if random.chance(5) => LONGEST_ENTRY - random.below(2),
        PUT_OPERATION => 1 + random.below(60),
        COMMIT => HASH + SIGNATURE,
        _ => 0,
    };
    random.bytes(length)
}

/// The levels that a kind may have at position p.
pub fn levels(kind: u8, p: u32) -> Vec<u8> {
    let root = lg(p) as u8;
    let full = |l: &u8| p.is_multiple_of(1 << l);
    match kind {
        STATUS | OPERATION | PUT_OPERATION => vec![0],
        NODE => (0..=root).filter(full).collect(),
        PUT_NODE => (1..=root).filter(full).collect(),
        RECORD | COMMIT => vec![root],
        _ => (0..=root).collect(),
    }
}

/// Those of them that the server owns.
pub fn owned_levels(kind: u8, p: u32, servers: u32, own: u32) -> Vec<u8> {
    levels(kind, p).into_iter().filter(|l| owner(p, *l, servers) == own).collect()
}

/// Small positions, powers of two and their neighbours, the last ones, and any.
pub fn position(random: &mut Random) -> u32 {
    let power = 1u32 << random.below(21);
    let p = match random.below(8) {
        0..=2 => 1 + random.below(40) as u32,
        3 => power,
        4 => power + 1,
        5 => power - 1,
        6 => LAST_POSITION - random.below(40) as u32,
        _ => 1 + random.below(LAST_POSITION as usize) as u32,
    };
    p.clamp(1, LAST_POSITION)
}

/// Digest and true signature, for the body of a Commit. Nothing keeps a number from being used twice here.
pub fn signed_body(key: &Key, log: &[u8; 16], p: u32, digest: &[u8], random: &mut Random) -> Vec<u8> {
    let text = [&SIGNED_MARK[..], log, &p.to_be_bytes(), digest].concat();
    let signature = key.signed(random.below(1024) as u32, &random.array(), &text);
    [digest, &signature].concat()
}
