//! What callers lend to the functions that take many arguments.
use crate::{CALL, HASHES, HELD, KEPT, PATH, SIGNATURE};

/// What a server or a user is set up with; `own` is its number, from 1.
#[derive(Clone, Copy)]
pub struct Settings<'a> {
    /// How many servers hold the log.
    pub servers: u32,
    pub own: u32,
    /// The log's name.
    pub log: &'a [u8; 16],
    /// The users' public keys, 56 bytes each.
    pub users: &'a [u8],
}

/// What makes a signature beside the key's tree. Each number is to be used once.
#[derive(Clone, Copy)]
pub struct Signer<'a> {
    pub seed: &'a [u8; 32],
    pub id: &'a [u8; 16],
    pub number: u32,
    pub randomizer: &'a [u8; 32],
}

/// A user's key, which its signatures are made with.
#[derive(Clone, Copy)]
pub struct Signing<'a> {
    pub id: &'a [u8; 16],
    pub seed: &'a [u8; 32],
    pub tree: &'a [u8],
}

/// The buffers that a user lends to its calls, and keeps from call to call.
pub struct Lent<'a> {
    /// Version, digest, next signature number, two marks, and how far an open write and its give-up have got; all zero for a new user.
    pub kept: &'a mut [u8; KEPT],
    /// Of an open write.
    pub path: &'a mut [u8; PATH],
    /// Of an open write.
    pub signature: &'a mut [u8; SIGNATURE],
    /// The call that goes on.
    pub call: &'a mut [u8; CALL],
    /// The call's hashes.
    pub hashes: &'a mut [u8; HASHES],
    /// The call's entry.
    pub held: &'a mut [u8; HELD],
    /// Where the next request goes, 2,566 bytes or more.
    pub request: &'a mut [u8],
    /// Where an entry that is read goes, 1,024 bytes or more.
    pub entry: &'a mut [u8],
}
