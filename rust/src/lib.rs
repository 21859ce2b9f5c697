//! Kozbrax, a proved append-only log for kiln controllers: the functions of its static library behind safe wrappers.
//!
//! include/kozbrax.h says of each function what it takes, returns and leaves; here a few words remind of it. A lent buffer that is too
//! short is refused with 21 before a byte of it is written, bytes past what is written keep their contents, and no function allocates
//! or keeps what is lent.
#![no_std]

mod calls;
pub mod code;
mod functions;
mod lent;
pub mod raw;
mod results;

pub use calls::{give_up_start, read_start, server, settled, take, update_start, write_start};
pub use functions::{
    board, cover, digest, first_label, leaf, owner, schedule, schedule_opening, schedule_warm, sha256, wait,
};
pub use functions::{lms_check, lms_generate, lms_public_key, lms_sign, opening};
pub use lent::{Lent, Settings, Signer, Signing};
pub use results::{Asked, Firing, Served, SettledAnswer, Start, Totals};

/// What the C functions return in place of a number of the log that there is not; here it is `Option::None`.
pub const NONE: u32 = 4294967295;

/// Lengths in bytes: a hash, a digest, a leaf.
pub const HASH: usize = 32;
/// The tree of an LMS key.
pub const TREE: usize = 65_504;
/// A public key.
pub const PUBLIC_KEY: usize = 56;
/// A signature.
pub const SIGNATURE: usize = 2_508;
/// A node of a cover: its position in 4 bytes, its level in 1.
pub const NODE: usize = 5;
/// A server's head.
pub const HEAD: usize = 79;
/// What a user keeps.
pub const KEPT: usize = 46;
/// The path of a user's open write.
pub const PATH: usize = 672;
/// A user's call.
pub const CALL: usize = 82;
/// The hashes of a user's call.
pub const HASHES: usize = 1_248;
/// The entry of a user's call.
pub const HELD: usize = 1_026;
/// The least length of a request's buffer.
pub const REQUEST: usize = 2_566;
/// The least length of an answer's buffer.
pub const ANSWER: usize = 2_552;
/// The longest entry, and the least length of the buffer for one that is read.
pub const ENTRY: usize = 1_024;
