//! Hashes, signatures, the log's tree, the board and firing schedules.
use crate::{raw, Firing, Signer, Start, Totals, NONE};

/// 0 and the hash in the first 32 bytes of out, or 21 and out unchanged where it is shorter.
#[inline]
pub fn sha256(message: &[u8], out: &mut [u8]) -> u32 {
    // SAFETY: both slices are valid for their lengths, and `out` is borrowed alone. The function has no `requires`.
    unsafe { raw::kozbrax_sha256(message.as_ptr(), message.len(), out.as_mut_ptr(), out.len()) }
}

/// 0 and the key's tree in the first 65,504 bytes, or 21 and the buffer unchanged where it is shorter.
#[inline]
pub fn lms_generate(seed: &[u8; 32], id: &[u8; 16], tree: &mut [u8]) -> u32 {
    // SAFETY: as for `sha256`; the seed and the identifier have the lengths that the function reads.
    unsafe { raw::kozbrax_lms_generate(seed.as_ptr(), id.as_ptr(), tree.as_mut_ptr(), tree.len()) }
}

/// 0 and the public key in the first 56 bytes, or 21 and the buffer unchanged where it or the tree is shorter.
#[inline]
pub fn lms_public_key(id: &[u8; 16], tree: &[u8], key: &mut [u8]) -> u32 {
    // SAFETY: as for `lms_generate`.
    unsafe { raw::kozbrax_lms_public_key(id.as_ptr(), tree.as_ptr(), tree.len(), key.as_mut_ptr(), key.len()) }
}

/// 0 and the signature in the first 2,508 bytes; or the buffer unchanged, and 21 where it or the tree is shorter, else 17
/// where the number is 1,024 or more.
#[inline]
pub fn lms_sign(signer: &Signer, text: &[u8], tree: &[u8], signature: &mut [u8]) -> u32 {
    // SAFETY: as for `lms_generate`.
    unsafe {
        raw::kozbrax_lms_sign(
            signer.seed.as_ptr(),
            signer.id.as_ptr(),
            signer.number,
            signer.randomizer.as_ptr(),
            text.as_ptr(),
            text.len(),
            tree.as_ptr(),
            tree.len(),
            signature.as_mut_ptr(),
            signature.len(),
        )
    }
}

/// What the library answers 4294967295 for is none.
#[inline]
fn given(number: u32) -> Option<u32> {
    if number == NONE {
        return None;
    }
    Some(number)
}

/// The number that the signature was made with, or none where it is not valid.
#[inline]
pub fn lms_check(key: &[u8], text: &[u8], signature: &[u8]) -> Option<u32> {
    // SAFETY: the slices are valid for their lengths, and nothing is written. The function has no `requires`.
    given(unsafe {
        raw::kozbrax_lms_check(key.as_ptr(), key.len(), text.as_ptr(), text.len(), signature.as_ptr(), signature.len())
    })
}

/// The first label of p's path, or none where p is not 1 to 1,048,576.
#[inline]
pub fn first_label(p: u32) -> Option<u32> {
    // SAFETY: numbers alone, here and in the next two. The functions have no `requires`.
    given(unsafe { raw::kozbrax_first_label(p) })
}

/// The server, of `servers`, that owns node (p, l), or none where one of them is out of range.
#[inline]
pub fn owner(servers: u32, p: u32, l: u32) -> Option<u32> {
    // SAFETY: as for `first_label`.
    given(unsafe { raw::kozbrax_owner(servers, p, l) })
}

/// The wait Q(p, servers) in operations, or none where one of them is out of range.
#[inline]
pub fn wait(servers: u32, p: u32) -> Option<u32> {
    // SAFETY: as for `first_label`.
    given(unsafe { raw::kozbrax_wait(servers, p) })
}

/// The count of the cover's nodes, which are in the first bytes, 5 each; or none, and the buffer unchanged, where v and w are out of
/// range or it is shorter.
#[inline]
pub fn cover(v: u32, w: u32, nodes: &mut [u8]) -> Option<u32> {
    // SAFETY: the slice is valid for its length and borrowed alone. The function has no `requires`.
    given(unsafe { raw::kozbrax_cover(v, w, nodes.as_mut_ptr(), nodes.len()) })
}

/// 0 and the leaf in the first 32 bytes of out, or 21 and out unchanged where it is shorter.
#[inline]
pub fn leaf(author: u16, entry: &[u8], out: &mut [u8]) -> u32 {
    // SAFETY: as for `sha256`.
    unsafe { raw::kozbrax_leaf(author, entry.as_ptr(), entry.len(), out.as_mut_ptr(), out.len()) }
}

/// 0 and the digest in the first 32 bytes of out; or out unchanged, and 21 where it is shorter, else 24 where the leaves are not 1 to
/// 1,048,576 of 32 bytes each.
#[inline]
pub fn digest(leaves: &[u8], out: &mut [u8]) -> u32 {
    // SAFETY: as for `sha256`.
    unsafe { raw::kozbrax_digest(leaves.as_ptr(), leaves.len(), out.as_mut_ptr(), out.len()) }
}

/// 0, with 1 in `standing` for each insertion that stands and 0 for every other entry; or 21 and it unchanged where the lengths differ.
#[inline]
pub fn board(targets: &[u32], standing: &mut [u32]) -> u32 {
    // SAFETY: as for `sha256`; both lengths count numbers.
    unsafe { raw::kozbrax_board(targets.as_ptr(), targets.len(), standing.as_mut_ptr(), standing.len()) }
}

/// The code, and where it is 0 the total time in minutes and the peak of the firing that the entry holds.
#[inline]
pub fn schedule(entry: &[u8]) -> Firing {
    // SAFETY: as for `lms_check`.
    unsafe { raw::kozbrax_schedule(entry.as_ptr(), entry.len()) }
}

/// The code, and where it is 0 the least and the greatest total time in minutes from the whole starts in the range.
#[inline]
pub fn schedule_warm(entry: &[u8], from: u32, to: u32) -> Totals {
    // SAFETY: as for `lms_check`.
    unsafe { raw::kozbrax_schedule_warm(entry.as_ptr(), entry.len(), from, to) }
}

/// The code, and where it is 0 the earliest start of a firing of this length within the windows, from the minute on.
#[inline]
pub fn opening(windows: &[u32], minute: u32, length: u32) -> Start {
    // SAFETY: as for `lms_check`; the length of the windows counts numbers.
    unsafe { raw::kozbrax_opening(windows.as_ptr(), windows.len(), minute, length) }
}

/// The same of the firing that the entry holds.
#[inline]
pub fn schedule_opening(entry: &[u8], windows: &[u32], minute: u32) -> Start {
    // SAFETY: as for `opening`.
    unsafe { raw::kozbrax_schedule_opening(entry.as_ptr(), entry.len(), windows.as_ptr(), windows.len(), minute) }
}
