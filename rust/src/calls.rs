//! The server's call and the user's.
use crate::{raw, Asked, Lent, Served, Settings, SettledAnswer, Signing, HEAD, KEPT};

/// One call of server `own`: takes in a request of any bytes. Gives the code, the length of the answer in its buffer, and the store's
/// new used length, which the caller keeps with head and store. 22 and 21 write nothing; of 1 to 9 and 27 the answer alone is
/// written.
#[inline]
pub fn server(
    settings: &Settings,
    head: &mut [u8; HEAD],
    store: &mut [u8],
    used: u64,
    request: &[u8],
    answer: &mut [u8],
) -> Served {
    // SAFETY: the slices are valid for their lengths, the log name and the head have the lengths that the function reads,
    // and head, store and answer are borrowed alone. The function has no `requires`.
    unsafe {
        raw::kozbrax_server(
            settings.servers,
            settings.own,
            settings.log.as_ptr(),
            settings.users.as_ptr(),
            settings.users.len(),
            head.as_mut_ptr(),
            store.as_mut_ptr(),
            store.len(),
            used,
            request.as_ptr(),
            request.len(),
            answer.as_mut_ptr(),
            answer.len(),
        )
    }
}

/// Starts an Update: on 0 its first request is in the request's buffer, else everything is as it was.
#[inline]
pub fn update_start(settings: &Settings, lent: &mut Lent) -> Asked {
    // SAFETY: as for `server`, here and in the user's other calls: the arrays have the lengths that the functions read and
    // write, and what is written is borrowed alone.
    unsafe {
        raw::kozbrax_update_start(
            settings.servers,
            settings.own,
            settings.log.as_ptr(),
            settings.users.as_ptr(),
            settings.users.len(),
            lent.kept.as_ptr(),
            lent.call.as_mut_ptr(),
            lent.request.as_mut_ptr(),
            lent.request.len(),
        )
    }
}

/// Starts a Write of the entry, or resumes the open write of it; on 0 the first request is there, else everything is as it was.
#[inline]
pub fn write_start(
    settings: &Settings,
    signing: &Signing,
    entry: &[u8],
    randomizer: &[u8; 32],
    lent: &mut Lent,
) -> Asked {
    // SAFETY: as for `update_start`.
    unsafe {
        raw::kozbrax_write_start(
            settings.servers,
            settings.own,
            settings.log.as_ptr(),
            settings.users.as_ptr(),
            settings.users.len(),
            signing.tree.as_ptr(),
            signing.tree.len(),
            entry.as_ptr(),
            entry.len(),
            randomizer.as_ptr(),
            lent.kept.as_ptr(),
            lent.path.as_ptr(),
            lent.call.as_mut_ptr(),
            lent.held.as_mut_ptr(),
            lent.request.as_mut_ptr(),
            lent.request.len(),
        )
    }
}

/// Starts a Read of the entry at a position; on 0 the first request is there, else everything is as it was.
#[inline]
pub fn read_start(settings: &Settings, position: u32, lent: &mut Lent) -> Asked {
    // SAFETY: as for `update_start`.
    unsafe {
        raw::kozbrax_read_start(
            settings.servers,
            settings.own,
            settings.log.as_ptr(),
            settings.users.as_ptr(),
            settings.users.len(),
            position,
            lent.kept.as_ptr(),
            lent.call.as_mut_ptr(),
            lent.request.as_mut_ptr(),
            lent.request.len(),
            lent.entry.as_ptr(),
            lent.entry.len(),
        )
    }
}

/// Starts giving up the open write, or repeats that for the servers that are not done; on 0 the first request is there and `kept` says that
/// the give-up has begun, which is to be saved before the request is sent; else everything is as it was.
#[inline]
pub fn give_up_start(settings: &Settings, lent: &mut Lent) -> Asked {
    // SAFETY: as for `update_start`.
    unsafe {
        raw::kozbrax_give_up_start(
            settings.servers,
            settings.own,
            settings.log.as_ptr(),
            settings.users.as_ptr(),
            settings.users.len(),
            lent.kept.as_mut_ptr(),
            lent.path.as_ptr(),
            lent.call.as_mut_ptr(),
            lent.request.as_mut_ptr(),
            lent.request.len(),
        )
    }
}

/// Takes in an answer of any bytes to the call's last request: 0 with the next request, or at the call's end. After any other code
/// everything is as it was, and the same call may take another answer.
#[inline]
pub fn take(settings: &Settings, signing: &Signing, answer: &[u8], lent: &mut Lent) -> Asked {
    // SAFETY: as for `update_start`.
    unsafe {
        raw::kozbrax_take(
            settings.servers,
            settings.own,
            settings.log.as_ptr(),
            settings.users.as_ptr(),
            settings.users.len(),
            signing.id.as_ptr(),
            signing.seed.as_ptr(),
            signing.tree.as_ptr(),
            signing.tree.len(),
            answer.as_ptr(),
            answer.len(),
            lent.kept.as_mut_ptr(),
            lent.path.as_mut_ptr(),
            lent.signature.as_mut_ptr(),
            lent.call.as_mut_ptr(),
            lent.hashes.as_mut_ptr(),
            lent.held.as_mut_ptr(),
            lent.request.as_mut_ptr(),
            lent.request.len(),
            lent.entry.as_mut_ptr(),
            lent.entry.len(),
        )
    }
}

/// Whether the user's own operation at a position is settled.
#[inline]
pub fn settled(settings: &Settings, kept: &[u8; KEPT], position: u32) -> SettledAnswer {
    // SAFETY: as for `update_start`.
    unsafe {
        raw::kozbrax_settled(
            settings.servers,
            settings.own,
            settings.log.as_ptr(),
            settings.users.as_ptr(),
            settings.users.len(),
            kept.as_ptr(),
            position,
        )
    }
}
