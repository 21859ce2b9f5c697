//! The declarations of include/kozbrax.h as they are, for callers who keep to the pointers' rules there.
//! Nothing checks these declarations against the Rattle source: keep them as the header has them.
use crate::{Asked, Firing, Served, SettledAnswer, Start, Totals};

extern "C" {
    pub fn kozbrax_sha256(message: *const u8, message_len: usize, out: *mut u8, out_len: usize) -> u32;
    pub fn kozbrax_lms_generate(seed: *const u8, id: *const u8, tree: *mut u8, tree_len: usize) -> u32;
    pub fn kozbrax_lms_public_key(id: *const u8, tree: *const u8, tree_len: usize, key: *mut u8, key_len: usize)
        -> u32;
    pub fn kozbrax_lms_sign(
        seed: *const u8,
        id: *const u8,
        number: u32,
        randomizer: *const u8,
        text: *const u8,
        text_len: usize,
        tree: *const u8,
        tree_len: usize,
        signature: *mut u8,
        signature_len: usize,
    ) -> u32;
    pub fn kozbrax_lms_check(
        key: *const u8,
        key_len: usize,
        text: *const u8,
        text_len: usize,
        signature: *const u8,
        signature_len: usize,
    ) -> u32;
    pub fn kozbrax_first_label(p: u32) -> u32;
    pub fn kozbrax_owner(servers: u32, p: u32, l: u32) -> u32;
    pub fn kozbrax_wait(servers: u32, p: u32) -> u32;
    pub fn kozbrax_cover(v: u32, w: u32, nodes: *mut u8, nodes_len: usize) -> u32;
    pub fn kozbrax_leaf(author: u16, entry: *const u8, entry_len: usize, out: *mut u8, out_len: usize) -> u32;
    pub fn kozbrax_digest(leaves: *const u8, leaves_len: usize, out: *mut u8, out_len: usize) -> u32;
    pub fn kozbrax_board(targets: *const u32, targets_len: usize, standing: *mut u32, standing_len: usize) -> u32;
    pub fn kozbrax_schedule(entry: *const u8, entry_len: usize) -> Firing;
    pub fn kozbrax_schedule_warm(entry: *const u8, entry_len: usize, from: u32, to: u32) -> Totals;
    pub fn kozbrax_opening(windows: *const u32, windows_len: usize, minute: u32, length: u32) -> Start;
    pub fn kozbrax_schedule_opening(
        entry: *const u8,
        entry_len: usize,
        windows: *const u32,
        windows_len: usize,
        minute: u32,
    ) -> Start;
    pub fn kozbrax_server(
        servers: u32,
        own: u32,
        log: *const u8,
        users: *const u8,
        users_len: usize,
        head: *mut u8,
        store: *mut u8,
        store_len: usize,
        used: u64,
        request: *const u8,
        request_len: usize,
        answer: *mut u8,
        answer_len: usize,
    ) -> Served;
    pub fn kozbrax_update_start(
        servers: u32,
        own: u32,
        log: *const u8,
        users: *const u8,
        users_len: usize,
        kept: *const u8,
        call: *mut u8,
        request: *mut u8,
        request_len: usize,
    ) -> Asked;
    pub fn kozbrax_write_start(
        servers: u32,
        own: u32,
        log: *const u8,
        users: *const u8,
        users_len: usize,
        tree: *const u8,
        tree_len: usize,
        entry: *const u8,
        entry_len: usize,
        randomizer: *const u8,
        kept: *const u8,
        path: *const u8,
        call: *mut u8,
        held: *mut u8,
        request: *mut u8,
        request_len: usize,
    ) -> Asked;
    pub fn kozbrax_read_start(
        servers: u32,
        own: u32,
        log: *const u8,
        users: *const u8,
        users_len: usize,
        position: u32,
        kept: *const u8,
        call: *mut u8,
        request: *mut u8,
        request_len: usize,
        entry: *const u8,
        entry_len: usize,
    ) -> Asked;
    pub fn kozbrax_give_up_start(
        servers: u32,
        own: u32,
        log: *const u8,
        users: *const u8,
        users_len: usize,
        kept: *mut u8,
        path: *const u8,
        call: *mut u8,
        request: *mut u8,
        request_len: usize,
    ) -> Asked;
    pub fn kozbrax_take(
        servers: u32,
        own: u32,
        log: *const u8,
        users: *const u8,
        users_len: usize,
        id: *const u8,
        seed: *const u8,
        tree: *const u8,
        tree_len: usize,
        answer: *const u8,
        answer_len: usize,
        kept: *mut u8,
        path: *mut u8,
        signature: *mut u8,
        call: *mut u8,
        hashes: *mut u8,
        held: *mut u8,
        request: *mut u8,
        request_len: usize,
        entry: *mut u8,
        entry_len: usize,
    ) -> Asked;
    pub fn kozbrax_settled(
        servers: u32,
        own: u32,
        log: *const u8,
        users: *const u8,
        users_len: usize,
        kept: *const u8,
        position: u32,
    ) -> SettledAnswer;
}
