//! Functions of an earlier library, as build.rs renames them.
extern "C" {
    fn before_first_label(p: u32) -> u32;
    fn before_owner(servers: u32, p: u32, l: u32) -> u32;
}

pub fn first_label(p: u32) -> u32 {
    // SAFETY: numbers by value, and no `requires`.
    unsafe { before_first_label(p) }
}

pub fn owner(servers: u32, p: u32, l: u32) -> u32 {
    // SAFETY: as for `first_label`.
    unsafe { before_owner(servers, p, l) }
}
