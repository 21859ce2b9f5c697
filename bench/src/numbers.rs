//! The library's functions that give a number or none, with 4294967295 for none, as C has it and the plain sides do.
use kozbrax::NONE;

pub fn lms_check(key: &[u8], text: &[u8], signature: &[u8]) -> u32 {
    kozbrax::lms_check(key, text, signature).unwrap_or(NONE)
}

pub fn first_label(p: u32) -> u32 {
    kozbrax::first_label(p).unwrap_or(NONE)
}

pub fn owner(servers: u32, p: u32, l: u32) -> u32 {
    kozbrax::owner(servers, p, l).unwrap_or(NONE)
}

pub fn wait(servers: u32, p: u32) -> u32 {
    kozbrax::wait(servers, p).unwrap_or(NONE)
}

pub fn cover(v: u32, w: u32, nodes: &mut [u8]) -> u32 {
    kozbrax::cover(v, w, nodes).unwrap_or(NONE)
}
