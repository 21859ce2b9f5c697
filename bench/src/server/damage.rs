//! Damage to a request and to what stands around it. Some of it happens to leave the call as valid as it was.
use super::case::Case;
use crate::plain_lms::KEY;
use crate::plain_server::{GIVE_UP, HEAD, LAST_POSITION, MOST_USERS, PLACE, RECORD_HEADER, REQUEST_HEADER};
use crate::sample::Random;

/// One field altered, the length changed, or other bytes altogether.
pub fn request(case: &mut Case, random: &mut Random) {
    let count = case.count();
    let length = case.request.len();
    let request = &mut case.request;
    match random.below(12) {
        0 => flip_a_bit(request, 0..2, random),
        1 => put(request, 2, &[random.below(GIVE_UP as usize + 2) as u8]),
        2 => flip_a_bit(request, 3..19, random),
        3 => put(request, 19, &author(count, random).to_be_bytes()),
        4 => {
            let p = request.get(21..25).map_or(0, |p| u32::from_be_bytes(p.try_into().expect("4 bytes")));
            put(request, 21, &near(p, random).to_be_bytes());
        }
        5 => {
            let l = request.get(25).copied().unwrap_or(0);
            put(request, 25, &[random.pick(&[l.wrapping_add(1), l.wrapping_sub(1), 0, 20, 21, 32, 64, 255])]);
        }
        6 => request.truncate(random.below(length + 1)),
        7 => request.truncate(random.below(REQUEST_HEADER + 2)),
        8 => {
            let more = 1 + random.below(40);
            request.extend(random.bytes(more));
        }
        9 => flip_a_bit(request, REQUEST_HEADER..length, random),
        10 => {
            let other = random.pick(&[0, 1, 31, 32, 33, 1023, 1024, 1025, 2508, 2539, 2540, 2541]);
            request.truncate(REQUEST_HEADER);
            request.extend(random.bytes(other));
        }
        _ => {
            let length = random.below(2700);
            *request = random.bytes(length);
        }
    }
}

/// The free part as long as the request's record, a byte more or less, or far longer.
pub fn free_part(case: &mut Case, random: &mut Random) {
    let body = case.request.len().saturating_sub(REQUEST_HEADER);
    let free = RECORD_HEADER + body - 1 + random.pick(&[0, 1, 2, 8000]);
    case.store.truncate(case.used as usize);
    case.store.extend(random.bytes(free));
}

/// Settings, user list, head or store.
pub fn surroundings(case: &mut Case, random: &mut Random) {
    match random.below(6) {
        0 => settings(case, random),
        1 => users(case, random),
        2 => head(case, random),
        3 => used(case, random),
        _ => record(case, random),
    }
}

fn settings(case: &mut Case, random: &mut Random) {
    let (servers, own) = (case.servers, case.own);
    match random.below(3) {
        0 => case.servers = random.pick(&[0, 1, 17, 256 + servers, 65_536 + servers, 1 << 31, u32::MAX]),
        1 => case.own = random.pick(&[0, servers + 1, 256 + own, 65_536 + own, u32::MAX]),
        _ => (case.servers, case.own) = (random.below(20) as u32, random.below(20) as u32),
    }
}

fn users(case: &mut Case, random: &mut Random) {
    let length = case.users.len();
    let other = match random.below(4) {
        0 => 0,
        1 => KEY * (MOST_USERS + 1),
        2 => random.pick(&[length - 1, length + 1, length - KEY, length + KEY]),
        _ => random.below(KEY * (MOST_USERS + 2)),
    };
    let more = random.bytes(other.saturating_sub(length));
    case.users.truncate(other);
    case.users.extend(more);
}

fn head(case: &mut Case, random: &mut Random) {
    let (p, count) = (case.head_position(), case.count());
    match random.below(11) {
        0 => put(&mut case.head, 0, &near(p, random).to_be_bytes()),
        1 => put(&mut case.head, 0, &(LAST_POSITION + 1 + random.below(1000) as u32).to_be_bytes()),
        2 => put(&mut case.head, 4, &[random.pick(&[0, 1, 20, 21, 32, 255])]),
        3 => put(&mut case.head, 5, &author(count, random).to_be_bytes()),
        4 => flip_a_bit(&mut case.head, 7..PLACE, random),
        5 => put(&mut case.head, PLACE, &[random.pick(&[0, 1, 2, 3, 255])]),
        6 => put(&mut case.head, PLACE + 1, &random.pick(&[0, p, p.wrapping_sub(1), p.wrapping_add(1)]).to_be_bytes()),
        7 => put(&mut case.head, PLACE + 5, &[random.pick(&[0, 1, 20, 21, 32, 255])]),
        8 => put(&mut case.head, PLACE + 6, &author(count, random).to_be_bytes()),
        9 => flip_a_bit(&mut case.head, PLACE..HEAD, random),
        _ => case.head = random.array(),
    }
}

/// A used length that ends elsewhere: before or after the last record, or past the store.
fn used(case: &mut Case, random: &mut Random) {
    let (used, length) = (case.used, case.store.len() as u64);
    let within = random.below(length as usize + 1) as u64;
    let far = random.pick(&[1 << 32, 1 << 63, u64::MAX]);
    case.used =
        random.pick(&[within, used.saturating_sub(1), used + 1, length, length + 1, used.wrapping_add(far), far]);
}

/// A byte of a stored record's header, or any byte of the used part.
fn record(case: &mut Case, random: &mut Random) {
    let starts = record_starts(&case.store[..case.used as usize]);
    if starts.is_empty() {
        return used(case, random);
    }
    if random.chance(20) {
        return flip_a_bit(&mut case.store, 0..case.used as usize, random);
    }
    let at = random.pick(&starts) + random.below(RECORD_HEADER);
    let byte = case.store[at];
    let bit = 1 << random.below(8);
    case.store[at] = random.pick(&[byte.wrapping_add(1), byte.wrapping_sub(1), 0, 255, byte ^ bit]);
}

/// Where the records of a used part of whole records begin.
fn record_starts(used: &[u8]) -> Vec<usize> {
    let mut starts = Vec::new();
    let mut at = 0;
    while at < used.len() {
        starts.push(at);
        at += RECORD_HEADER + usize::from(u16::from_be_bytes([used[at + 10], used[at + 11]]));
    }
    starts
}

fn author(count: usize, random: &mut Random) -> u16 {
    let count = count as u16;
    let any = random.below(70) as u16;
    random.pick(&[0, 1, count, count + 1, 256, 257, 65_535, any])
}

fn near(p: u32, random: &mut Random) -> u32 {
    let power = 1 << random.below(32);
    random.pick(&[
        0,
        p.wrapping_add(1),
        p.wrapping_sub(1),
        LAST_POSITION,
        LAST_POSITION + 1,
        power,
        p ^ power,
        u32::MAX,
    ])
}

/// Over the bytes that are there.
fn put(bytes: &mut [u8], at: usize, field: &[u8]) {
    for (byte, new) in bytes.iter_mut().skip(at).zip(field) {
        *byte = *new;
    }
}

fn flip_a_bit(bytes: &mut [u8], field: std::ops::Range<usize>, random: &mut Random) {
    if let Some(byte) = bytes.get_mut(field.start + random.below(field.len().max(1))) {
        *byte ^= 1 << random.below(8);
    }
}
