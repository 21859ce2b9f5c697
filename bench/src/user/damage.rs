//! Damage to an answer and to what stands around it. Some of it happens to leave the step as valid as it was.
use super::case::{Case, Step};
use super::world::answer_of;
use super::LEAST_REQUEST;
use crate::plain_lms::{KEY, TREE};
use crate::plain_server::{lg, owner, ANSWER_HEADER, LAST_POSITION, LONGEST_ENTRY, MOST_USERS, RECORD, STATUS};
use crate::sample::Random;
use crate::server::message::position;

/// A field altered, the length changed, another answer of the exchange, or other bytes altogether.
pub fn answer(honest: &[u8], seen: &[Vec<u8>], servers: u32, random: &mut Random) -> Vec<u8> {
    let mut answer = honest.to_vec();
    let length = answer.len();
    match random.below(14) {
        0 => flip_a_bit(&mut answer, 0..ANSWER_HEADER, random),
        1 => flip_a_bit(&mut answer, 0..length, random),
        2 | 3 => flip_a_bit(&mut answer, ANSWER_HEADER..length, random),
        4 => answer.truncate(random.below(length + 1)),
        5 => answer.truncate(length.saturating_sub(1)),
        6 => {
            let more = 1 + random.below(40);
            answer.extend(random.bytes(more));
        }
        7 => return random.pick(&seen.iter().collect::<Vec<_>>()).clone(),
        8 => put(&mut answer, 3, random.below(18) as u8),
        9 => put(
            &mut answer,
            ANSWER_HEADER - 1,
            random.pick(&[1, 2, 3, 4, 5, 6, 7, 8, 9, 10, 11, 22, 26, 27, 28, 128, 255]),
        ),
        10 => {
            answer.truncate(ANSWER_HEADER);
            let code = random.below(12) as u8;
            put(&mut answer, ANSWER_HEADER - 1, random.pick(&[code, code, 27]));
        }
        11 => {
            let other = random.pick(&[0, 1, 2, 3, 4, 5, 6, 31, 32, 33, 1025, 1026, 1027, 2541, 2542, 2543]);
            answer.truncate(ANSWER_HEADER);
            answer.extend(random.bytes(other));
        }
        12 => {
            let any = random.below(2600);
            return random.bytes(any);
        }
        _ => return told(&answer, servers, random),
    }
    answer
}

/// A well-formed answer that tells something else: of a Status another head, of a Record another author, else another body.
fn told(honest: &[u8], servers: u32, random: &mut Random) -> Vec<u8> {
    let mut answer = honest.to_vec();
    match answer.get(2) {
        Some(&STATUS) if answer.len() > ANSWER_HEADER => return other_head(&answer, servers, random),
        Some(&RECORD) if answer.len() > ANSWER_HEADER => {
            let author = random.pick(&[0u16, 1, 2, 3, 64, 65, 256, 257, 65_535]);
            answer[ANSWER_HEADER..ANSWER_HEADER + 2].copy_from_slice(&author.to_be_bytes());
        }
        _ => {
            let body = random.bytes(answer.len().saturating_sub(ANSWER_HEADER));
            answer.truncate(ANSWER_HEADER);
            answer.extend(body);
        }
    }
    answer
}

/// A head about the true one or anywhere, mostly of a node that the server owns.
fn other_head(honest: &[u8], servers: u32, random: &mut Random) -> Vec<u8> {
    let server = u32::from(honest[3]);
    let told = u32::from_be_bytes(honest[ANSWER_HEADER..ANSWER_HEADER + 4].try_into().expect("4 bytes"));
    let near = (told + random.below(8) as u32).saturating_sub(4);
    let p = if random.chance(70) { near.min(LAST_POSITION) } else { position(random) };
    let owned = |l: &u8| p > 0 && owner(p, *l, servers) == server;
    let levels: Vec<u8> = (0..=lg(p) as u8).filter(owned).collect();
    let any = random.below(lg(p) as usize + 2) as u8;
    let l = if levels.is_empty() || random.chance(10) { any } else { random.pick(&levels) };
    let (p, l) = if random.chance(10) { (0, 0) } else { (p, l) };
    answer_of(STATUS, server, 0, 0, 0, &[&p.to_be_bytes()[..], &[l]].concat())
}

/// Settings, user list, buffers or what is kept, such that the step is refused, or a digest that is kept altered.
pub fn surroundings(case: &mut Case, random: &mut Random) {
    let servers = case.shared.servers;
    let count = (case.shared.users.len() / KEY) as u32;
    match random.below(9) {
        0 => case.shared.servers = random.pick(&[0, 1, 17, 256 + servers, 65_536 + servers, 1 << 31, u32::MAX]),
        1 => case.own = random.pick(&[0, count + 1, 65, 256 + case.own, 65_536 + case.own, u32::MAX]),
        2 => {
            let length = case.shared.users.len();
            let other = random.pick(&[0, length.saturating_sub(1), length + 1, KEY * (MOST_USERS + 1)]);
            case.shared.users = random.bytes(other);
        }
        3 => case.memory.request.truncate(random.pick(&[0, 25, 26, 58, LEAST_REQUEST - 1])),
        4 => case.memory.entry.truncate(random.pick(&[0, 1, LONGEST_ENTRY - 1])),
        5 => case.tree = random.pick(&[0, 32, TREE - 32, TREE - 1]),
        6 => flip_a_bit(&mut case.memory.kept, 4..36, random),
        _ => kept(case, random),
    }
}

/// What is kept out of range; for an answer also what 17, 18 and 24 are about.
fn kept(case: &mut Case, random: &mut Random) {
    let taking = matches!(case.step, Step::Take { .. });
    let call = case.memory.call.clone();
    let kept = &mut case.memory.kept;
    match random.below(9) {
        0 => kept[..4].copy_from_slice(&random.pick(&[LAST_POSITION + 1, 1 << 31, u32::MAX]).to_be_bytes()),
        1 => kept[36..40].copy_from_slice(&random.pick(&[1025u32, 1 << 16, u32::MAX]).to_be_bytes()),
        2 => kept[40] = random.pick(&[2, 3, 128, 255]),
        3 => kept[41] = random.pick(&[2, 3, 128, 255]),
        4 if taking && call[0] == 3 => {
            let position = u32::from_be_bytes(call[1..5].try_into().expect("4 bytes"));
            kept[..4].copy_from_slice(&random.pick(&[0, position - 1]).to_be_bytes());
        }
        4 if taking && call[0] == 2 => kept[36..40].copy_from_slice(&1024u32.to_be_bytes()),
        5 if taking && (call[0] == 1 || call[0] == 2) => {
            let (opened, signed) = (kept[40] ^ 1, kept[41]);
            case.memory.set_write([opened, signed, opened, 0, 0, 0]);
        }
        6 => kept[42..].copy_from_slice(&progress(random)),
        7 => kept[42 + random.below(4)] = random.pick(&[0, 1, 2, 3, 17, 22, 255]),
        8 if taking && call[0] == 4 => {
            let [put, begun] = random.pick(&[[1, 0], [0, 0], [1, 1]]);
            kept[43..].copy_from_slice(&[put, begun, 0]);
        }
        _ => {
            kept[..4].copy_from_slice(&LAST_POSITION.to_be_bytes());
            kept[40] = 1;
        }
    }
}

/// How far an open write and its give-up have got: something in range or about it.
fn progress(random: &mut Random) -> [u8; 4] {
    [random.below(24) as u8, random.below(3) as u8, random.below(3) as u8, random.pick(&[0, 1, 2, 3, 16, 17])]
}

fn put(bytes: &mut [u8], at: usize, value: u8) {
    if let Some(byte) = bytes.get_mut(at) {
        *byte = value;
    }
}

fn flip_a_bit(bytes: &mut [u8], field: std::ops::Range<usize>, random: &mut Random) {
    if let Some(byte) = bytes.get_mut(field.start + random.below(field.len().max(1))) {
        *byte ^= 1 << random.below(8);
    }
}
