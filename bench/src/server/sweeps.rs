//! Calls that take one thing through all its values or lengths while the rest stays valid; give_ups.rs has more of them.
use super::case::{Case, Tally};
use super::message::{body, levels, signed_body, Message};
use crate::lms::Key;
use crate::plain_lms::KEY;
use crate::plain_server::{lg, owner, COMMIT, GIVE_UP, HASH, HEAD, LAST_POSITION, LONGEST_ANSWER, MOST_USERS};
use crate::plain_server::{NODE, OPERATION, PUT_NODE, PUT_OPERATION, RECORD_HEADER, REQUEST_HEADER, RESERVE, STATUS};
use crate::sample::Random;

pub const SERVERS: u32 = 4;
const KINDS: std::ops::RangeInclusive<u8> = STATUS..=GIVE_UP;

pub struct Sweeps<'a> {
    pub tally: &'a mut Tally,
    pub random: Random,
    pub keys: &'a [Key],
}

impl Sweeps<'_> {
    pub fn run(&mut self) {
        for (name, sweep) in [
            ("every length of the answer's buffer to 2,600", Self::answer_lengths as fn(&mut Self)),
            ("every length of a request to 2,610, each kind", Self::request_lengths),
            ("every value of each byte before a request's body, each kind", Self::request_bytes),
            ("a bit of each byte of a Commit's body", Self::commit_bits),
            ("positions about the powers of two with every level, each kind", Self::nodes),
            ("every value of each byte of a stored record's header", Self::record_bytes),
            ("every used length, and longer ones", Self::used_lengths),
            ("every length of the free part to 2,560, each put and Commit", Self::free_lengths),
            ("numbers of servers and own numbers", Self::server_numbers),
            ("every length of the user list to 66 users, and longer ones", Self::user_lengths),
            ("heads in and out of range", Self::heads),
            ("earlier heads in and out of range", Self::earlier_heads),
            ("every value of each byte of a head, three kinds", Self::head_bytes),
            ("a bit of each byte of a give-up's digest", Self::give_up_bits),
            ("give-ups of the head's and other positions, authors and digests, repeated", Self::give_ups),
            ("a stored record of kind 9", Self::stored_give_up),
        ] {
            let before = self.tally.total();
            sweep(self);
            println!("  {name}: {}", self.tally.total() - before);
        }
    }

    /// A valid call: the node is the server's own, the head is at p with user 1, the one before it at p - 1 with user 2, the node's
    /// records are not stored yet.
    pub fn valid(&mut self, kind: u8, p: u32, l: u8) -> Case {
        let random = &mut self.random;
        let users = self.keys.iter().flat_map(|key| key.public.clone()).collect();
        let log = random.array();
        let mut case = Case {
            servers: SERVERS,
            own: if kind == STATUS { 1 } else { owner(p, l, SERVERS) },
            log,
            users,
            head: [0; HEAD],
            store: random.bytes(3000),
            used: 0,
            request: Vec::new(),
            answer: random.bytes(LONGEST_ANSWER),
        };
        let digest = random.array();
        case.set_head(p, lg(p) as u8, 1, &digest);
        case.set_earlier(p - 1, 0, 2, &random.array());
        let body = match kind {
            COMMIT => signed_body(&self.keys[0], &log, p, &digest, random),
            RESERVE | GIVE_UP => digest.to_vec(),
            _ => body(kind, random),
        };
        let (p, l) = if kind == STATUS { (0, 0) } else { (p, l) };
        case.request = Message { kind, author: 1, p, l, body }.request(&log);
        case
    }

    /// The valid call of a kind at position 8, whose node of each level is full.
    pub fn valid_at_8(&mut self, kind: u8) -> Case {
        let l = *levels(kind, 8).last().expect("each kind has a level at 8");
        self.valid(kind, 8, l)
    }

    /// Records of each stored kind at position 8, the entry's length given.
    fn stored(&mut self, entry: usize) -> Vec<u8> {
        let random = &mut self.random;
        let message = |kind, l, body| Message { kind, author: 2, p: 8, l, body };
        let records = [
            message(PUT_OPERATION, 0, random.bytes(entry)),
            message(PUT_NODE, 1, body(PUT_NODE, random)),
            message(COMMIT, 3, body(COMMIT, random)),
            message(PUT_NODE, 2, body(PUT_NODE, random)),
        ];
        records.iter().flat_map(Message::record).collect()
    }

    fn answer_lengths(&mut self) {
        for kind in KINDS {
            let mut case = self.valid_at_8(kind);
            for length in (0..2600).filter(|length| kind != COMMIT || length % 8 == 0) {
                case.answer = self.random.bytes(length);
                self.tally.compare(&case);
            }
        }
    }

    fn request_lengths(&mut self) {
        for kind in KINDS {
            let valid = self.valid_at_8(kind);
            let long = [&valid.request[..], &self.random.bytes(2610)].concat();
            for length in 0..=2610 {
                let request = long[..length].to_vec();
                self.tally.compare(&Case { request, ..valid.clone() });
            }
        }
    }

    fn request_bytes(&mut self) {
        for kind in KINDS {
            let valid = self.valid_at_8(kind);
            for at in 0..REQUEST_HEADER {
                let mut case = valid.clone();
                for value in 0..=255 {
                    case.request[at] = value;
                    self.tally.compare(&case);
                }
            }
        }
    }

    fn commit_bits(&mut self) {
        let valid = self.valid_at_8(COMMIT);
        for at in REQUEST_HEADER..valid.request.len() {
            let mut case = valid.clone();
            case.request[at] ^= 1 << (at % 8);
            self.tally.compare(&case);
        }
    }

    fn nodes(&mut self) {
        for p in positions() {
            for l in (0..=33).chain([63, 64, 65, 127, 128, 254, 255]) {
                for kind in KINDS {
                    self.node(kind, p, l);
                }
            }
        }
    }

    /// The valid call for (p, l) where that is a node, else one for another node with p and l put into its request.
    fn node(&mut self, kind: u8, p: u32, l: u8) {
        let is_node = (1..=LAST_POSITION).contains(&p) && u32::from(l) <= lg(p);
        let mut case = if is_node { self.valid(kind, p, l) } else { self.valid_at_8(kind) };
        case.request[21..25].copy_from_slice(&p.to_be_bytes());
        case.request[25] = l;
        self.tally.compare(&case);
    }

    fn record_bytes(&mut self) {
        for kind in [STATUS, OPERATION, NODE] {
            let mut valid = self.valid_at_8(kind);
            valid.store = self.stored(40);
            valid.used = valid.store.len() as u64;
            for start in [0, RECORD_HEADER + 40, 2 * RECORD_HEADER + 40 + HASH] {
                for at in start..start + RECORD_HEADER {
                    let mut case = valid.clone();
                    for value in 0..=255 {
                        case.store[at] = value;
                        self.tally.compare(&case);
                    }
                }
            }
        }
    }

    fn used_lengths(&mut self) {
        let mut case = self.valid_at_8(OPERATION);
        case.store = self.stored(1024);
        let length = case.store.len() as u64;
        let far = [1 << 31, 1 << 32, 1 << 63, u64::MAX - length, u64::MAX];
        for used in (0..length + 300).chain(far).chain(far.map(|far| far.wrapping_add(length))) {
            case.used = used;
            self.tally.compare(&case);
        }
    }

    fn free_lengths(&mut self) {
        for kind in [PUT_OPERATION, PUT_NODE, COMMIT] {
            let mut case = self.valid_at_8(kind);
            let other = Message { kind: PUT_NODE, author: 2, p: 4, l: 1, body: self.random.bytes(HASH) }.record();
            for free in 0..=2560 {
                case.store = [other.clone(), self.random.bytes(free)].concat();
                case.used = other.len() as u64;
                self.tally.compare(&case);
            }
        }
    }

    fn server_numbers(&mut self) {
        let mut case = self.valid_at_8(OPERATION);
        let far = [1 << 8, 1 << 16, 1 << 24, 1 << 31];
        let near_and_far: Vec<u32> = (0..=20).chain(far.iter().flat_map(|far| far - 1..far + 20)).collect();
        for &servers in &near_and_far {
            for &own in &near_and_far {
                (case.servers, case.own) = (servers, own);
                self.tally.compare(&case);
            }
        }
    }

    /// On a fresh head, whose author need not be listed.
    fn user_lengths(&mut self) {
        let mut case = self.valid_at_8(STATUS);
        case.head = [0; HEAD];
        let long = self.random.bytes(66 * KEY);
        for length in 0..=long.len() {
            case.users = long[..length].to_vec();
            self.tally.compare(&case);
        }
        for count in [128, 255, 256, 257, 256 + MOST_USERS, 65_536, 65_537] {
            case.users = self.random.bytes(count * KEY);
            self.tally.compare(&case);
        }
    }

    fn heads(&mut self) {
        let mut case = self.valid_at_8(STATUS);
        case.forget_earlier();
        let count = case.count() as u16;
        for p in positions() {
            for l in (0..=22).chain([32, 63, 64, 128, 255]) {
                for author in [0, 1, count, count + 1, 256, 257, 65_535] {
                    let digest = self.random.array();
                    case.set_head(p, l, author, &digest);
                    self.tally.compare(&case);
                }
            }
        }
    }
}

/// 0 to 20, the powers of two with their neighbours, and the positions about the last one.
pub fn positions() -> Vec<u32> {
    let powers = (5..32).map(|k| 1 << k).flat_map(|power: u32| power - 1..=power + 1);
    (0..=20).chain(powers).chain([LAST_POSITION - 2, LAST_POSITION + 2, u32::MAX]).collect()
}
