//! Random exchanges with one server: an honest writer, and others that repeat, pull, reserve and damage between its requests.
use super::case::{Case, Tally};
use super::damage;
use super::message::{body, levels, owned_levels, position, signed_body, Message};
use crate::lms::Key;
use crate::plain_lms::KEY;
use crate::plain_server::{lg, owner, COMMIT, GIVE_UP, HASH, HEAD, LAST_POSITION, LONGEST_ANSWER, MOST_USERS};
use crate::plain_server::{NODE, OPERATION, PUT_NODE, PUT_OPERATION, RECORD, RECORD_HEADER, RESERVE, STATUS};
use crate::sample::Random;

pub struct Exchange<'a> {
    random: Random,
    keys: &'a [Key],
    /// Which key each user has, or none: such a user's key in the list is made of random bytes.
    holders: Vec<Option<usize>>,
    now: Case,
    /// The writer's position, and what is left of its requests there, the last first.
    writing: u32,
    plan: Vec<Vec<u8>>,
    sent: Vec<Vec<u8>>,
    stored: Vec<Message>,
}

impl<'a> Exchange<'a> {
    /// Settings, user list, head and store drawn from the seed.
    pub fn new(seed: u64, keys: &'a [Key]) -> Exchange<'a> {
        let mut random = Random::new(seed);
        let servers = 2 + random.below(15) as u32;
        let any_count = 1 + random.below(MOST_USERS);
        let count = random.pick(&[1, 2, MOST_USERS, any_count]);
        let mut holders: Vec<Option<usize>> =
            (0..count).map(|_| Some(random.below(keys.len())).filter(|key| key % 3 > 0)).collect();
        holders[random.below(count)] = Some(random.below(keys.len()));
        let user = |key: &Option<usize>| key.map_or_else(|| random.bytes(KEY), |key| keys[key].public.clone());
        let users = holders.iter().flat_map(user).collect();
        let now = Case {
            servers,
            own: 1 + random.below(servers as usize) as u32,
            log: random.array(),
            users,
            head: [0; HEAD],
            store: Vec::new(),
            used: 0,
            request: Vec::new(),
            answer: Vec::new(),
        };
        let (plan, sent, stored) = (Vec::new(), Vec::new(), Vec::new());
        let mut exchange = Exchange { random, keys, holders, now, writing: 0, plan, sent, stored };
        exchange.choose_head();
        exchange.fill_store();
        exchange
    }

    /// A fresh head, or any in range; such a one mostly has an earlier one.
    fn choose_head(&mut self) {
        if self.random.chance(50) {
            return;
        }
        let p = position(&mut self.random);
        let l = self.random.below(lg(p) as usize + 1) as u8;
        let author = self.any_author();
        let digest = self.random.array();
        self.now.set_head(p, l, author, &digest);
        if self.random.chance(70) {
            let earlier = self.random.below(p as usize) as u32;
            let l = self.random.below(lg(earlier) as usize + 1) as u8;
            let author = self.any_author();
            let digest = self.random.array();
            self.now.set_earlier(earlier, l, author, &digest);
        }
    }

    /// A few records about the head's position and elsewhere, some for the same node; then a free part of any length.
    fn fill_store(&mut self) {
        for _ in 0..self.random.below(12) {
            let message = self.any_record();
            self.now.store.extend(message.record());
            self.stored.push(message);
        }
        self.now.used = self.now.store.len() as u64;
        let length = match self.random.below(6) {
            0 => 0,
            1 => self.random.below(200),
            2 => self.random.below(4000),
            _ => 20_000,
        };
        self.now.store.extend(self.random.bytes(length));
    }

    fn any_record(&mut self) -> Message {
        let author = self.any_author();
        if !self.stored.is_empty() && self.random.chance(20) {
            let i = self.random.below(self.stored.len());
            let body = body(self.stored[i].kind, &mut self.random);
            return Message { author, body, ..self.stored[i].clone() };
        }
        let p = if self.random.chance(50) { self.now.head_position().max(1) } else { position(&mut self.random) };
        let kind = if self.random.chance(20) { COMMIT } else { PUT_OPERATION + self.random.below(2) as u8 };
        let kind = if levels(kind, p).is_empty() { PUT_OPERATION } else { kind };
        let l = self.a_level(kind, p);
        let mut body = body(kind, &mut self.random);
        if kind == COMMIT && self.random.chance(50) {
            body[..HASH].copy_from_slice(&self.now.head_digest());
        }
        Message { kind, author, p, l, body }
    }

    fn any_author(&mut self) -> u16 {
        1 + self.random.below(self.holders.len()) as u16
    }

    /// A level of the kind at p, one that the server owns if there is one; 0 where the kind has none at p.
    fn a_level(&mut self, kind: u8, p: u32) -> u8 {
        let owned = owned_levels(kind, p, self.now.servers, self.now.own);
        let from = if owned.is_empty() { levels(kind, p) } else { owned };
        if from.is_empty() {
            0
        } else {
            self.random.pick(&from)
        }
    }

    /// One call: a request, which may be damaged, with what stands around it, which may be too. A call on what was not
    /// damaged around it leaves the state for the next one.
    pub fn step(&mut self, tally: &mut Tally) {
        let mut case = self.now.clone();
        case.request = self.request();
        let length = LONGEST_ANSWER + self.random.below(3);
        case.answer = self.random.bytes(length);
        let random = &mut self.random;
        while random.chance(20) {
            damage::request(&mut case, random);
        }
        if random.chance(15) {
            damage::free_part(&mut case, random);
        }
        let around = random.chance(8);
        if around {
            damage::surroundings(&mut case, random);
        }
        if random.chance(3) {
            case.answer.truncate(random.below(LONGEST_ANSWER));
        }
        let after = tally.compare(&case);
        if !around {
            let from = self.now.used as usize;
            self.now.take_over(after);
            self.note_stored(from);
        }
        self.sent.push(case.request);
    }

    /// Notes the record that an accepted request appended, if it did.
    fn note_stored(&mut self, from: usize) {
        let record = &self.now.store[from..self.now.used as usize];
        if let Some(header) = record.get(..RECORD_HEADER) {
            self.stored.push(Message {
                kind: header[2],
                p: u32::from_be_bytes([header[3], header[4], header[5], header[6]]),
                l: header[7],
                author: u16::from_be_bytes([header[8], header[9]]),
                body: record[RECORD_HEADER..].to_vec(),
            });
        }
    }

    fn request(&mut self) -> Vec<u8> {
        let message = match self.random.below(100) {
            0..40 => return self.next_of_write(),
            40..50 if !self.sent.is_empty() => {
                let i = self.random.below(self.sent.len());
                return self.sent[i].clone();
            }
            40..65 if !self.stored.is_empty() => self.pull_of_stored(),
            65..73 => self.about_head(RESERVE),
            73..75 => self.about_head(GIVE_UP),
            75..88 => self.put_at_head(),
            _ => self.anywhere(),
        };
        message.request(&self.now.log)
    }

    /// The honest writer's next request: of the open position, or the first of the next one, also where someone else has
    /// reserved a position above the open one.
    fn next_of_write(&mut self) -> Vec<u8> {
        let mut p = match self.random.below(10) {
            0 => position(&mut self.random),
            1 => self.now.head_position() + self.random.below(30) as u32,
            _ => self.now.head_position(),
        };
        if self.now.head_position() > self.writing {
            self.plan.clear();
        }
        while self.plan.is_empty() {
            p = p % LAST_POSITION + 1;
            self.plan_write(p);
        }
        self.plan.pop().expect("it is not empty")
    }

    /// Reserve for each level, PutOperation, PutNode for each full level from 1, Commit, or now and then some Reserves and a give-up; those
    /// that this server owns, and some that it does not. Digests and hashes are random bytes, since a server never looks into them.
    fn plan_write(&mut self, p: u32) {
        self.writing = p;
        let author = self.any_author();
        let digest = self.random.bytes(HASH);
        let nodes: &[u8] =
            if self.random.chance(20) { &[RESERVE, GIVE_UP] } else { &[RESERVE, PUT_OPERATION, PUT_NODE, COMMIT] };
        for (kind, l) in nodes.iter().flat_map(|kind| levels(*kind, p).into_iter().map(|l| (*kind, l))) {
            if owner(p, l, self.now.servers) == self.now.own || self.random.chance(2) {
                let body = match kind {
                    RESERVE | GIVE_UP => digest.clone(),
                    COMMIT => self.commit_body(author, p, &digest),
                    _ => body(kind, &mut self.random),
                };
                self.plan.push(Message { kind, author, p, l, body }.request(&self.now.log));
            }
        }
        self.plan.reverse();
    }

    /// With a true signature where the author has a key; now and then it is another user's.
    fn commit_body(&mut self, author: u16, p: u32, digest: &[u8]) -> Vec<u8> {
        let signer = if self.random.chance(90) { author } else { self.any_author() };
        match self.holders[usize::from(signer) - 1] {
            Some(key) => signed_body(&self.keys[key], &self.now.log, p, digest, &mut self.random),
            None => [digest, &body(COMMIT, &mut self.random)[HASH..]].concat(),
        }
    }

    /// A pull that finds something, if this server owns the node.
    fn pull_of_stored(&mut self) -> Message {
        let i = self.random.below(self.stored.len());
        let Message { kind, p, l, .. } = self.stored[i];
        let full = levels(NODE, p).contains(&l);
        let kind = match kind {
            PUT_OPERATION if self.random.chance(50) => OPERATION,
            COMMIT if !full || self.random.chance(50) => RECORD,
            _ => NODE,
        };
        Message { kind, author: self.any_author(), p, l, body: Vec::new() }
    }

    /// A Reserve or a give-up at the head's position with its author and digest or others, or at a position beside it.
    fn about_head(&mut self, kind: u8) -> Message {
        let head = self.now.head_position();
        let beside = (head + self.random.below(10) as u32).saturating_sub(4);
        let p = if self.random.chance(70) { head } else { beside }.clamp(1, LAST_POSITION);
        let other_author = self.any_author();
        let other_digest = self.random.bytes(HASH);
        let author = if self.random.chance(80) { self.now.head_author() } else { other_author };
        let body = if self.random.chance(80) { self.now.head_digest().to_vec() } else { other_digest };
        Message { kind, author, p, l: self.a_level(kind, p), body }
    }

    /// A put or Commit at the head's position: of a new body, or of one that is stored for the node already.
    fn put_at_head(&mut self) -> Message {
        let p = self.now.head_position().max(1);
        let other_author = self.any_author();
        let author = if self.random.chance(95) { self.now.head_author().max(1) } else { other_author };
        let here: Vec<usize> = (0..self.stored.len()).filter(|i| self.stored[*i].p == p).collect();
        if !here.is_empty() && self.random.chance(20) {
            return Message { author, ..self.stored[self.random.pick(&here)].clone() };
        }
        let owned = |kind: &u8| !owned_levels(*kind, p, self.now.servers, self.now.own).is_empty();
        let kinds: Vec<u8> = [PUT_OPERATION, PUT_NODE, COMMIT].into_iter().filter(owned).collect();
        if kinds.is_empty() || usize::from(author) > self.holders.len() {
            return self.anywhere();
        }
        let kind = self.random.pick(&kinds);
        let digest = self.now.head_digest();
        let body = if kind == COMMIT { self.commit_body(author, p, &digest) } else { body(kind, &mut self.random) };
        Message { kind, author, p, l: self.a_level(kind, p), body }
    }

    /// Any kind at any position, at a node that this server owns if one turns up soon.
    fn anywhere(&mut self) -> Message {
        let kind = STATUS + self.random.below(GIVE_UP as usize) as u8;
        let author = self.any_author();
        if kind == STATUS {
            return Message { kind, author, p: 0, l: 0, body: Vec::new() };
        }
        let mut p = position(&mut self.random);
        for _ in 0..20 {
            if !owned_levels(kind, p, self.now.servers, self.now.own).is_empty() {
                break;
            }
            p = position(&mut self.random);
        }
        Message { kind, author, p, l: self.a_level(kind, p), body: body(kind, &mut self.random) }
    }
}
