//! A log written without a fault on all its servers: each request is accepted, and then everything stored is found. Before each
//! write another one is reserved in part and given up.
use super::case::{Case, Tally};
use super::message::{body, levels, signed_body, Message};
use crate::lms::Key;
use crate::plain_server::{owner, COMMIT, GIVE_UP, HASH, HEAD, LONGEST_ANSWER, NODE, OPERATION, PUT_NODE};
use crate::plain_server::{PLACE, PUT_OPERATION, RECORD, RESERVE, STATUS};
use crate::sample::Random;

const LAST: u32 = 33;
const STORE: usize = 100_000;

pub struct Log<'a> {
    tally: &'a mut Tally,
    random: Random,
    keys: &'a [Key],
    servers: Vec<Case>,
}

impl<'a> Log<'a> {
    /// The servers of a new log, each key's user listed once.
    pub fn new(tally: &'a mut Tally, mut random: Random, keys: &'a [Key], servers: u32) -> Log<'a> {
        let log = random.array();
        let users: Vec<u8> = keys.iter().flat_map(|key| key.public.clone()).collect();
        let server = |own| Case {
            servers,
            own,
            log,
            users: users.clone(),
            head: [0; HEAD],
            store: vec![0; STORE],
            used: 0,
            request: Vec::new(),
            answer: vec![0; LONGEST_ANSWER],
        };
        Log { tally, random, keys, servers: (1..=servers).map(server).collect() }
    }

    /// Positions 1 to 33, the authors taking turns; then pulls of all their nodes, entries and records.
    pub fn run(&mut self) {
        for p in 1..=LAST {
            self.give_up(p);
            self.write(p);
        }
        for p in 1..=LAST {
            for kind in [NODE, OPERATION, RECORD] {
                for l in levels(kind, p) {
                    self.send(Message { kind, author: 1, p, l, body: Vec::new() });
                }
            }
        }
    }

    /// A write of which some Reserves are handed out, and the last of them is lost for each second position: each server that
    /// was sent one is told once, in number order. All heads are as before then, and the same give-ups are 27.
    fn give_up(&mut self, p: u32) {
        let before: Vec<_> = self.servers.iter().map(|server| server.head).collect();
        let (author, digest) = (1 + (p % 2) as u16, self.random.bytes(HASH));
        let sent = 1 + self.random.below(levels(RESERVE, p).len()) as u8;
        let lost = p % 2 == 1;
        for l in 0..sent - u8::from(lost) {
            self.send(Message { kind: RESERVE, author, p, l, body: digest.clone() });
        }
        for own in 1..=self.servers.len() as u32 {
            let owned = |l: &u8| owner(p, *l, before.len() as u32) == own;
            let Some(l) = (0..sent).rev().find(owned) else { continue };
            let arrived = (0..sent - u8::from(lost)).any(|l| owned(&l));
            let server = &mut self.servers[own as usize - 1];
            server.request = Message { kind: GIVE_UP, author, p, l, body: digest.clone() }.request(&server.log);
            self.tally.answered(server, if arrived { 0 } else { 27 });
            self.tally.answered(server, 27);
        }
        let after: Vec<_> = self.servers.iter().map(|server| server.head).collect();
        assert!(
            before.iter().zip(&after).all(|(before, after)| before[..PLACE] == after[..PLACE]),
            "heads after a give-up"
        );
    }

    fn write(&mut self, p: u32) {
        let key = p as usize % self.keys.len();
        let author = 1 + key as u16;
        let digest = self.random.bytes(HASH);
        for kind in [RESERVE, PUT_OPERATION, PUT_NODE, COMMIT] {
            for l in levels(kind, p) {
                let body = match kind {
                    RESERVE => digest.clone(),
                    COMMIT => signed_body(&self.keys[key], &self.servers[0].log, p, &digest, &mut self.random),
                    _ => body(kind, &mut self.random),
                };
                self.send(Message { kind, author, p, l, body });
            }
        }
    }

    /// To the node's owner, twice: it accepts the repeat too, and stores nothing for it. Then the owner's Status.
    fn send(&mut self, message: Message) {
        let owner = owner(message.p, message.l, self.servers.len() as u32);
        let server = &mut self.servers[owner as usize - 1];
        server.request = message.request(&server.log);
        self.tally.accepted(server);
        let used = server.used;
        self.tally.accepted(server);
        assert_eq!(server.used, used, "a repeat was stored");
        server.request = Message { kind: STATUS, author: 1, p: 0, l: 0, body: Vec::new() }.request(&server.log);
        self.tally.accepted(server);
    }
}
