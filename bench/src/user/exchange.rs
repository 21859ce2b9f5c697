//! Random exchanges: users on the library's servers or on made-up ones, whose calls are ended, dropped or resumed, with damaged
//! answers, damaged surroundings and other starts tried between their steps.
use super::case::{After, Case, Shared, Step, Tally};
use super::damage;
use super::world::{Group, MadeUp, Servers, Table};
use crate::lms::Key;
use crate::plain_lms::KEY;
use crate::plain_server::{LAST_POSITION, LONGEST_ENTRY, MOST_USERS};
use crate::sample::Random;
use crate::schedule::sweeps::valid_entry;
use crate::server::message::position;

pub struct Exchange<'a> {
    random: Random,
    users: Vec<Case<'a>>,
    /// What each user wrote or tried to write last.
    entries: Vec<Vec<u8>>,
    servers: Box<dyn Servers + 'a>,
    seen: Vec<Vec<u8>>,
}

impl<'a> Exchange<'a> {
    /// Servers, user list, the users that have a key, and what they keep, drawn from the seed.
    pub fn new(seed: u64, keys: &'a [Key], table: &'a Table) -> Exchange<'a> {
        let mut random = Random::new(seed);
        let servers = 2 + random.below(15) as u32;
        let any_count = 1 + random.below(MOST_USERS);
        let count = random.pick(&[1, 2, 3, MOST_USERS, any_count]);
        let mut list: Vec<Vec<u8>> = (0..count).map(|_| random.bytes(KEY)).collect();
        let first = random.below(count);
        let owns: Vec<usize> = (0..keys.len().min(count)).map(|i| (first + i) % count).collect();
        for (own, key) in owns.iter().zip(keys) {
            list[*own] = key.public.clone();
        }
        let shared = Shared { servers, log: random.array(), users: list.concat() };
        let user = |(own, key): (&usize, &'a Key)| Case::new(&shared, *own as u32 + 1, key, &mut random);
        let mut users: Vec<Case> = owns.iter().zip(keys).map(user).collect();
        let author = (owns[0] as u16 + 1, &keys[0]);
        let servers: Box<dyn Servers + 'a> = if random.chance(50) {
            let store = random.pick(&[3000, 20_000, 60_000]);
            Box::new(Group::new(&shared, store))
        } else {
            let last = last_position(&mut random);
            for user in &mut users {
                keep(user, last, table, &mut random);
            }
            let random = Random::new(seed);
            Box::new(MadeUp { table, shared: shared.clone(), author, last, random })
        };
        let entries = vec![vec![1]; users.len()];
        Exchange { random, users, entries, servers, seen: vec![Vec::new()] }
    }

    /// One call of one user: its start, and its answers until it ends or is dropped.
    pub fn call(&mut self, tally: &mut Tally) {
        let user = self.random.below(self.users.len());
        self.alter_kept(user);
        let step = self.start(user);
        if let Step::Write { entry, .. } = &step {
            self.entries[user] = entry.clone();
        }
        self.try_around(tally, user, step.clone());
        let mut after = tally.compare(&self.users[user].with(step));
        while self.take_over(user, &after) {
            after = self.answer(tally, user, &after);
        }
        let answer = self.seen[self.seen.len() - 1].clone();
        tally.compare(&self.users[user].with(Step::Take { answer }));
    }

    /// Now and then another number, since a key has few, or marks of a signed write and of its give-up where none is open.
    fn alter_kept(&mut self, user: usize) {
        let kept = &mut self.users[user].memory.kept;
        if self.random.chance(10) {
            let number: u32 = self.random.pick(&[0, 1, 1023, 1024]);
            kept[36..40].copy_from_slice(&number.to_be_bytes());
        }
        if kept[40] == 0 && self.random.chance(5) {
            kept[41] = 1;
            kept[42..].copy_from_slice(&[self.random.below(256) as u8, 1, 1, self.random.below(256) as u8]);
        }
    }

    /// Whether the call goes on: it was not refused, has not ended, and is not dropped.
    fn take_over(&mut self, user: usize, after: &After) -> bool {
        self.users[user].memory = after.memory.clone();
        after.asked.code == 0 && after.asked.ended == 0 && !self.random.chance(4)
    }

    /// The servers' answer, or a damaged one; before it some that are only tried.
    fn answer(&mut self, tally: &mut Tally, user: usize, after: &After) -> After {
        let request = &after.memory.request[..after.asked.length as usize];
        let honest = self.servers.answer(after.asked.server, request);
        self.seen.push(honest.clone());
        let servers = self.users[user].shared.servers;
        for _ in 0..self.random.below(5) {
            let answer = damage::answer(&honest, &self.seen, servers, &mut self.random);
            tally.compare(&self.users[user].with(Step::Take { answer }));
        }
        self.try_around(tally, user, Step::Take { answer: honest.clone() });
        if self.random.chance(6) {
            let answer = damage::answer(&honest, &self.seen, servers, &mut self.random);
            let damaged = tally.compare(&self.users[user].with(Step::Take { answer }));
            if damaged.asked.code == 0 || self.random.chance(50) {
                return damaged;
            }
            self.users[user].memory = damaged.memory;
        }
        tally.compare(&self.users[user].with(Step::Take { answer: honest }))
    }

    /// Now and then the step with damaged surroundings, a start in this state, a call of no kind, or settled.
    fn try_around(&mut self, tally: &mut Tally, user: usize, step: Step) {
        if self.random.chance(30) {
            self.try_damaged(tally, user, step);
        }
        if self.random.chance(10) {
            let start = self.start(user);
            tally.compare(&self.users[user].with(start));
        }
        if self.random.chance(3) {
            let mut case = self.users[user].with(Step::Take { answer: Vec::new() });
            case.memory.call[0] = self.random.pick(&[0, 4, 5, 128, 255]);
            case.memory.call[1] = case.memory.call[1].max(2);
            tally.compare(&case);
        }
        if self.random.chance(10) {
            let position = self.a_position(user);
            tally.compare_settled(&self.users[user], position);
        }
    }

    /// The step with its surroundings damaged once or more, and now and then its answer too: the order of the codes shows.
    fn try_damaged(&mut self, tally: &mut Tally, user: usize, step: Step) {
        let mut case = self.users[user].with(step);
        damage::surroundings(&mut case, &mut self.random);
        while self.random.chance(40) {
            damage::surroundings(&mut case, &mut self.random);
        }
        if let Step::Take { answer } = &mut case.step {
            if self.random.chance(30) {
                *answer = damage::answer(answer, &self.seen, self.users[user].shared.servers, &mut self.random);
            }
        }
        tally.compare(&case);
    }

    /// Mostly what is valid: the open write again where one is open, or its give-up, which is all that goes once it has begun;
    /// else any call.
    fn start(&mut self, user: usize) -> Step {
        let [opened, _, _, put, begun, _] = self.users[user].memory.write();
        let give_up = if opened == 0 || put == 1 { 2 } else { 15 + 40 * usize::from(begun) };
        if self.random.chance(give_up) {
            return Step::GiveUp;
        }
        let again = opened == 1 && self.random.chance(80);
        match self.random.below(100) {
            0..45 if again => self.write(self.entries[user].clone()),
            0..45 => {
                let entry = self.entry(user);
                self.write(entry)
            }
            45..75 => Step::Update,
            _ => Step::Read { position: self.a_position(user) },
        }
    }

    fn write(&mut self, entry: Vec<u8>) -> Step {
        Step::Write { entry, randomizer: self.random.array() }
    }

    /// Positions of the log, its ends, and now and then others.
    fn a_position(&mut self, user: usize) -> u32 {
        let v = self.users[user].memory.version();
        let within = 1 + self.random.below(v.max(1) as usize) as u32;
        let any = self.random.next() as u32;
        match self.random.below(20) {
            0..16 => within,
            16 => self.random.pick(&[0, v + 1, LAST_POSITION, LAST_POSITION + 1, any]),
            _ => self.random.pick(&[1, v, v.saturating_sub(1)]),
        }
    }

    /// An insertion, a strike, a schedule, or an entry that 19 or 26 refuses.
    fn entry(&mut self, user: usize) -> Vec<u8> {
        let v = self.users[user].memory.version();
        let any = 1 + self.random.below(LONGEST_ENTRY);
        let short = 1 + self.random.below(40);
        let (first, length) = match self.random.below(22) {
            20 => return self.schedule(),
            21 => (3, self.random.pick(&[1, 2, 8, 14, short, any])),
            0..12 => (1, self.random.pick(&[1, 2, 5, short, short, any, LONGEST_ENTRY - 1, LONGEST_ENTRY])),
            12..17 => {
                let within = 1 + self.random.below(v as usize + 2) as u32;
                let target: u32 = self.random.pick(&[0, 1, v, v + 1, within, within, within, u32::MAX]);
                return [&[2][..], &target.to_be_bytes()].concat();
            }
            17 => (2, self.random.pick(&[1, 2, 4, 6, 261, LONGEST_ENTRY])),
            18 => (self.random.pick(&[0, 3, 4, 129, 255]), short),
            _ => (1, self.random.pick(&[0, LONGEST_ENTRY + 1, 1 << 16, (1 << 16) + 1])),
        };
        let mut entry = self.random.bytes(length);
        entry.iter_mut().take(1).for_each(|byte| *byte = first);
        entry
    }

    /// A schedule that keeps the rules, or one with a byte changed.
    fn schedule(&mut self) -> Vec<u8> {
        let count = 1 + self.random.below(16);
        let mut entry = valid_entry(&mut self.random, count);
        if self.random.below(2) == 0 {
            let place = 1 + self.random.below(entry.len() - 1);
            entry[place] = self.random.below(256) as u8;
        }
        entry
    }
}

/// Small, at the end of the log, or anything.
fn last_position(random: &mut Random) -> u32 {
    match random.below(10) {
        0 => 0,
        1 => LAST_POSITION,
        2 => LAST_POSITION - 1,
        3..6 => 1 + random.below(70) as u32,
        _ => position(random),
    }
}

/// A version up to the last position and its digest; now and then a version above it.
fn keep(user: &mut Case, last: u32, table: &Table, random: &mut Random) {
    let any = random.below(last as usize + 1) as u32;
    let near = last.saturating_sub(random.below(20) as u32);
    let above = (last + 1 + random.below(3) as u32).min(LAST_POSITION);
    let version = random.pick(&[0, any, any, near, near, near, last, above]);
    user.memory.keep(version, table);
}
