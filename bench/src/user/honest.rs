//! Calls without a fault: each has to end with 0 after the count of answers that document 01 states.
use super::case::{After, Case, Shared, Step, Tally};
use super::plain_tree::{cover, peaks};
use super::world::{entry_at, Group, MadeUp, Servers, Table};
use crate::lms::Key;
use crate::plain_server::{lg, LAST_POSITION, LONGEST_ENTRY};
use crate::sample::Random;
use crate::server::message::position;
use crate::server::sweeps::positions;

/// A start and its answers to the end; the case then has what they left. What each answer found, with it, and the last step.
pub fn steps<'a>(
    tally: &mut Tally,
    case: &mut Case<'a>,
    step: Step,
    servers: &mut dyn Servers,
) -> (Vec<(Case<'a>, Vec<u8>)>, After) {
    let mut after = tally.compare(&case.with(step));
    let mut steps = Vec::new();
    loop {
        assert_eq!(after.asked.code, 0, "an honest step was refused");
        case.memory = after.memory.clone();
        if after.asked.ended == 1 {
            return (steps, after);
        }
        let answer = servers.answer(after.asked.server, &case.memory.request[..after.asked.length as usize]);
        steps.push((case.clone(), answer.clone()));
        after = tally.compare(&case.with(Step::Take { answer }));
    }
}

/// The last of these steps and the count of answers.
pub fn complete(tally: &mut Tally, case: &mut Case, step: Step, servers: &mut dyn Servers) -> (After, usize) {
    let (steps, after) = steps(tally, case, step, servers);
    (after, steps.len())
}

/// The answers of an Update from v to w, of a Write at p behind it, and of a Read of i in v.
pub fn update_answers(servers: u32, v: u32, w: u32) -> usize {
    servers as usize + if w == 0 { 0 } else { 1 + cover(v, w).len() }
}

pub fn write_answers(p: u32) -> usize {
    lg(p) as usize + 1 + 1 + p.trailing_zeros() as usize + 1
}

pub fn read_answers(i: u32, v: u32) -> usize {
    let own = peaks(v).into_iter().find(|peak| i <= peak.p).expect("a position of the log");
    usize::from(own.l) + v.count_ones() as usize
}

/// On a made-up log: Updates, Reads and Writes from small positions, from those about the powers of two, and any.
pub struct MadeUpLog<'a> {
    pub tally: &'a mut Tally,
    pub random: Random,
    pub keys: &'a [Key],
    pub table: &'a Table,
}

impl<'a> MadeUpLog<'a> {
    pub fn run(&mut self) {
        for (v, w) in (0..=24).flat_map(|w| (0..=w).map(move |v| (v, w))) {
            self.update(v, w);
        }
        for (i, v) in (1..=40).flat_map(|v| (1..=v).map(move |i| (i, v))) {
            self.read(i, v);
        }
        for p in (1..=40).chain(positions().into_iter().filter(|p| (1..=LAST_POSITION).contains(p))) {
            let v = self.random.below(p as usize) as u32;
            self.write(v, p);
            self.resume(p);
            self.give_up(p);
        }
        self.update(1, LAST_POSITION - 1);
        for _ in 0..500 {
            let [a, b] = [position(&mut self.random), position(&mut self.random)];
            self.update(a.min(b), a.max(b));
            self.read(a.min(b), a.max(b));
        }
    }

    /// Servers of 2 to 16 with the log up to the last position, and a user that keeps the version.
    pub fn setup(&mut self, version: u32, last: u32) -> (Case<'a>, MadeUp<'a>) {
        let servers = 2 + self.random.below(15) as u32;
        let users = self.keys.iter().flat_map(|key| key.public.clone()).collect();
        let shared = Shared { servers, log: self.random.array(), users };
        let mut case = Case::new(&shared, 1, &self.keys[0], &mut self.random);
        case.memory.keep(version, self.table);
        let random = Random::new(self.random.next());
        (case, MadeUp { table: self.table, shared, author: (2, &self.keys[1]), last, random })
    }

    fn update(&mut self, v: u32, w: u32) {
        let (mut case, mut servers) = self.setup(v, w);
        let (_, answers) = complete(self.tally, &mut case, Step::Update, &mut servers);
        assert_eq!(answers, update_answers(case.shared.servers, v, w), "answers of an Update from {v} to {w}");
        assert_eq!(case.memory.version(), w, "the version after an Update from {v} to {w}");
    }

    fn read(&mut self, i: u32, v: u32) {
        let (mut case, mut servers) = self.setup(v, v);
        let (after, answers) = complete(self.tally, &mut case, Step::Read { position: i }, &mut servers);
        assert_eq!(answers, read_answers(i, v), "answers of a Read of {i} in {v}");
        let (author, entry) = entry_at(i);
        assert_eq!(after.asked.author, u32::from(author), "the author read");
        assert_eq!(case.memory.entry[..after.asked.entry as usize], entry[..], "the entry read");
    }

    pub fn a_write(&mut self) -> Step {
        Step::Write { entry: [&[1][..], &self.random.bytes(40)].concat(), randomizer: self.random.array() }
    }

    fn write(&mut self, v: u32, p: u32) {
        let (mut case, mut servers) = self.setup(v, p - 1);
        let step = self.a_write();
        let (_, answers) = complete(self.tally, &mut case, step, &mut servers);
        let stated = update_answers(case.shared.servers, v, p - 1) + write_answers(p);
        assert_eq!(answers, stated, "answers of a Write at {p} from {v}");
        assert_eq!(case.memory.version(), p, "the version after a Write");
    }

    /// A Write at p that is dropped after each of its answers from the first Reserve on, and resumed each time: it ends after
    /// the answers of an open write, with one signature made. Each of its steps also with no number left.
    fn resume(&mut self, p: u32) {
        let (mut case, mut servers) = self.setup(p - 1, p - 1);
        let step = self.a_write();
        let (steps, _) = steps(self.tally, &mut case, step.clone(), &mut servers);
        for (case, answer) in steps.into_iter().filter(|(case, _)| case.memory.kept[40] == 1) {
            self.resumed(&case, &step, &mut servers, p);
            let mut spent = case.with(Step::Take { answer });
            spent.memory.kept[36..40].copy_from_slice(&1024u32.to_be_bytes());
            self.tally.compare(&spent);
        }
    }

    fn resumed(&mut self, case: &Case<'a>, step: &Step, servers: &mut MadeUp, p: u32) {
        let Step::Write { entry, .. } = step else { unreachable!("a Write is resumed") };
        let mut case = case.clone();
        let signed = case.memory.kept[41] == 1;
        let signature = case.memory.signature.clone();
        let step = Step::Write { entry: entry.clone(), randomizer: self.random.array() };
        let (_, answers) = complete(self.tally, &mut case, step, servers);
        assert_eq!(answers, write_answers(p), "answers of a resumed Write");
        assert_eq!(case.memory.version(), p, "the version after a resumed Write");
        assert_eq!(case.memory.kept[36..40], [0, 0, 0, 1], "the next number after a resumed Write");
        assert_eq!(signed, case.memory.signature == signature, "a signature that was made is kept");
    }
}

/// Logs of 2 to 16 servers, the library's.
pub fn run(tally: &mut Tally, keys: &[Key], seed: u64) {
    for servers in 2..=16 {
        Log::new(tally, keys, servers, seed).run();
    }
}

pub struct Log<'a> {
    pub tally: &'a mut Tally,
    pub random: Random,
    pub users: Vec<Case<'a>>,
    pub group: Group,
    pub written: Vec<(u16, Vec<u8>)>,
}

impl<'a> Log<'a> {
    pub fn new(tally: &'a mut Tally, keys: &'a [Key], servers: u32, seed: u64) -> Log<'a> {
        let mut random = Random::new(seed);
        let users = keys.iter().flat_map(|key| key.public.clone()).collect();
        let shared = Shared { servers, log: random.array(), users };
        let users = (1..).zip(keys).map(|(own, key)| Case::new(&shared, own, key, &mut random)).collect();
        let group = Group::new(&shared, 200_000);
        Log { tally, random, users, group, written: Vec::new() }
    }

    fn run(&mut self) {
        for _ in 1..=33 {
            let user = self.random.below(self.users.len());
            self.update(user);
            let user = self.random.below(self.users.len());
            self.give_up(user);
            let user = self.random.below(self.users.len());
            self.write(user);
            self.read(user);
            for position in 0..=self.written.len() as u32 + 1 {
                self.tally.compare_settled(&self.users[user], position);
            }
        }
    }

    pub fn stores(&self) -> Vec<Vec<u8>> {
        self.group.stores()
    }

    fn update(&mut self, user: usize) {
        let case = &mut self.users[user];
        let (v, w) = (case.memory.version(), self.written.len() as u32);
        let (_, answers) = complete(self.tally, case, Step::Update, &mut self.group);
        assert_eq!(answers, update_answers(case.shared.servers, v, w), "answers of an Update");
        assert_eq!(case.memory.version(), w, "the version after an Update");
    }

    pub fn write(&mut self, user: usize) {
        let length = 1 + self.random.below(LONGEST_ENTRY);
        let mut entry = self.random.bytes(length);
        entry[0] = 1;
        let case = &mut self.users[user];
        let (v, w) = (case.memory.version(), self.written.len() as u32);
        let step = Step::Write { entry: entry.clone(), randomizer: self.random.array() };
        let (_, answers) = complete(self.tally, case, step, &mut self.group);
        assert_eq!(answers, update_answers(case.shared.servers, v, w) + write_answers(w + 1), "answers of a Write");
        assert_eq!(case.memory.version(), w + 1, "the version after a Write");
        self.written.push((case.own as u16, entry));
    }

    fn read(&mut self, user: usize) {
        let case = &mut self.users[user];
        let v = case.memory.version();
        let i = 1 + self.random.below(v as usize) as u32;
        let (after, answers) = complete(self.tally, case, Step::Read { position: i }, &mut self.group);
        assert_eq!(answers, read_answers(i, v), "answers of a Read");
        let (author, entry) = &self.written[i as usize - 1];
        assert_eq!(after.asked.author, u32::from(*author), "the author read");
        assert_eq!(case.memory.entry[..after.asked.entry as usize], entry[..], "the entry read");
    }
}
