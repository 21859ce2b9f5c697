//! Sweeps and honest runs about document 02, e: an open write is given up.
use super::case::{Case, Step, Tally};
use super::honest::{complete, steps, update_answers, write_answers, Log, MadeUpLog};
use super::sweeps::{Sweeps, SERVERS, VERSION};
use super::world::{answer_of, Servers};
use super::LEAST_REQUEST;
use crate::plain_server::{lg, owner, GIVE_UP, HASH, LAST_POSITION};
use crate::server::sweeps::positions;

/// The levels that each server was sent a Reserve for, the highest, in the servers' order.
fn told(servers: u32, p: u32, levels: u8) -> Vec<(u32, u8)> {
    let highest = |server: u32| (0..levels).rev().find(|l| owner(p, *l, servers) == server);
    (1..=servers).filter_map(|server| highest(server).map(|l| (server, l))).collect()
}

impl Sweeps<'_> {
    /// Opened, signed, levels, put, begun and done, at starts, at steps, and for settled; with a request buffer that is long
    /// enough or short.
    pub fn kept_of_writes(&mut self) {
        let shared = self.shared(SERVERS);
        let mut cases = self.start_cases(&shared);
        let moments = self.moments();
        let of_kind =
            |kind| moments.iter().rfind(|(case, _)| case.memory.call[0] == kind).expect("an honest call").clone();
        cases.extend([1, 2, 3, 4].map(of_kind).map(|(case, answer)| case.with(Step::Take { answer })));
        for mut case in cases {
            for of_write in combinations() {
                case.memory.set_write(of_write);
                self.tally.compare(&case);
                self.tally.compare_settled(&case, VERSION);
                let mut short = case.clone();
                short.memory.request.truncate(LEAST_REQUEST - 1);
                self.tally.compare(&short);
            }
        }
    }

    /// Each start has to ask the next server that was sent a Reserve, with the highest level that it was sent, or to close the
    /// write. Then answers to it: of that server with 0, 27 and another code, of another server, and one to a give-up that has no
    /// request out.
    pub fn give_ups(&mut self) {
        for servers in 2..=16 {
            let shared = self.shared(servers);
            let case = self.user(&shared, VERSION).with(Step::GiveUp);
            for p in positions().into_iter().filter(|p| (1..=LAST_POSITION).contains(p)) {
                for levels in 1..=lg(p) as u8 + 1 {
                    let mut case = case.clone();
                    case.memory.kept[..4].copy_from_slice(&(p - 1).to_be_bytes());
                    self.of_levels(&mut case, p, levels);
                }
            }
        }
    }

    /// With each server done, and where none is also before the give-up has begun.
    fn of_levels(&mut self, case: &mut Case, p: u32, levels: u8) {
        let servers = case.shared.servers;
        let told = told(servers, p, levels);
        for (begun, done) in [(0, 0)].into_iter().chain((0..=servers).map(|done| (1, done))) {
            case.memory.set_write([1, 0, levels, 0, begun, done as u8]);
            let after = self.tally.compare(case);
            let next = told.iter().find(|(server, _)| *server > done);
            let asked = (after.asked.code, after.asked.ended, after.asked.server);
            assert_eq!(asked, next.map_or((0, 1, 0), |(server, _)| (0, 0, *server)), "who is told next");
            let Some((server, l)) = next else { continue };
            let digest = &case.memory.path[HASH * lg(p) as usize..][..HASH];
            let request = &after.memory.request[..after.asked.length as usize];
            assert_eq!(request[21..], [&p.to_be_bytes()[..], &[*l], digest].concat(), "what it is told");
            let code = self.random.pick(&[0, 1, 2, 3, 4, 5, 6, 7, 8, 9, 10, 11, 21, 22, 26, 27, 27, 27, 28, 255]);
            let other = server % servers + 1;
            let case = Case { memory: after.memory, ..case.clone() };
            if done == 0 {
                let mut ended = case.clone();
                ended.memory.call[1] = 0;
                let answer = answer_of(GIVE_UP, *server, p, *l, 0, &[]);
                refused(self.tally, &ended, Step::Take { answer }, 10);
            }
            for (server, code) in [(*server, 0), (*server, 27), (*server, code), (other, 27)] {
                self.take(&case, answer_of(GIVE_UP, server, p, *l, code, &[]));
            }
        }
    }
}

/// Some values of each of the bytes that are kept of an open write; of four servers and a path with four levels.
fn combinations() -> Vec<[u8; 6]> {
    let mut all = vec![[0; 6]];
    let values: [&[u8]; 6] = [&[0, 1], &[0, 1, 2], &[0, 1, 3, 4, 5, 255], &[0, 1, 2], &[0, 1, 2], &[0, 1, 4, 5, 255]];
    for (at, values) in values.into_iter().enumerate() {
        let with = |of_write: [u8; 6], value| std::array::from_fn(|i| if i == at { value } else { of_write[i] });
        all = all.into_iter().flat_map(|of_write| values.iter().map(move |value| with(of_write, *value))).collect();
    }
    all
}

impl<'a> MadeUpLog<'a> {
    /// A Write at p that is dropped at each of its requests from the first Reserve on. Before the PutOperation it is given up,
    /// and then another entry is written; from there on a give-up is refused 28, also where the write was resumed and is back
    /// at its Reserves.
    pub fn give_up(&mut self, p: u32) {
        let (mut case, mut servers) = self.setup(p - 1, p - 1);
        let step = self.a_write();
        let (steps, _) = steps(self.tally, &mut case, step.clone(), &mut servers);
        for (case, answer) in steps.into_iter().filter(|(case, _)| case.memory.write()[0] == 1) {
            let put = case.memory.write()[3] == 1;
            if put {
                refused(self.tally, &case, Step::GiveUp, 28);
                let mut case = case.clone();
                case.memory = self.tally.compare(&case.with(step.clone())).memory;
                refused(self.tally, &case, Step::GiveUp, 28);
                continue;
            }
            let mut given_up = case.clone();
            let levels = given_up.memory.write()[2];
            let (_, answers) = complete(self.tally, &mut given_up, Step::GiveUp, &mut servers);
            assert_eq!(answers, told(case.shared.servers, p, levels).len(), "answers of a give-up at {p}");
            assert_eq!(
                given_up.memory.kept[..40],
                case.memory.kept[..40],
                "version, digest and number after a give-up"
            );
            assert_eq!(given_up.memory.write(), [0; 6], "what is open after a give-up");
            refused(self.tally, &given_up, Step::GiveUp, 28);
            self.cut(case, &step, &answer, &mut servers);
            self.write_again(given_up, &mut servers, p);
        }
    }

    /// One time in four, since a Write has many steps.
    fn write_again(&mut self, mut case: Case<'a>, servers: &mut dyn Servers, p: u32) {
        if self.random.chance(75) {
            return;
        }
        let step = self.a_write();
        let (_, answers) = complete(self.tally, &mut case, step, servers);
        let stated = update_answers(case.shared.servers, p - 1, p - 1) + write_answers(p);
        assert_eq!(answers, stated, "answers of a Write after a give-up");
        assert_eq!(case.memory.version(), p, "the version after it");
    }

    /// The give-up is dropped after each of its answers and started again: each server is asked once, and done with 0 or 27.
    fn cut(&mut self, mut case: Case<'a>, step: &Step, reserved: &[u8], servers: &mut dyn Servers) {
        let (writing, p) = (case.memory.call.clone(), case.memory.version() + 1);
        let mut left = told(case.shared.servers, p, case.memory.write()[2]);
        left.reverse();
        while let Some((server, l)) = left.pop() {
            let after = self.tally.compare(&case.with(Step::GiveUp));
            assert_eq!((after.asked.code, after.asked.server), (0, server), "a repeat asks who is not done");
            case.memory = after.memory;
            self.meanwhile(&case, step);
            let mut late = case.clone();
            late.memory.call.clone_from(&writing);
            refused(self.tally, &late, Step::Take { answer: reserved.to_vec() }, 10);
            for code in 1..=9 {
                refused(self.tally, &case, Step::Take { answer: answer_of(GIVE_UP, server, p, l, code, &[]) }, 11);
            }
            let code = if self.random.chance(50) { 27 } else { 0 };
            let answer = if code == 0 {
                servers.answer(server, &case.memory.request)
            } else {
                answer_of(GIVE_UP, server, p, l, code, &[])
            };
            let after = self.tally.compare(&case.with(Step::Take { answer: answer.clone() }));
            assert_eq!((after.asked.code, after.asked.ended == 1), (0, left.is_empty()), "a server that is done");
            case.memory = after.memory;
            refused(self.tally, &case, Step::Take { answer }, if left.is_empty() { 28 } else { 10 });
        }
        assert_eq!(case.memory.write(), [0; 6], "what is open after a give-up");
    }

    /// Once it has begun, Update and the Write of this or another entry are refused 18; a Read is not.
    fn meanwhile(&mut self, case: &Case, step: &Step) {
        let other = self.a_write();
        for start in [Step::Update, step.clone(), other] {
            refused(self.tally, case, start, 18);
        }
        let version = case.memory.version();
        let read = self.tally.compare(&case.with(Step::Read { position: version }));
        assert_eq!(read.asked.code, if version == 0 { 24 } else { 0 }, "a Read");
    }
}

/// The step is to be refused with this code.
fn refused(tally: &mut Tally, case: &Case, step: Step, code: u32) {
    assert_eq!(tally.compare(&case.with(step)).asked.code, code, "the code of a refusal");
}

impl Log<'_> {
    /// A user's Write that is dropped at one of its Reserves, which may not have been sent, and given up. All heads are then as
    /// before, and so is the version that others find.
    pub fn give_up(&mut self, user: usize) {
        let heads = self.group.heads();
        let p = self.written.len() as u32 + 1;
        let stop = 1 + self.random.below(lg(p) as usize + 1) as u8;
        let step = Step::Write { entry: vec![1; 30], randomizer: self.random.array() };
        let lost = self.random.chance(50);
        let case = &mut self.users[user];
        let mut after = self.tally.compare(&case.with(step));
        loop {
            assert_eq!(after.asked.code, 0, "an honest step was refused");
            case.memory = after.memory;
            let last = case.memory.write()[2] == stop;
            let request = &case.memory.request[..after.asked.length as usize];
            if last && lost {
                break;
            }
            let answer = self.group.answer(after.asked.server, request);
            if last {
                break;
            }
            after = self.tally.compare(&case.with(Step::Take { answer }));
        }
        let (_, answers) = complete(self.tally, case, Step::GiveUp, &mut self.group);
        assert_eq!(answers, told(case.shared.servers, p, stop).len(), "answers of a give-up");
        assert!(self.group.heads() == heads, "the heads after a give-up");
    }
}
