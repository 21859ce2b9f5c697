//! Steps that take one thing through all its values or lengths while the rest stays valid; give_ups.rs has more of them.
use super::case::{Case, Shared, Step, Tally};
use super::honest::steps;
use super::plain_tree::leaf;
use super::world::{answer_of, MadeUp, Servers, Table};
use super::LEAST_REQUEST;
use crate::lms::Key;
use crate::plain_lms::{KEY, TREE};
use crate::plain_server::{label, lg, owner, ANSWER_HEADER, LAST_POSITION, LONGEST_ENTRY, MOST_USERS};
use crate::plain_server::{RECORD, STATUS};
use crate::sample::Random;
use crate::schedule::sweeps::valid_entry;
use crate::server::sweeps::positions;
use kozbrax::{CALL, KEPT};

pub const SERVERS: u32 = 4;

/// The version that is kept and the log's last position, where nothing else is said.
pub const VERSION: u32 = 5;
const LAST: u32 = 11;

pub struct Sweeps<'a> {
    pub tally: &'a mut Tally,
    pub random: Random,
    pub keys: &'a [Key],
    pub table: &'a Table,
}

impl<'a> Sweeps<'a> {
    pub fn run(&mut self) {
        for (name, sweep) in [
            ("every length of an answer to 2,600, at each step of each call", Self::answer_lengths as fn(&mut Self)),
            ("every value of each byte of an answer's header, at each step", Self::answer_bytes),
            ("a bit of each byte of an answer's body, at each step", Self::answer_bits),
            ("heads of a Status in and out of range", Self::heads),
            ("labels just near and just too far apart", Self::labels),
            ("Records of every author, and of another position, digest or log", Self::records),
            ("every length of the lent buffers, at starts and steps", Self::buffer_lengths),
            ("every value of each byte that is kept, at starts", Self::kept_at_starts),
            ("every value of each byte that is kept, at steps", Self::kept_at_steps),
            ("numbers of servers and own numbers", Self::numbers),
            ("every length of the user list to 66 users", Self::user_lengths),
            ("entries of every length and first byte, and strikes", Self::entries),
            ("calls of no kind", Self::call_kinds),
            ("what is kept of an open write, all combinations of some values", Self::kept_of_writes),
            ("give-ups at each position, level and server that is done, and their answers", Self::give_ups),
            ("settled at positions about the ends", Self::settled),
        ] {
            let before = self.tally.total();
            sweep(self);
            println!("  {name}: {}", self.tally.total() - before);
        }
        println!(
            "steps with a byte of the call altered, the library alone: {}, no other byte changed",
            self.call_bytes()
        );
    }

    pub fn shared(&mut self, servers: u32) -> Shared {
        let users = self.keys.iter().flat_map(|key| key.public.clone()).collect();
        Shared { servers, log: self.random.array(), users }
    }

    /// User 1 of a log with a version of the made-up log kept.
    pub fn user(&mut self, shared: &Shared, version: u32) -> Case<'a> {
        let mut case = Case::new(shared, 1, &self.keys[0], &mut self.random);
        case.memory.keep(version, self.table);
        case
    }

    fn made_up(&mut self, shared: &Shared, last: u32) -> MadeUp<'a> {
        let random = Random::new(self.random.next());
        MadeUp { table: self.table, shared: shared.clone(), author: (2, &self.keys[1]), last, random }
    }

    fn write(&mut self, length: usize) -> Step {
        let mut entry = self.random.bytes(length);
        entry[0] = 1;
        Step::Write { entry, randomizer: self.random.array() }
    }

    /// An honest call of each kind.
    fn starts(&mut self) -> [Step; 3] {
        [Step::Update, self.write(30), Step::Read { position: VERSION - 1 }]
    }

    /// These with a user of the version, and a give-up of an open write of which some Reserves are out.
    pub fn start_cases(&mut self, shared: &Shared) -> Vec<Case<'a>> {
        let user = self.user(shared, VERSION);
        let mut open = user.with(Step::GiveUp);
        open.memory.set_write([1, 0, 3, 0, 0, 0]);
        self.starts().into_iter().map(|step| user.with(step)).chain([open]).collect()
    }

    /// Each step of an honest Update, Write and Read, and of a give-up of the Write at its last Reserve: what it has before it,
    /// and the answer it is to take in.
    pub fn moments(&mut self) -> Vec<(Case<'a>, Vec<u8>)> {
        let shared = self.shared(SERVERS);
        let mut servers = self.made_up(&shared, LAST);
        let mut moments = Vec::new();
        for step in self.starts() {
            let mut case = self.user(&shared, VERSION);
            moments.extend(steps(self.tally, &mut case, step, &mut servers).0);
        }
        let reserving = |(case, _): &&(Case, Vec<u8>)| case.memory.write()[..4] == [1, 0, 5, 0];
        let mut case = moments.iter().find(reserving).expect("the last of five Reserves").0.clone();
        moments.extend(steps(self.tally, &mut case, Step::GiveUp, &mut servers).0);
        moments
    }

    pub fn take(&mut self, case: &Case, answer: Vec<u8>) {
        self.tally.compare(&case.with(Step::Take { answer }));
    }

    fn answer_lengths(&mut self) {
        for (case, honest) in self.moments() {
            let long = [&honest[..], &self.random.bytes(2600)].concat();
            for length in 0..=2600 {
                self.take(&case, long[..length].to_vec());
            }
        }
    }

    fn answer_bytes(&mut self) {
        for (case, honest) in self.moments() {
            for at in 0..ANSWER_HEADER {
                for value in 0..=255 {
                    let mut answer = honest.clone();
                    answer[at] = value;
                    self.take(&case, answer.clone());
                    answer.truncate(ANSWER_HEADER);
                    self.take(&case, answer);
                }
            }
        }
    }

    fn answer_bits(&mut self) {
        for (case, honest) in self.moments() {
            for at in ANSWER_HEADER..honest.len() {
                let mut answer = honest.clone();
                answer[at] ^= 1 << (at % 8);
                self.take(&case, answer);
            }
        }
    }

    /// A new user's Update before each of its Status answers, the ones before it being of fresh heads.
    fn fresh(&mut self, servers: u32) -> Vec<Case<'a>> {
        let shared = self.shared(servers);
        let mut case = self.user(&shared, 0);
        case.memory = self.tally.compare(&case.with(Step::Update)).memory;
        let mut cases = vec![case.clone()];
        for server in 1..servers {
            let answer = answer_of(STATUS, server, 0, 0, 0, &[0; 5]);
            case.memory = self.tally.compare(&case.with(Step::Take { answer })).memory;
            cases.push(case.clone());
        }
        cases
    }

    /// From the node's owner, and from another server.
    fn heads(&mut self) {
        for servers in [2, 4, 15, 16] {
            let fresh = self.fresh(servers);
            for p in positions() {
                for l in (0..=22).chain([32, 63, 64, 128, 255]) {
                    let is_node = (1..=LAST_POSITION).contains(&p) && u32::from(l) <= lg(p);
                    let own = if is_node { owner(p, l, servers) } else { 1 };
                    for server in [own, own % servers + 1] {
                        let body = [&p.to_be_bytes()[..], &[l]].concat();
                        self.take(&fresh[server as usize - 1], answer_of(STATUS, server, 0, 0, 0, &body));
                    }
                }
            }
        }
    }

    /// Each server's greatest label up to the one given, then one server's label before it: up to N - 1 apart, or more.
    fn labels(&mut self) {
        let last = label(LAST_POSITION, 20);
        for servers in 2..=16 {
            let shared = self.shared(servers);
            let case = self.user(&shared, 0);
            for greatest in (1..=3 * servers).chain([1000, last - 20, last - 1, last]) {
                let labels: Vec<u32> = (1..=servers).map(|server| latest(greatest, server, servers)).collect();
                for behind in 0..servers as usize {
                    let mut labels = labels.clone();
                    self.statuses(&case, &labels);
                    labels[behind] = labels[behind].saturating_sub(servers);
                    self.statuses(&case, &labels);
                }
            }
        }
    }

    /// An Update's Status answers with heads of these labels.
    fn statuses(&mut self, case: &Case<'a>, labels: &[u32]) {
        let mut case = case.clone();
        case.memory = self.tally.compare(&case.with(Step::Update)).memory;
        for (server, label) in (1..).zip(labels) {
            let (p, l) = node_of(*label);
            let body = [&p.to_be_bytes()[..], &[l]].concat();
            let answer = answer_of(STATUS, server, 0, 0, 0, &body);
            case.memory = self.tally.compare(&case.with(Step::Take { answer })).memory;
        }
    }

    fn records(&mut self) {
        for (case, honest) in self.moments() {
            if honest[2] != RECORD {
                continue;
            }
            let (header, body) = honest.split_at(ANSWER_HEADER);
            for author in (0u16..=70).chain([255, 256, 257, 258, 512, 65_535]) {
                self.take(&case, [header, &author.to_be_bytes(), &body[2..]].concat());
            }
            let digest = self.table.digest(LAST);
            let mut made_up = self.made_up(&case.shared, LAST);
            for (p, digest) in [(LAST, digest), (LAST - 1, digest), (LAST + 1, digest), (LAST, self.random.array())] {
                let body = made_up.record(p, &digest);
                self.take(&case, [header, &body].concat());
            }
            made_up.shared.log[15] ^= 1;
            let other_log = made_up.record(LAST, &digest);
            self.take(&case, [header, &other_log].concat());
        }
    }

    fn buffer_lengths(&mut self) {
        let shared = self.shared(SERVERS);
        let mut cases = self.start_cases(&shared);
        cases.extend(self.moments().into_iter().map(|(case, answer)| case.with(Step::Take { answer })));
        for case in cases {
            for length in (0..=64).chain(LEAST_REQUEST - 64..=LEAST_REQUEST + 10) {
                let mut case = case.clone();
                case.memory.request = self.random.bytes(length);
                self.tally.compare(&case);
            }
            for length in 0..=LONGEST_ENTRY + 2 {
                let mut case = case.clone();
                case.memory.entry = self.random.bytes(length);
                self.tally.compare(&case);
            }
            for tree in [0, 1, 32, 56, 65_472, 65_473, TREE - 2, TREE - 1, TREE] {
                self.tally.compare(&Case { tree, ..case.clone() });
            }
        }
    }

    /// With nothing open, with an open write at its Reserves or puts, with one that is signed, and with one whose give-up has
    /// begun.
    fn kept_at_starts(&mut self) {
        let shared = self.shared(SERVERS);
        let open = [[1, 0, 1, 0, 0, 0], [1, 0, 4, 1, 0, 0], [1, 1, 4, 1, 0, 0], [1, 0, 3, 0, 1, 0], [1, 0, 4, 0, 1, 2]];
        let closed = [[0; 6], [0, 1, 0, 0, 0, 0], [0, 1, 200, 1, 1, 200]];
        for of_write in open.into_iter().chain(closed) {
            for mut valid in self.start_cases(&shared) {
                valid.memory.set_write(of_write);
                if let Step::Write { entry, .. } = &valid.step {
                    valid.memory.path[..32].copy_from_slice(&leaf(1, entry));
                }
                self.kept_values(&valid, 0..KEPT);
                for number in [0u32, 1, 1022, 1023, 1024, 1025, 1 << 16, u32::MAX] {
                    let mut case = valid.clone();
                    case.memory.kept[36..40].copy_from_slice(&number.to_be_bytes());
                    self.tally.compare(&case);
                }
            }
        }
    }

    fn kept_values(&mut self, valid: &Case, places: std::ops::Range<usize>) {
        for at in places {
            let mut case = valid.clone();
            for value in 0..=255 {
                case.memory.kept[at] = value;
                self.tally.compare(&case);
            }
        }
    }

    /// All but the version's lower bytes, which give a call another sense; for a Write also each number about the last one.
    fn kept_at_steps(&mut self) {
        for (case, answer) in self.moments() {
            let mut valid = case.with(Step::Take { answer });
            if valid.memory.write() == [0; 6] {
                // Not looked at while nothing is open; with the mark of an open write it is one in range.
                valid.memory.kept[42] = 1;
            }
            self.kept_values(&valid, 0..1);
            self.kept_values(&valid, 4..KEPT);
            for number in [1022u32, 1023, 1024, 1025] {
                valid.memory.kept[36..40].copy_from_slice(&number.to_be_bytes());
                self.tally.compare(&valid);
            }
        }
    }

    /// At starts all of them, at steps those that are out of range.
    fn numbers(&mut self) {
        let far = [1 << 8, 1 << 16, 1 << 24, 1 << 31];
        let near_and_far: Vec<u32> = (0..=20).chain(far.iter().flat_map(|far| far - 1..far + 5)).collect();
        let shared = self.shared(SERVERS);
        for mut case in self.start_cases(&shared) {
            for &servers in &near_and_far {
                for &own in &near_and_far {
                    (case.shared.servers, case.own) = (servers, own);
                    self.tally.compare(&case);
                    self.tally.compare_settled(&case, 1);
                }
            }
        }
        for (case, answer) in self.moments() {
            let mut case = case.with(Step::Take { answer });
            for &number in near_and_far.iter().filter(|number| !(1..=16).contains(*number)) {
                (case.shared.servers, case.own) = (number, 1);
                self.tally.compare(&case);
                (case.shared.servers, case.own) = (SERVERS, number);
                self.tally.compare(&case);
            }
        }
    }

    fn user_lengths(&mut self) {
        let shared = self.shared(SERVERS);
        let long = self.random.bytes(66 * KEY);
        for mut case in self.start_cases(&shared) {
            for length in 0..=long.len() {
                case.shared.users = long[..length].to_vec();
                case.own = 1 + self.random.below(1 + length / KEY) as u32;
                self.tally.compare(&case);
                self.tally.compare_settled(&case, 1);
            }
            for count in [128, 255, 256, 257, 256 + MOST_USERS, 65_536, 65_537] {
                case.shared.users = vec![0; count * KEY];
                self.tally.compare(&case);
            }
        }
    }

    /// Starts of Writes; and, of the entries that a start takes, whole Writes of some.
    fn entries(&mut self) {
        let shared = self.shared(SERVERS);
        let user = self.user(&shared, VERSION);
        let lengths = (0..=1040).chain([1 << 16, (1 << 16) + 1, (1 << 16) + 5, (1 << 16) + 30]);
        for length in lengths {
            for first in 1..=3 {
                self.start_write(&user, first, length);
            }
        }
        for first in 0..=255 {
            for length in [1, 5, 6, LONGEST_ENTRY] {
                self.start_write(&user, first, length);
            }
        }
        for target in [0, 1, VERSION, VERSION + 1, LAST - 1, LAST, LAST + 1, 256 + LAST, 1 << 24, u32::MAX] {
            let entry = [&[2][..], &target.to_be_bytes()].concat();
            self.whole_write(&user, entry);
        }
        for length in [1, 2, 5, 63, 64, 1023, LONGEST_ENTRY] {
            let entry = [&[1][..], &self.random.bytes(length - 1)].concat();
            self.whole_write(&user, entry);
        }
        self.schedules(&user);
    }

    /// Schedules of each count of segments: whole Writes, and starts with each byte of them changed, with nothing open and with
    /// an open write of that entry, with a number left and with none.
    fn schedules(&mut self, user: &Case<'a>) {
        for count in 1..=16 {
            let entry = valid_entry(&mut self.random, count);
            self.whole_write(user, entry.clone());
            for place in 0..entry.len() {
                let mut entry = entry.clone();
                entry[place] ^= 1 + self.random.below(255) as u8;
                for (opened, number) in [(0, 0), (0, 1024), (1, 0), (1, 1024)] {
                    self.start_in(user, &entry, opened, number);
                }
            }
        }
    }

    /// A start of a Write of an entry with nothing open, or with an open write of it, and this many numbers used.
    fn start_in(&mut self, user: &Case, entry: &[u8], opened: u8, number: u32) {
        let mut case = user.with(Step::Write { entry: entry.to_vec(), randomizer: self.random.array() });
        case.memory.kept[36..40].copy_from_slice(&number.to_be_bytes());
        case.memory.set_write([opened, 0, opened, 0, 0, 0]);
        case.memory.path[..32].copy_from_slice(&leaf(1, entry));
        self.tally.compare(&case);
    }

    fn start_write(&mut self, user: &Case, first: u8, length: usize) {
        let mut entry = self.random.bytes(length);
        entry.iter_mut().take(1).for_each(|byte| *byte = first);
        self.tally.compare(&user.with(Step::Write { entry, randomizer: self.random.array() }));
    }

    /// To its end or its refusal.
    fn whole_write(&mut self, user: &Case<'a>, entry: Vec<u8>) {
        let mut case = user.clone();
        let mut servers = self.made_up(&case.shared, LAST);
        let mut after = self.tally.compare(&case.with(Step::Write { entry, randomizer: self.random.array() }));
        while after.asked.code == 0 && after.asked.ended == 0 {
            case.memory = after.memory;
            let answer = servers.answer(after.asked.server, &case.memory.request[..after.asked.length as usize]);
            after = self.tally.compare(&case.with(Step::Take { answer }));
        }
    }

    /// Kinds that are none, and for a Write and a give-up marks above 1.
    fn call_kinds(&mut self) {
        for (case, answer) in self.moments() {
            let valid = case.with(Step::Take { answer });
            for kind in (0..=255).filter(|kind| !(1..=4).contains(kind)) {
                self.no_call(&valid, 0, kind);
            }
            for opened in (2..=255).filter(|_| valid.memory.call[0] == 2) {
                self.no_call(&valid, 46, opened);
            }
            for waits in (2..=255).filter(|_| valid.memory.call[0] == 4) {
                self.no_call(&valid, 1, waits);
            }
        }
    }

    /// With a byte of the call altered, and then with a short request buffer and with a version out of range as well.
    fn no_call(&mut self, valid: &Case, at: usize, value: u8) {
        let mut case = valid.clone();
        case.memory.call[at] = value;
        self.tally.compare(&case);
        case.memory.request.truncate(LEAST_REQUEST - 1);
        self.tally.compare(&case);
        case.memory.kept[0] = 1;
        self.tally.compare(&case);
    }

    /// Document 01 does not say what such a call means; it has to leave all other memory alone, and all where it is refused.
    fn call_bytes(&mut self) -> usize {
        let mut count = 0;
        for (case, answer) in self.moments() {
            let valid = case.with(Step::Take { answer });
            for at in 1..CALL {
                for value in [0, 1, 2, 3, 20, 21, 39, 40, 57, 64, 127, 128, 254, 255] {
                    let mut case = valid.clone();
                    case.memory.call[at] = value;
                    case.library_alone();
                    count += 1;
                }
            }
        }
        count
    }

    fn settled(&mut self) {
        for servers in 2..=16 {
            let shared = self.shared(servers);
            let mut case = self.user(&shared, 0);
            for version in positions() {
                case.memory.kept[..4].copy_from_slice(&version.to_be_bytes());
                let near = version.saturating_sub(7)..=version.saturating_add(2);
                for position in near.chain([0, 1, 2, 3, LAST_POSITION, LAST_POSITION + 1, u32::MAX]) {
                    self.tally.compare_settled(&case, position);
                }
            }
        }
    }
}

/// The greatest label up to the one given that the server owns; 0 where there is none.
fn latest(greatest: u32, server: u32, servers: u32) -> u32 {
    (1..=greatest).rev().take(servers as usize).find(|label| label % servers == server % servers).unwrap_or(0)
}

/// The node of a label; (0, 0) for 0.
fn node_of(wanted: u32) -> (u32, u8) {
    if wanted == 0 {
        return (0, 0);
    }
    let (mut p, mut above) = (1, LAST_POSITION + 1);
    while above - p > 1 {
        let middle = (p + above) / 2;
        if label(middle, 0) <= wanted {
            p = middle;
        } else {
            above = middle;
        }
    }
    (p, (wanted - label(p, 0)) as u8)
}
