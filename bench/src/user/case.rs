//! One step with all that it is given: run on both sides, compared, and counted.
use super::world::Table;
use super::{Side, LEAST_REQUEST, LIBRARY, PLAIN};
use crate::lms::Key;
use crate::plain_lms::{SIGNATURE, TREE};
use crate::plain_server::LONGEST_ENTRY;
use crate::sample::Random;
use kozbrax::{Asked, Lent, Settings, Signing, CALL, HASHES, HELD, KEPT, PATH};

/// Bytes around each lent buffer that no side is given.
const MARGIN: usize = 16;

/// Where the bytes begin that are kept of an open write.
pub const OF_WRITE: usize = 40;

/// The lent buffers.
#[derive(Clone, PartialEq)]
pub struct Memory {
    pub kept: Vec<u8>,
    pub path: Vec<u8>,
    pub signature: Vec<u8>,
    pub call: Vec<u8>,
    pub hashes: Vec<u8>,
    pub held: Vec<u8>,
    pub request: Vec<u8>,
    pub entry: Vec<u8>,
}

#[derive(Clone)]
pub enum Step {
    Update,
    Write { entry: Vec<u8>, randomizer: [u8; 32] },
    Read { position: u32 },
    GiveUp,
    Take { answer: Vec<u8> },
}

/// What all users and servers of a log share.
#[derive(Clone)]
pub struct Shared {
    pub servers: u32,
    pub log: [u8; 16],
    pub users: Vec<u8>,
}

#[derive(Clone)]
pub struct Case<'a> {
    pub shared: Shared,
    pub own: u32,
    pub key: &'a Key,
    /// How much of the key's tree is lent.
    pub tree: usize,
    pub memory: Memory,
    pub step: Step,
}

/// What a step left.
#[derive(PartialEq)]
pub struct After {
    pub asked: Asked,
    pub memory: Memory,
}

impl Memory {
    /// Nothing kept and no call yet; every other byte is random.
    pub fn new(random: &mut Random) -> Memory {
        let (request, entry) = (LEAST_REQUEST + random.below(3), LONGEST_ENTRY + random.below(3));
        Memory {
            kept: vec![0; KEPT],
            path: random.bytes(PATH),
            signature: random.bytes(SIGNATURE),
            call: [&[0][..], &random.bytes(CALL - 1)].concat(),
            hashes: random.bytes(HASHES),
            held: random.bytes(HELD),
            request: random.bytes(request),
            entry: random.bytes(entry),
        }
    }

    /// A version of the made-up log with its digest.
    pub fn keep(&mut self, version: u32, table: &Table) {
        self.kept[..4].copy_from_slice(&version.to_be_bytes());
        if version > 0 {
            self.kept[4..36].copy_from_slice(&table.digest(version));
        }
    }

    /// Whether a write is open, whether it is signed, and how far it and its give-up have got: levels, put, begun, done.
    pub fn set_write(&mut self, of_write: [u8; 6]) {
        self.kept[OF_WRITE..].copy_from_slice(&of_write);
    }

    pub fn write(&self) -> [u8; 6] {
        self.kept[OF_WRITE..].try_into().expect("6 bytes")
    }

    pub fn version(&self) -> u32 {
        u32::from_be_bytes(self.kept[..4].try_into().expect("4 bytes"))
    }

    fn buffers(&mut self) -> [(&'static str, &mut Vec<u8>); 8] {
        [
            ("kept", &mut self.kept),
            ("path", &mut self.path),
            ("signature", &mut self.signature),
            ("call", &mut self.call),
            ("hashes", &mut self.hashes),
            ("held", &mut self.held),
            ("request", &mut self.request),
            ("entry", &mut self.entry),
        ]
    }

    fn with_margins(&self) -> Memory {
        let mut memory = self.clone();
        for (_, bytes) in memory.buffers() {
            *bytes = [&[0xa5; MARGIN], &bytes[..], &[0xa5; MARGIN]].concat();
        }
        memory
    }

    fn without_margins(mut self) -> Memory {
        for (_, bytes) in self.buffers() {
            *bytes = within(bytes).to_vec();
        }
        self
    }

    /// Between the margins.
    fn lent_within(&mut self) -> Lent<'_> {
        lent(self.buffers().map(|(_, bytes)| within(bytes)))
    }

    pub fn lent(&mut self) -> Lent<'_> {
        lent(self.buffers().map(|(_, bytes)| &mut bytes[..]))
    }

    fn print(&mut self, side: &str) {
        for (name, bytes) in self.buffers() {
            let figures: String = bytes.iter().map(|byte| format!("{byte:02x}")).collect();
            println!("{side}, {name} ({} bytes): {figures}", bytes.len());
        }
    }
}

fn within(bytes: &mut [u8]) -> &mut [u8] {
    let end = bytes.len() - MARGIN;
    &mut bytes[MARGIN..end]
}

fn lent([kept, path, signature, call, hashes, held, request, entry]: [&mut [u8]; 8]) -> Lent<'_> {
    Lent {
        kept: array(kept),
        path: array(path),
        signature: array(signature),
        call: array(call),
        hashes: array(hashes),
        held: array(held),
        request,
        entry,
    }
}

fn array<const N: usize>(bytes: &mut [u8]) -> &mut [u8; N] {
    bytes.try_into().expect("a buffer of a fixed length")
}

impl Shared {
    pub fn settings(&self, own: u32) -> Settings<'_> {
        Settings { servers: self.servers, own, log: &self.log, users: &self.users }
    }
}

impl<'a> Case<'a> {
    /// A new user of a log; no step is chosen yet.
    pub fn new(shared: &Shared, own: u32, key: &'a Key, random: &mut Random) -> Case<'a> {
        let memory = Memory::new(random);
        Case { shared: shared.clone(), own, key, tree: TREE, memory, step: Step::Update }
    }

    pub fn with(&self, step: Step) -> Case<'a> {
        Case { step, ..self.clone() }
    }

    /// The step on one side.
    pub fn step_on(&self, side: &Side, lent: &mut Lent) -> Asked {
        let settings = self.shared.settings(self.own);
        let signing = Signing { id: &self.key.id, seed: &self.key.seed, tree: &self.key.tree[..self.tree] };
        match &self.step {
            Step::Update => (side.update_start)(&settings, lent),
            Step::Write { entry, randomizer } => (side.write_start)(&settings, &signing, entry, randomizer, lent),
            Step::Read { position } => (side.read_start)(&settings, *position, lent),
            Step::GiveUp => (side.give_up_start)(&settings, lent),
            Step::Take { answer } => (side.take)(&settings, &signing, answer, lent),
        }
    }

    /// The step on one side; the memory that it left has its margins.
    fn run(&self, side: &Side) -> After {
        let mut memory = self.memory.with_margins();
        let asked = self.step_on(side, &mut memory.lent_within());
        After { asked, memory }
    }

    /// Panics where the library changes a margin, or where it refuses and changes anything.
    pub fn library_alone(&self) {
        let After { asked, memory } = self.run(&LIBRARY);
        let left = memory.clone().without_margins();
        assert!(left.with_margins() == memory, "a byte outside the lent buffers changed");
        assert!(asked.code == 0 || left == self.memory, "a refusal changed a lent buffer");
    }

    fn print(&self) {
        let Shared { servers, log, users } = &self.shared;
        println!("servers {servers} own {} tree {} log {log:02x?}\nusers {users:02x?}", self.own, self.tree);
        match &self.step {
            Step::Update => println!("start of an Update"),
            Step::Write { entry, randomizer } => {
                println!("start of a Write of {entry:02x?} with randomizer {randomizer:02x?}")
            }
            Step::Read { position } => println!("start of a Read of {position}"),
            Step::GiveUp => println!("start of a give-up"),
            Step::Take { answer } => println!("answer ({} bytes) {answer:02x?}", answer.len()),
        }
        self.memory.clone().print("before");
    }

    /// The step's row in the tally.
    fn row(&self) -> usize {
        match (&self.step, self.memory.call[0]) {
            (Step::Update, _) => 0,
            (Step::Write { .. }, _) => 2,
            (Step::Read { .. }, _) => 4,
            (Step::GiveUp, _) => 6,
            (Step::Take { .. }, 1) => 1,
            (Step::Take { .. }, 2) if self.memory.call[46] <= 1 => 3,
            (Step::Take { .. }, 3) => 5,
            (Step::Take { .. }, 4) if self.memory.call[1] <= 1 => 7,
            (Step::Take { .. }, _) => 8,
        }
    }
}

/// The kinds of steps, and the codes that documents 01 and 02 let each have.
const ROWS: [(&str, &[u32]); 10] = [
    ("Update, start", &[0, 18, 21, 22]),
    ("Update, answer", &[0, 10, 11, 12, 13, 14, 15, 16, 18, 21, 22]),
    ("Write, start", &[0, 17, 18, 19, 21, 22, 26]),
    ("Write, answer", &[0, 10, 11, 12, 13, 14, 15, 16, 17, 18, 19, 20, 21, 22]),
    ("Read, start", &[0, 21, 22, 24]),
    ("Read, answer", &[0, 10, 11, 21, 22, 23, 24]),
    ("give-up, start", &[0, 21, 22, 28]),
    ("give-up, answer", &[0, 10, 11, 21, 22, 28]),
    ("answer, no call", &[10, 21, 22]),
    ("settled", &[0, 22, 24]),
];
const SETTLED: usize = 9;

const CODES: [u32; 18] = [0, 10, 11, 12, 13, 14, 15, 16, 17, 18, 19, 20, 21, 22, 23, 24, 26, 28];

/// How often each code came up for each kind of step.
#[derive(Default)]
pub struct Tally {
    counts: [[usize; CODES.len()]; ROWS.len()],
}

impl Tally {
    /// Runs the step on both sides. Prints it whole and ends the program where they differ in anything.
    pub fn compare(&mut self, case: &Case) -> After {
        let [mut ours, mut plain] = [LIBRARY, PLAIN].map(|side| case.run(&side));
        if ours != plain {
            println!("the library and plain Rust differ on this step:");
            case.print();
            println!("library: {:?}\nplain: {:?}", ours.asked, plain.asked);
            for ((name, ours), (_, plain)) in ours.memory.buffers().iter().zip(plain.memory.buffers()) {
                println!("{name}: {}", if *ours == plain { "the same" } else { "they differ" });
            }
            ours.memory.print("library, with margins");
            plain.memory.print("plain, with margins");
            std::process::exit(1);
        }
        self.count(case.row(), ours.asked.code);
        After { asked: ours.asked, memory: ours.memory.without_margins() }
    }

    pub fn compare_settled(&mut self, case: &Case, position: u32) {
        let kept = case.memory.kept[..].try_into().expect("46 bytes");
        let [ours, plain] =
            [LIBRARY, PLAIN].map(|side| (side.settled)(&case.shared.settings(case.own), kept, position));
        if ours != plain {
            println!("settled, position {position}: library {ours:?}, plain {plain:?}");
            case.print();
            std::process::exit(1);
        }
        self.count(SETTLED, ours.code);
    }

    fn count(&mut self, row: usize, code: u32) {
        let place = CODES.iter().position(|known| *known == code).expect("a code of the user");
        self.counts[row][place] += 1;
    }

    pub fn print(&self) {
        println!("{:>16} {}", "code", CODES.map(|code| format!("{code:>7}")).concat());
        for ((name, _), counts) in ROWS.iter().zip(self.counts) {
            println!("{name:>16} {}", counts.map(|count| format!("{count:>7}")).concat());
        }
    }

    pub fn total(&self) -> usize {
        self.counts.iter().flatten().sum()
    }

    /// Panics where a code came up too seldom for a kind of step that may have it, or at all for one that may not.
    pub fn demand(&self, often: usize) {
        for ((name, codes), counts) in ROWS.iter().zip(self.counts) {
            for (code, count) in CODES.iter().zip(counts) {
                let may = codes.contains(code);
                assert!(!may || count >= often, "{name}: code {code} came up {count} times only");
                assert!(may || count == 0, "{name}: code {code}, which it cannot have");
            }
        }
    }
}
