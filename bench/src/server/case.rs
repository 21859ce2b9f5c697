//! One call with all that it is given: run on both sides, compared, and counted.
use super::{Serve, LIBRARY, PLAIN};
use crate::plain_server::{COMMIT, GIVE_UP, HASH, HEAD, NODE, OPERATION, PLACE, PUT_NODE, PUT_OPERATION};
use crate::plain_server::{RECORD, RESERVE, STATUS};
use kozbrax::{Served, Settings};

/// Bytes around each lent buffer that no side is given.
const MARGIN: usize = 16;

pub const CODES: [u32; 13] = [0, 1, 2, 3, 4, 5, 6, 7, 8, 9, 21, 22, 27];

#[derive(Clone)]
pub struct Case {
    pub servers: u32,
    pub own: u32,
    pub log: [u8; 16],
    pub users: Vec<u8>,
    pub head: [u8; HEAD],
    pub store: Vec<u8>,
    pub used: u64,
    pub request: Vec<u8>,
    pub answer: Vec<u8>,
}

/// What a call left: its result, and the lent buffers with the margins around them.
#[derive(PartialEq)]
pub struct After {
    pub served: Served,
    head: Vec<u8>,
    store: Vec<u8>,
    answer: Vec<u8>,
}

fn with_margins(bytes: &[u8]) -> Vec<u8> {
    [&[0xa5; MARGIN], bytes, &[0xa5; MARGIN]].concat()
}

fn place(p: u32, l: u8, author: u16, digest: &[u8; HASH]) -> Vec<u8> {
    [&p.to_be_bytes()[..], &[l], &author.to_be_bytes(), digest].concat()
}

fn within(bytes: &mut [u8]) -> &mut [u8] {
    let end = bytes.len() - MARGIN;
    &mut bytes[MARGIN..end]
}

impl Case {
    pub fn settings(&self) -> Settings<'_> {
        Settings { servers: self.servers, own: self.own, log: &self.log, users: &self.users }
    }

    pub fn count(&self) -> usize {
        self.users.len() / crate::plain_lms::KEY
    }

    pub fn head_position(&self) -> u32 {
        u32::from_be_bytes(self.head[..4].try_into().expect("4 bytes"))
    }

    pub fn head_author(&self) -> u16 {
        u16::from_be_bytes([self.head[5], self.head[6]])
    }

    pub fn head_digest(&self) -> [u8; HASH] {
        self.head[7..PLACE].try_into().expect("32 bytes")
    }

    /// The head but for its earlier one, which stays.
    pub fn set_head(&mut self, p: u32, l: u8, author: u16, digest: &[u8; HASH]) {
        self.head[..PLACE].copy_from_slice(&place(p, l, author, digest));
    }

    /// The earlier head, which is known.
    pub fn set_earlier(&mut self, p: u32, l: u8, author: u16, digest: &[u8; HASH]) {
        self.head[PLACE] = 1;
        self.head[PLACE + 1..].copy_from_slice(&place(p, l, author, digest));
    }

    pub fn forget_earlier(&mut self) {
        self.head[PLACE..].fill(0);
    }

    pub fn run(&self, serve: Serve) -> After {
        let [mut head, mut store, mut answer] = [&self.head[..], &self.store, &self.answer].map(with_margins);
        let lent: &mut [u8; HEAD] = within(&mut head).try_into().expect("79 bytes");
        let served = serve(&self.settings(), lent, within(&mut store), self.used, &self.request, within(&mut answer));
        After { served, head, store, answer }
    }

    /// The state that a call left, for the next one.
    pub fn take_over(&mut self, mut after: After) {
        self.head = within(&mut after.head).try_into().expect("79 bytes");
        self.store = within(&mut after.store).to_vec();
        self.used = after.served.used;
    }

    fn print(&self) {
        println!("servers {} own {} used {}", self.servers, self.own, self.used);
        let fields: [(&str, &[u8]); 6] = [
            ("log", &self.log),
            ("users", &self.users),
            ("head", &self.head),
            ("store", &self.store),
            ("request", &self.request),
            ("answer", &self.answer),
        ];
        for (name, bytes) in fields {
            println!("{name} ({} bytes) {}", bytes.len(), hex(bytes));
        }
    }
}

impl After {
    fn print(&self, side: &str) {
        println!("{side}: code {} answer {} used {}", self.served.code, self.served.answer, self.served.used);
        for (name, bytes) in [("head", &self.head), ("store", &self.store), ("answer", &self.answer)] {
            println!("{side}, {name} with {MARGIN} bytes before and behind: {}", hex(bytes));
        }
    }
}

fn hex(bytes: &[u8]) -> String {
    bytes.iter().map(|byte| format!("{byte:02x}")).collect()
}

/// How often each code came up for each kind of request; kind 0 stands for every kind that is none.
#[derive(Default)]
pub struct Tally {
    counts: [[usize; CODES.len()]; NAMES.len()],
}

impl Tally {
    /// Runs the case on both sides. Prints it whole and ends the program where they differ in anything.
    pub fn compare(&mut self, case: &Case) -> After {
        let [ours, plain] = [LIBRARY, PLAIN].map(|serve| case.run(serve));
        if ours != plain {
            println!("the library and plain Rust differ on this call:");
            case.print();
            ours.print("library");
            plain.print("plain");
            std::process::exit(1);
        }
        let kind = case.request.get(2).copied().filter(|kind| *kind <= GIVE_UP).unwrap_or(0);
        let code = CODES.iter().position(|code| *code == ours.served.code).expect("a code of the server");
        self.counts[usize::from(kind)][code] += 1;
        ours
    }

    /// As `compare`, for a call that is to be accepted; the case then has the state that it left.
    pub fn accepted(&mut self, case: &mut Case) {
        self.answered(case, 0);
    }

    /// As `compare`, for a call that is to have this code; the case then has the state that it left.
    pub fn answered(&mut self, case: &mut Case, code: u32) {
        let after = self.compare(case);
        assert_eq!(after.served.code, code, "the code of a request of an honest log");
        case.take_over(after);
    }

    pub fn total(&self) -> usize {
        self.counts.iter().flatten().sum()
    }

    /// The table of counts.
    pub fn print(&self) {
        println!("{:>14} {}", "code", CODES.map(|code| format!("{code:>7}")).concat());
        for (kind, name) in NAMES {
            println!("{name:>14} {}", self.counts[usize::from(kind)].map(|count| format!("{count:>7}")).concat());
        }
        println!("{:>14} {}", "all", self.by_code().map(|count| format!("{count:>7}")).concat());
    }

    fn by_code(&self) -> [usize; CODES.len()] {
        std::array::from_fn(|code| self.counts.iter().map(|row| row[code]).sum())
    }

    /// Panics where a code came up too seldom, in all or for a kind that may have it, or came up for one that may not.
    pub fn demand(&self, in_all: usize, for_a_kind: usize) {
        for (code, count) in CODES.iter().zip(self.by_code()) {
            assert!(count >= in_all, "code {code} came up {count} times only: the comparison shows too little");
        }
        for (kind, name) in NAMES {
            for (code, count) in CODES.iter().zip(self.counts[usize::from(kind)]) {
                if codes_of(kind).contains(code) {
                    assert!(count >= for_a_kind, "code {code} of {name} came up {count} times only");
                } else {
                    assert_eq!(count, 0, "code {code} of {name}, which cannot have it");
                }
            }
        }
    }
}

const NAMES: [(u8, &str); 10] = [
    (0, "no kind"),
    (STATUS, "Status"),
    (NODE, "Node"),
    (OPERATION, "Operation"),
    (RECORD, "Record"),
    (RESERVE, "Reserve"),
    (PUT_OPERATION, "PutOperation"),
    (PUT_NODE, "PutNode"),
    (COMMIT, "Commit"),
    (GIVE_UP, "give-up"),
];

/// Document 01, 'Server', and document 02, e: the codes that a request of this kind may have.
fn codes_of(kind: u8) -> &'static [u32] {
    match kind {
        0 => &[1, 21, 22],
        STATUS => &[0, 1, 2, 21, 22],
        NODE | OPERATION | RECORD => &[0, 1, 2, 3, 8, 21, 22],
        RESERVE => &[0, 1, 2, 3, 4, 21, 22],
        COMMIT => &[0, 1, 2, 3, 5, 6, 7, 9, 21, 22],
        GIVE_UP => &[0, 1, 2, 3, 21, 22, 27],
        _ => &[0, 1, 2, 3, 5, 6, 9, 21, 22],
    }
}
