//! Servers and a user in memory, for the tests.
#![allow(dead_code)]
use kozbrax::{Asked, Lent, Served, Settings, Signing};
use kozbrax::{ANSWER, CALL, ENTRY, HASHES, HEAD, HELD, KEPT, PATH, PUBLIC_KEY, REQUEST, SIGNATURE, TREE};

pub const LOG: [u8; 16] = *b"studio of a test";
pub const SERVERS: u32 = 2;

/// An LMS key, made from a number.
pub struct Key {
    pub seed: [u8; 32],
    pub id: [u8; 16],
    pub tree: Vec<u8>,
    pub public: [u8; PUBLIC_KEY],
}

impl Key {
    pub fn new(number: u8) -> Key {
        let (seed, id) = ([number; 32], [number + 100; 16]);
        let mut tree = vec![0; TREE];
        assert_eq!(kozbrax::lms_generate(&seed, &id, &mut tree), 0, "the key's tree");
        let mut public = [0; PUBLIC_KEY];
        assert_eq!(kozbrax::lms_public_key(&id, &tree, &mut public), 0, "the public key");
        Key { seed, id, tree, public }
    }

    pub fn signing(&self) -> Signing<'_> {
        Signing { id: &self.id, seed: &self.seed, tree: &self.tree }
    }
}

/// What a server keeps.
#[derive(Clone, PartialEq)]
pub struct Server {
    pub own: u32,
    pub head: [u8; HEAD],
    pub store: Vec<u8>,
    pub used: u64,
}

impl Server {
    pub fn new(own: u32) -> Server {
        Server { own, head: [0; HEAD], store: vec![0; 100_000], used: 0 }
    }

    /// One call with a buffer of this length for the answer.
    pub fn serve_into(&mut self, users: &[u8], request: &[u8], answer: &mut [u8]) -> Served {
        let settings = Settings { servers: SERVERS, own: self.own, log: &LOG, users };
        let served = kozbrax::server(&settings, &mut self.head, &mut self.store, self.used, request, answer);
        self.used = served.used;
        served
    }

    /// The answer to a request that the server accepts.
    pub fn answer(&mut self, users: &[u8], request: &[u8]) -> Vec<u8> {
        self.answer_with(users, request, 0)
    }

    /// The answer to a request, which has this code.
    pub fn answer_with(&mut self, users: &[u8], request: &[u8], code: u32) -> Vec<u8> {
        let mut answer = vec![0; ANSWER];
        let served = self.serve_into(users, request, &mut answer);
        assert_eq!(served.code, code, "server {}'s code", self.own);
        answer.truncate(served.answer as usize);
        answer
    }
}

/// The two servers of a new log.
pub fn servers() -> Vec<Server> {
    (1..=SERVERS).map(Server::new).collect()
}

/// All that a user keeps and lends.
#[derive(Clone, PartialEq)]
pub struct User {
    pub kept: [u8; KEPT],
    pub path: [u8; PATH],
    pub signature: [u8; SIGNATURE],
    pub call: [u8; CALL],
    pub hashes: [u8; HASHES],
    pub held: [u8; HELD],
    pub request: Vec<u8>,
    pub entry: Vec<u8>,
}

impl User {
    pub fn new() -> User {
        User {
            kept: [0; KEPT],
            path: [0; PATH],
            signature: [0; SIGNATURE],
            call: [0; CALL],
            hashes: [0; HASHES],
            held: [0; HELD],
            request: vec![0; REQUEST],
            entry: vec![0; ENTRY],
        }
    }

    pub fn lent(&mut self) -> Lent<'_> {
        Lent {
            kept: &mut self.kept,
            path: &mut self.path,
            signature: &mut self.signature,
            call: &mut self.call,
            hashes: &mut self.hashes,
            held: &mut self.held,
            request: &mut self.request,
            entry: &mut self.entry,
        }
    }

    pub fn version(&self) -> u32 {
        u32::from_be_bytes([self.kept[0], self.kept[1], self.kept[2], self.kept[3]])
    }

    pub fn update_start(&mut self, key: &Key) -> Asked {
        kozbrax::update_start(&settings(&key.public), &mut self.lent())
    }

    pub fn write_start(&mut self, key: &Key, entry: &[u8]) -> Asked {
        kozbrax::write_start(&settings(&key.public), &key.signing(), entry, &[7; 32], &mut self.lent())
    }

    pub fn read_start(&mut self, key: &Key, position: u32) -> Asked {
        kozbrax::read_start(&settings(&key.public), position, &mut self.lent())
    }

    pub fn give_up_start(&mut self, key: &Key) -> Asked {
        kozbrax::give_up_start(&settings(&key.public), &mut self.lent())
    }

    pub fn take(&mut self, key: &Key, answer: &[u8]) -> Asked {
        kozbrax::take(&settings(&key.public), &key.signing(), answer, &mut self.lent())
    }

    /// What the asked server answers to the request that is out.
    pub fn answer(&self, key: &Key, servers: &mut [Server], asked: Asked) -> Vec<u8> {
        let request = &self.request[..asked.length as usize];
        servers[asked.server as usize - 1].answer(&key.public, request)
    }

    /// Takes a call from its start, or from a step of it, to its end; each step has to give 0.
    pub fn finish(&mut self, key: &Key, servers: &mut [Server], mut asked: Asked) -> Asked {
        while asked.code == 0 && asked.ended == 0 {
            let answer = self.answer(key, servers, asked);
            asked = self.take(key, &answer);
        }
        assert_eq!((asked.code, asked.ended), (0, 1), "the call ends with 0");
        asked
    }
}

/// The settings of the one user.
pub fn settings(users: &[u8]) -> Settings<'_> {
    Settings { servers: SERVERS, own: 1, log: &LOG, users }
}
