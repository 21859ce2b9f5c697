//! Servers that answer a user: the library's, or ones made up for a log of any length.
use super::case::Shared;
use super::plain_tree::{digest, leaf, pair, peaks, Hash, Node};
use crate::lms::Key;
use crate::plain_server::{lg, owner, ANSWER_MARK, HEAD, LAST_POSITION, LONGEST_ANSWER, LONGEST_ENTRY};
use crate::plain_server::{NODE, OPERATION, PLACE, RECORD, SIGNED_MARK, STATUS};
use crate::sample::Random;

pub trait Servers {
    /// The answer of a server to a request.
    fn answer(&mut self, server: u32, request: &[u8]) -> Vec<u8>;
}

struct Server {
    head: [u8; HEAD],
    store: Vec<u8>,
    used: u64,
}

/// The library's servers of one log.
pub struct Group {
    shared: Shared,
    servers: Vec<Server>,
}

impl Group {
    /// Fresh servers, each with a store of the length given.
    pub fn new(shared: &Shared, store: usize) -> Group {
        let server = |_| Server { head: [0; HEAD], store: vec![0; store], used: 0 };
        Group { shared: shared.clone(), servers: (0..shared.servers).map(server).collect() }
    }

    /// Position, level, author and digest of each head.
    pub fn heads(&self) -> Vec<[u8; PLACE]> {
        self.servers.iter().map(|server| server.head[..PLACE].try_into().expect("39 bytes")).collect()
    }

    /// The used part of each store.
    pub fn stores(&self) -> Vec<Vec<u8>> {
        self.servers.iter().map(|server| server.store[..server.used as usize].to_vec()).collect()
    }
}

impl Servers for Group {
    fn answer(&mut self, server: u32, request: &[u8]) -> Vec<u8> {
        let settings = self.shared.settings(server);
        let mut answer = vec![0; LONGEST_ANSWER];
        let Server { head, store, used } = &mut self.servers[server as usize - 1];
        let served = kozbrax::server(&settings, head, store, *used, request, &mut answer);
        assert!(served.code <= 9 || served.code == 27, "a server in order answers");
        *used = served.used;
        answer.truncate(served.answer as usize);
        answer
    }
}

/// A log of 1,048,576 entries with all its full nodes.
pub struct Table {
    levels: Vec<Vec<Hash>>,
}

/// The author, of a log with many, and the entry at a position of the made-up log.
pub fn entry_at(p: u32) -> (u16, Vec<u8>) {
    let mut random = Random::new(u64::from(p));
    let length = match random.below(1000) {
        0 => LONGEST_ENTRY,
        1 => 1,
        _ => 2 + random.below(30),
    };
    (random.next() as u16, random.bytes(length))
}

impl Table {
    pub fn new() -> Table {
        let leaf_at = |p| {
            let (author, entry) = entry_at(p);
            leaf(author, &entry)
        };
        let mut levels: Vec<Vec<Hash>> = vec![(1..=LAST_POSITION).map(leaf_at).collect()];
        while levels[levels.len() - 1].len() > 1 {
            let below = &levels[levels.len() - 1];
            levels.push(below.chunks_exact(2).map(|two| pair(&two[0], &two[1])).collect());
        }
        Table { levels }
    }

    pub fn node(&self, node: Node) -> Hash {
        self.levels[usize::from(node.l)][(node.p >> node.l) as usize - 1]
    }

    /// The digest of the first p entries, p above 0.
    pub fn digest(&self, p: u32) -> Hash {
        let known = peaks(p).into_iter().map(|peak| (peak, self.node(peak))).collect();
        digest(&known, 0, p)
    }
}

/// Servers that answer from the table as if its first `last` entries were the log. Every Reserve, put, Commit and give-up is accepted, and
/// kept nowhere.
pub struct MadeUp<'a> {
    pub table: &'a Table,
    pub shared: Shared,
    /// Who signs the Records: a user's number and key.
    pub author: (u16, &'a Key),
    pub last: u32,
    pub random: Random,
}

impl MadeUp<'_> {
    /// The node of the greatest label that the server owns, up to the last entry's; (0, 0) where it owns none.
    pub fn head(&self, server: u32) -> (u32, u8) {
        let nodes = (1..=self.last).rev().flat_map(|p| (0..=lg(p) as u8).rev().map(move |l| (p, l)));
        let owned = |(p, l): &(u32, u8)| owner(*p, *l, self.shared.servers) == server;
        nodes.take(16).find(owned).unwrap_or((0, 0))
    }

    /// Author, digest and a true signature.
    pub fn record(&mut self, p: u32, digest: &Hash) -> Vec<u8> {
        let (author, key) = self.author;
        let text = [&SIGNED_MARK[..], &self.shared.log, &p.to_be_bytes(), digest].concat();
        let signature = key.signed(self.random.below(1024) as u32, &self.random.array(), &text);
        [&author.to_be_bytes()[..], digest, &signature].concat()
    }
}

impl Servers for MadeUp<'_> {
    fn answer(&mut self, server: u32, request: &[u8]) -> Vec<u8> {
        let (kind, l) = (request[2], request[25]);
        let p = u32::from_be_bytes(request[21..25].try_into().expect("4 bytes"));
        let body = match kind {
            STATUS => {
                let (p, l) = self.head(server);
                [&p.to_be_bytes()[..], &[l]].concat()
            }
            NODE => self.table.node(Node { p, l }).to_vec(),
            OPERATION => {
                let (author, entry) = entry_at(p);
                [&author.to_be_bytes()[..], &entry].concat()
            }
            RECORD => self.record(p, &self.table.digest(p)),
            _ => Vec::new(),
        };
        answer_of(kind, server, p, l, 0, &body)
    }
}

/// Mark, kind, server, p, l, code, body.
pub fn answer_of(kind: u8, server: u32, p: u32, l: u8, code: u8, body: &[u8]) -> Vec<u8> {
    [&ANSWER_MARK[..], &[kind, server as u8], &p.to_be_bytes(), &[l, code], body].concat()
}
