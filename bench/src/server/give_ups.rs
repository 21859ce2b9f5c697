//! Sweeps about document 02, e: the earlier head, and requests that give the head up.
use super::case::Case;
use super::message::{levels, Message};
use super::sweeps::{positions, Sweeps, SERVERS};
use crate::plain_server::{owner, GIVE_UP, HEAD, LAST_POSITION, OPERATION, PLACE, RECORD_HEADER, REQUEST_HEADER};
use crate::plain_server::{PUT_NODE, RESERVE, STATUS};

impl Sweeps<'_> {
    /// With an earlier head of every place, by each of some authors, and marks of its being known from 0 to 255.
    pub fn earlier_heads(&mut self) {
        for kind in [STATUS, RESERVE, GIVE_UP] {
            let mut case = self.valid_at_8(kind);
            let count = case.count() as u16;
            for p in positions() {
                for l in [0, 1, 2, 3, 4, 19, 20, 21, 64, 255] {
                    for author in [0, 1, count, count + 1, 257, 65_535] {
                        case.set_earlier(p, l, author, &self.random.array());
                        self.tally.compare(&case);
                    }
                }
            }
            for (p, head) in positions().into_iter().flat_map(|p| [0, 1, 8, 9, LAST_POSITION].map(|head| (p, head))) {
                let mut case = self.valid_at_8(kind);
                case.set_earlier(p, 0, 1, &self.random.array());
                case.head[..4].copy_from_slice(&u32::to_be_bytes(head));
                for mark in [0, 1, 2, 128, 255] {
                    case.head[PLACE] = mark;
                    self.tally.compare(&case);
                }
            }
        }
    }

    /// With an earlier head that is known and with none; a Reserve of the head's position keeps it, one of a higher one does not.
    pub fn head_bytes(&mut self) {
        let mut higher = self.valid(RESERVE, 9, 0);
        let digest = self.random.array();
        higher.set_head(8, 2, 3, &digest);
        for valid in [self.valid_at_8(RESERVE), higher, self.valid_at_8(GIVE_UP)] {
            for known in [0, 1] {
                for at in 0..HEAD {
                    let mut case = valid.clone();
                    case.head[PLACE] = known;
                    for value in 0..=255 {
                        case.head[at] = value;
                        self.tally.compare(&case);
                    }
                }
            }
        }
    }

    pub fn give_up_bits(&mut self) {
        let valid = self.valid_at_8(GIVE_UP);
        for at in REQUEST_HEADER..valid.request.len() {
            for bit in 0..8 {
                let mut case = valid.clone();
                case.request[at] ^= 1 << bit;
                self.tally.compare(&case);
            }
        }
    }

    /// At each level of a position: the give-up is accepted, its repeat is 27, and so is a give-up of the head that came back;
    /// the Reserve can be sent again and given up again. And give-ups of a position beside it, of another author, and with no
    /// earlier head.
    pub fn give_ups(&mut self) {
        for p in positions().into_iter().filter(|p| (2..=LAST_POSITION).contains(p)) {
            for l in levels(GIVE_UP, p) {
                let valid = self.valid(GIVE_UP, p, l);
                let mut case = valid.clone();
                self.tally.answered(&mut case, 0);
                assert_eq!(case.head[..PLACE], valid.head[PLACE + 1..], "the earlier head comes back");
                assert_eq!(case.head[PLACE..], [0; PLACE + 1], "with none before it");
                self.tally.answered(&mut case, 27);
                self.of_head(&case, 27);
                case.request[2] = RESERVE;
                self.tally.answered(&mut case, 0);
                self.of_head(&case, 0);
                self.beside(&valid, p);
            }
        }
    }

    /// The give-up of the head itself, at the highest of its levels that the server owns.
    fn of_head(&mut self, case: &Case, code: u32) {
        let (p, author, body) = (case.head_position(), case.head_author(), case.head_digest().to_vec());
        let owned = levels(GIVE_UP, p).into_iter().rev().find(|l| p > 0 && owner(p, *l, SERVERS) == case.own);
        if let Some(l) = owned {
            let request = Message { kind: GIVE_UP, author, p, l, body }.request(&case.log);
            self.tally.answered(&mut Case { request, ..case.clone() }, code);
        }
    }

    fn beside(&mut self, valid: &Case, p: u32) {
        for author in [1u16, 2, 3] {
            for other in [p - 1, p, p + 1] {
                let mut case = valid.clone();
                case.request[19..21].copy_from_slice(&author.to_be_bytes());
                case.request[21..25].copy_from_slice(&other.to_be_bytes());
                self.tally.compare(&case);
                case.forget_earlier();
                self.tally.compare(&case);
            }
        }
    }

    /// Every length of its body to 40: such a record is not whole.
    pub fn stored_give_up(&mut self) {
        for kind in [PUT_NODE, GIVE_UP] {
            for length in 0..=40 {
                let mut case = self.valid_at_8(OPERATION);
                let body = self.random.bytes(length);
                let record = Message { kind, author: 1, p: 8, l: 1, body }.record();
                case.used = record.len() as u64;
                case.store[..record.len()].copy_from_slice(&record);
                let whole = self.tally.compare(&case).served.code != 22;
                assert_eq!(whole, kind == PUT_NODE && record.len() == RECORD_HEADER + 32, "which records are whole");
            }
        }
    }
}
