//! Two servers and one user: writes, an update, reads, a strike, a write that is given up, and damaged answers.
mod common;

use common::{servers, settings, Key, Server, User};
use kozbrax::{code, Served, Settings, SettledAnswer, ANSWER};

const FIRST: &[u8] = b"\x01first";
const SECOND: &[u8] = b"\x01second";
const STRIKE_OF_FIRST: &[u8] = &[2, 0, 0, 0, 1];

/// A user's log with these entries.
fn written(key: &Key, entries: &[&[u8]]) -> (User, Vec<Server>) {
    let (mut user, mut servers) = (User::new(), servers());
    for entry in entries {
        let asked = user.write_start(key, entry);
        user.finish(key, &mut servers, asked);
    }
    (user, servers)
}

#[test]
fn what_is_written_is_read() {
    let key = Key::new(3);
    let (mut user, mut servers) = written(&key, &[FIRST, SECOND, STRIKE_OF_FIRST]);
    assert_eq!(user.version(), 3, "the writer's version");
    for (position, entry) in [(1, FIRST), (2, SECOND), (3, STRIKE_OF_FIRST)] {
        let asked = user.read_start(&key, position);
        let read = user.finish(&key, &mut servers, asked);
        assert_eq!(read.author, 1, "the author of entry {position}");
        assert_eq!(&user.entry[..read.entry as usize], entry, "entry {position}");
    }
    let asked = user.read_start(&key, 4);
    assert_eq!(asked.code, code::POSITION_OUT_OF_RANGE, "there is no entry 4");
}

#[test]
fn an_update_brings_a_new_user_to_the_version() {
    let key = Key::new(4);
    let (writer, mut servers) = written(&key, &[FIRST, SECOND]);
    let mut other = User::new();
    let asked = other.update_start(&key);
    assert_eq!((asked.code, asked.server), (0, 1), "the first request is for server 1");
    other.finish(&key, &mut servers, asked);
    assert_eq!(other.version(), 2, "the version after the Update");
    assert_eq!(other.kept[4..36], writer.kept[4..36], "the digest of both users");
}

#[test]
fn an_operation_is_settled_after_its_wait() {
    let key = Key::new(5);
    let settled = |user: &User| kozbrax::settled(&settings(&key.public), &user.kept, 1);
    assert_eq!(kozbrax::wait(2, 1), Some(1), "Q(1, 2)");
    let (user, _) = written(&key, &[FIRST]);
    assert_eq!(settled(&user), SettledAnswer { code: 0, settled: 0 }, "with one entry");
    let (user, _) = written(&key, &[FIRST, SECOND]);
    assert_eq!(settled(&user), SettledAnswer { code: 0, settled: 1 }, "with two entries");
}

#[test]
fn any_position_may_be_asked_for_whether_it_is_settled() {
    let key = Key::new(13);
    let (user, _) = written(&key, &[FIRST]);
    for position in [0, 2, 1_048_577, u32::MAX - 1, u32::MAX] {
        for (servers, code) in [(2, code::POSITION_OUT_OF_RANGE), (255, code::SETTINGS_OUT_OF_RANGE), (300, 22)] {
            let settings = Settings { servers, ..settings(&key.public) };
            let answer = kozbrax::settled(&settings, &user.kept, position);
            assert_eq!(answer, SettledAnswer { code, settled: 0 }, "position {position}, {servers} servers");
        }
    }
}

#[test]
fn a_strike_of_a_later_position_is_refused() {
    let key = Key::new(6);
    let (mut user, mut servers) = written(&key, &[FIRST]);
    let mut asked = user.write_start(&key, &[2, 0, 0, 0, 2]);
    assert_eq!(asked.code, 0, "the Write starts");
    while asked.code == 0 && asked.ended == 0 {
        let answer = user.answer(&key, &mut servers, asked);
        asked = user.take(&key, &answer);
    }
    assert_eq!(asked.code, code::ENTRY_NOT_ALLOWED, "where the Update ends");
    assert_eq!(user.version(), 1, "the version");
}

/// Takes the answers of a Write until it is open and has had this many answers to its Reserves.
fn reserved(user: &mut User, key: &Key, servers: &mut [Server], entry: &[u8], answers: usize) {
    let mut asked = user.write_start(key, entry);
    while user.kept[40] == 0 {
        let answer = user.answer(key, servers, asked);
        asked = user.take(key, &answer);
    }
    for _ in 0..answers {
        let answer = user.answer(key, servers, asked);
        asked = user.take(key, &answer);
    }
    assert_eq!((asked.code, asked.ended), (0, 0), "the Write is open and a request is out");
}

#[test]
fn a_write_is_given_up_and_another_one_written() {
    let key = Key::new(14);
    let (mut user, mut servers) = written(&key, &[FIRST, SECOND]);
    let (kept, heads) = (user.kept, servers.iter().map(|server| server.head[..39].to_vec()).collect::<Vec<_>>());
    // Server 2 has accepted a Reserve, and the one to server 1 was not sent.
    reserved(&mut user, &key, &mut servers, b"\x01given up", 1);
    let asked = user.give_up_start(&key);
    assert_eq!((asked.code, asked.server), (0, 1), "the first request is for server 1");
    for start in [User::update_start, |user: &mut User, key: &Key| user.write_start(key, b"\x01given up")] {
        assert_eq!(
            start(&mut user, &key).code,
            code::WRITE_IS_OPEN,
            "once a give-up has begun it can only be repeated"
        );
    }
    let asked = user.give_up_start(&key);
    let request = user.request[..asked.length as usize].to_vec();
    let answer = servers[0].answer_with(&key.public, &request, code::NOT_THE_RESERVED_HEAD);
    let asked = user.take(&key, &answer);
    assert_eq!((asked.code, asked.server), (0, 2), "server 1 is done, and server 2 is next");
    user.finish(&key, &mut servers, asked);
    assert_eq!(user.kept, kept, "what is kept is as before the Write");
    assert!(servers.iter().zip(heads).all(|(server, head)| server.head[..39] == head), "the heads are as before");
    assert_eq!(user.give_up_start(&key).code, code::NO_WRITE_TO_GIVE_UP, "nothing is open");
    let asked = user.write_start(&key, b"\x01third");
    user.finish(&key, &mut servers, asked);
    assert_eq!(user.version(), 3, "the version after another Write");
}

#[test]
fn a_write_is_not_given_up_once_its_entry_was_handed_out() {
    let key = Key::new(15);
    let (mut user, mut servers) = written(&key, &[FIRST, SECOND]);
    reserved(&mut user, &key, &mut servers, b"\x01third", 3);
    assert_eq!(user.request[2], 6, "a PutOperation");
    assert_eq!(user.give_up_start(&key).code, code::NO_WRITE_TO_GIVE_UP, "with the PutOperation out");
    let again = user.write_start(&key, b"\x01third");
    assert_eq!((again.code, user.request[2]), (0, 5), "the Write is resumed at its first Reserve");
    assert_eq!(user.give_up_start(&key).code, code::NO_WRITE_TO_GIVE_UP, "at a Reserve of the resumed Write");
    user.finish(&key, &mut servers, again);
    assert_eq!(user.version(), 3, "the version after the resumed Write");
}

#[test]
fn a_used_length_above_the_store_is_refused() {
    let key = Key::new(12);
    let (mut user, mut servers) = (User::new(), servers());
    let asked = user.update_start(&key);
    let request = &user.request[..asked.length as usize];
    for used in [servers[0].store.len() as u64 + 1, 1 << 32, (1 << 32) + 1, u64::MAX] {
        servers[0].used = used;
        let mut answer = [0x5a; ANSWER];
        let served = servers[0].serve_into(&key.public, request, &mut answer);
        assert_eq!(served, Served { code: code::SETTINGS_OUT_OF_RANGE, answer: 0, used }, "used length {used}");
        assert_eq!(answer, [0x5a; ANSWER], "the answer's buffer stays with used length {used}");
    }
}

/// Takes a call to its end; before each answer the same with one byte changed is refused, and changes nothing. The codes of refusals.
fn finish_with_damage(user: &mut User, key: &Key, servers: &mut [Server], mut asked: kozbrax::Asked) -> Vec<u32> {
    let mut codes = Vec::new();
    while asked.ended == 0 {
        let answer = user.answer(key, servers, asked);
        for place in [0, answer.len() - 1] {
            let mut damaged = answer.clone();
            damaged[place] ^= 1;
            let before = user.clone();
            let refused = user.take(key, &damaged);
            if refused.code == 0 {
                // A node's hash is judged with the last one: go back to where the right answer is taken.
                *user = before;
                continue;
            }
            assert_eq!((refused.ended, refused.length), (1, 0), "a refusal asks for nothing");
            assert!(*user == before, "a refusal with {} leaves every byte as it was", refused.code);
            codes.push(refused.code);
        }
        asked = user.take(key, &answer);
        assert_eq!(asked.code, 0, "the right answer is taken after the damaged ones");
    }
    codes
}

#[test]
fn a_damaged_answer_is_refused_and_the_right_one_taken() {
    let key = Key::new(7);
    let (_, mut servers) = written(&key, &[FIRST, SECOND]);
    let mut user = User::new();
    let asked = user.update_start(&key);
    let codes = finish_with_damage(&mut user, &key, &mut servers, asked);
    assert_eq!(user.version(), 2, "the version after the Update");
    assert!(codes.contains(&code::NO_ANSWER_TO_THE_REQUEST), "another first byte: {codes:?}");
    assert!(codes.contains(&code::RECORD_NOT_SIGNED), "another last byte of the Record's signature: {codes:?}");
    assert!(codes.contains(&code::NOT_THE_RECORDS_DIGEST), "another last node: {codes:?}");
    let asked = user.read_start(&key, 2);
    let codes = finish_with_damage(&mut user, &key, &mut servers, asked);
    assert_eq!(&user.entry[..SECOND.len()], SECOND, "the entry that was read");
    assert!(codes.contains(&code::ENTRY_NOT_IN_THE_LOG), "another last answer of a Read: {codes:?}");
}
