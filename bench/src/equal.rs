//! The two programs on the same inputs, most of them spoilt at random: every number, answer, state and buffer must be the same.
//! So the plain program makes each check that the proved one makes.

mod lookups;
mod mixed;
mod partners;
mod platforms;
mod state;
mod tables;

use crate::pair::{our_joiner, our_message, our_taken, plain_joiner, OWN};
use crate::tables::{id_of, message, put_binding_header, Random};
use bench::plain::joiner::Joiner;
use bench::plain::{binding, message as plain_message};
use nyrkovash as ours;

/// So many inputs for each family of calls.
pub fn compare(count: usize, seed: u64) {
    let random = &mut Random(seed.max(1));
    joining(count, random);
    cutting(count, random);
    reading(count, random);
    partners::compare(count, random);
    tables::compare(count, random);
    lookups::compare(count, random);
    platforms::compare(count, random);
    mixed::compare(count, random);
}

fn spoil(bytes: &mut Vec<u8>, random: &mut Random) {
    match random.below(6) {
        0 => bytes.truncate(random.below(bytes.len() + 1)),
        1 => bytes.extend(random.bytes(1)),
        2 => {}
        _ => {
            for _ in 0..1 + random.below(2) {
                let at = random.below(bytes.len());
                bytes[at] = if random.below(2) == 0 {
                    random.next() as u8
                } else {
                    random.below(4) as u8
                };
            }
        }
    }
}

fn joining(count: usize, random: &mut Random) {
    let (mut state, mut rooms) = (ours::Joiner::default(), Vec::new());
    for i in 0..count {
        if i % 500 == 0 {
            let channels = 1 + random.below(32);
            let room = 24 + random.below(100);
            let mut ids: Vec<u16> = (0..channels).map(|_| random.below(4_200) as u16).collect();
            if random.below(2) == 0 {
                ids.sort_unstable();
            }
            let number = ours::setup(&mut state, &ids, room as u32, channels * room);
            match Joiner::new(&ids, room as u32, channels * room) {
                Ok(joiner) => {
                    assert_eq!(number, 0);
                    assert_eq!(state, our_joiner(&joiner));
                    rooms = vec![0; channels * room];
                }
                Err(refused) => assert_eq!(number, refused),
            }
            if number != 0 {
                continue;
            }
        }
        if rooms.is_empty() {
            continue;
        }
        let k = random.below(state.count as usize);
        let length = 5 + random.below(60);
        let mut datagram = random.bytes(length);
        let (part, ahead) = (random.below(4) as u8, [1, 1, 1, 0, 2][random.below(5)]);
        put_binding_header(
            &mut datagram,
            part,
            state.channel[k].sender as u16,
            (state.channel[k].last + ahead) as u16,
        );
        if random.below(8) == 0 {
            spoil(&mut datagram, random);
        }
        let mut given = state;
        if random.below(16) == 0 {
            // Only what the plain program's types can hold: its sender is of 16 bits and its `seen` a bool.
            match random.below(5) {
                0 => given.channel[k].sender = random.below(5_000) as u32,
                1 => given.channel[k].last = random.below(70_000) as u32,
                2 => given.channel[k].held = random.below(200) as u32,
                3 => given.count = random.below(33) as u32,
                _ => given.room = random.below(200) as u32,
            }
        }
        let mut joiner = plain_joiner(&given);
        let (mut answer, mut plain_rooms) = (ours::Taken::default(), rooms.clone());
        let number = ours::take(&mut given, &mut rooms, &datagram, &mut answer);
        match joiner.take(&mut plain_rooms, &datagram) {
            Ok(outcome) => {
                assert_eq!((number, answer), (0, our_taken(outcome)));
                state = given;
            }
            Err(refused) => assert_eq!(number, refused),
        }
        assert_eq!(given, our_joiner(&joiner));
        assert!(rooms == plain_rooms);
    }
}

fn cutting(count: usize, random: &mut Random) {
    let bytes = random.bytes(66_000);
    for _ in 0..count {
        let most = if random.below(20) == 0 { 66_000 } else { 300 };
        let (length, size) = (random.below(most), random.below(most / 3));
        let (sender, first) = (random.below(4_100), random.below(65_600));
        let piece = random.below(6);
        let mut out = vec![0; random.below(120)];
        let (mut plain_out, mut given) = (out.clone(), 0);
        let number = ours::cut(
            &bytes[..length],
            size,
            sender,
            first,
            piece,
            &mut out,
            &mut given,
        );
        match binding::cut(&bytes[..length], size, sender, first, piece, &mut plain_out) {
            Ok(written) => assert_eq!((number, given), (0, written)),
            Err(refused) => assert_eq!(number, refused),
        }
        assert_eq!(out, plain_out);
    }
}

fn any_message(random: &mut Random) -> Vec<u8> {
    let domain = random.below(2) as u8;
    let id = if random.below(2) == 0 {
        random.below(6) as u32
    } else {
        id_of(random.below(40) as u32) + random.below(4) as u32 / 3
    };
    let field = [0, 1, 2, id_of(1), id_of(2), u32::MAX][random.below(6)];
    let payload = match random.below(16) {
        0 => random.bytes(3),
        _ if domain == 0 && id == 2 => Vec::new(),
        _ => field.to_be_bytes().to_vec(),
    };
    let mut bytes = message(
        domain,
        [0, 1, 2, 3, 257, 300, u32::MAX][random.below(7)],
        id,
        random.next() as u32,
        &payload,
    );
    if random.below(4) == 0 {
        spoil(&mut bytes, random);
    }
    bytes
}

fn reading(count: usize, random: &mut Random) {
    for _ in 0..count {
        let bytes = any_message(random);
        let mut answer = ours::Message::default();
        let number = ours::read(OWN, &bytes, &mut answer);
        match plain_message::read(OWN, &bytes) {
            Ok(read) => assert_eq!((number, answer), (0, our_message(&read))),
            Err(refused) => assert_eq!(number, refused),
        }
    }
}
