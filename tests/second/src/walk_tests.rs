//! Walks of many messages: the program for both issues beside the one for Issue 6 alone, and beside
//! each reader alone (02, request 8).

use crate::calls_messages::{good, spoilt, Fields};
use crate::calls_messages3;
use crate::hex::bytes;
use crate::mixed::{read, three_form, Message, SetUp};
use crate::partners::{self, Heard, Partners, Stamp};
use crate::partners_tests::{EVENTS_ONLY, TABLE};
use crate::pending::Pending;
use crate::platform::{self, Platform};
use crate::prng::Prng;
use crate::{message, message3};

/// Bytes of every kind: good and spoilt messages of both issues, and noise behind a mark.
fn some_bytes(rng: &mut Prng) -> Vec<u8> {
    let from = rng.pick(&[0, 1, 7, 9, 255, 256, 300]);
    let six = good(rng, from, &[1, 5, 6, 7, 9]);
    let three = calls_messages3::good(rng, from as u8, &[1, 5, 6, 7, 9], &[1, 2, 77]);
    match rng.below(8) {
        0 | 1 => six.bytes(),
        2 | 3 => spoilt(rng, 9, six),
        4 => three.bytes(),
        5 | 6 => calls_messages3::spoilt(rng, 9, three),
        _ => {
            let length = rng.below(40);
            let mut noise: Vec<u8> = rng.bytes(length).iter().map(|byte| byte % 20).collect();
            let mark = [0xEC, 0x0A, rng.pick(&[2, 2, 0x10, 0x11])];
            let kept = length.min(rng.below(4));
            noise[..kept].copy_from_slice(&mark[..kept]);
            noise
        }
    }
}

/// With nobody on Issue 3 every byte string reads as it did; with some, no bytes read under both
/// issues, and what reads under one of them reads so for everybody who has its sender there.
#[test]
fn beside_each_reader_alone() {
    let rng = &mut Prng::new(3);
    let (mut sixes, mut threes) = (0, 0);
    for _ in 0..40_000 {
        let bytes = some_bytes(rng);
        let six = message::read(9, &bytes);
        let three = message3::read(9, &bytes);
        let nobody = read(9, &SetUp::of(&[]), &bytes);
        assert_eq!(nobody, six.clone().map(Message::Six), "{bytes:?}");
        assert!(six.is_err() || three.is_err(), "{bytes:?}");
        let listed = [0, 1, 2, 7, 9].map(|one| if rng.chance(1, 2) { one } else { 255 });
        let set_up = SetUp::of(&listed);
        let mixed = read(9, &set_up, &bytes);
        if let Ok(got) = six {
            sixes += 1;
            let expected = match set_up.is_three(got.from) {
                true => Err(3),
                false => Ok(Message::Six(got)),
            };
            assert_eq!(mixed, expected, "{bytes:?}");
        } else if let Ok(got) = three {
            threes += 1;
            // Written again with its own fields it is the same bytes.
            let (domain, id) = (u64::from(bytes[2] % 16), bytes[4..8].try_into().unwrap());
            let (id, payload) = (u32::from_be_bytes(id), &bytes[24..]);
            let (from, number, room) = (got.from, got.sequence, bytes.len());
            let again = message3::write(from, got.time, domain, id, number, payload, room);
            assert_eq!(again.as_ref(), Ok(&bytes));
            let expected = match set_up.is_three(u32::from(got.from)) {
                true => Ok(Message::Three(got)),
                false => Err(3),
            };
            assert_eq!(mixed, expected, "{bytes:?}");
        } else {
            assert!(mixed.is_err(), "{bytes:?}");
        }
    }
    assert!(sixes > 5_000 && threes > 5_000, "{sixes} {threes}");
}

/// Whether nothing about a message is a three's: neither its form nor the number in bytes 4 to 7.
fn of_no_three(set_up: &SetUp, message: &[u8]) -> bool {
    let sender = message
        .get(4..8)
        .map_or([0; 4], |four| four.try_into().unwrap());
    !three_form(set_up, message) && !set_up.is_three(u32::from_be_bytes(sender))
}

/// Requests 1 to 16 under ID 7, to the platforms 0 to 15.
fn asked() -> Pending {
    let numbers = (1..17).map(|number| number << 32 | 7);
    let mut words: Vec<u64> = numbers.collect();
    words.resize(64, 0);
    words.extend(0..16);
    Pending::of(&words)
}

/// What may be the response to one of them, in either form.
fn a_response(rng: &mut Prng) -> Vec<u8> {
    let number = rng.below(18) as u32;
    let from = number.wrapping_sub(rng.pick(&[0, 1, 1, 1]));
    match rng.chance(1, 2) {
        true => Fields::new(1, from, 7, number, vec![]).bytes(),
        false => calls_messages3::Fields::new(1, from as u8, 7, number, vec![]).bytes(),
    }
}

/// How many messages of a walk came to what.
#[derive(Default)]
struct Met {
    answered: usize,
    refused: usize,
    /// Of a three, or in its name.
    threes: usize,
    responses: usize,
}

fn is_response(got: &Result<Heard, u8>) -> bool {
    match got {
        Ok(Heard::Six(answer)) => matches!(answer.what, platform::What::Response { .. }),
        Ok(Heard::Three(answer)) => matches!(answer.what, partners::What::Response { .. }),
        Err(_) => false,
    }
}

/// As before: what is of no three is answered as by the platform of Issue 6 alone, refusals and
/// states too, whatever the threes have said between; the others' messages move nothing unless they
/// are read. With nobody on Issue 3 that is every byte string.
fn walk(threes: &[u8], seed: u64) -> Met {
    let rng = &mut Prng::new(seed);
    let tables = [bytes(TABLE), bytes(EVENTS_ONLY), bytes("0001 00")];
    let mut old = Platform::new(9);
    let mut mixed = Partners::new(9, threes);
    let mut met = Met::default();
    for turn in 0..20_000 {
        if turn % 100 == 0 {
            old.list = asked();
            mixed.platform.list = old.list.clone();
        }
        let message = match rng.below(16) {
            0 => a_response(rng),
            _ => some_bytes(rng),
        };
        let table = &tables[rng.pick(&[0, 0, 0, 0, 0, 0, 0, 1, 1, 2])];
        let room = rng.pick(&[0, 24, 47, 48, 88, 88, 88]);
        let before = mixed.clone();
        let stamp = Stamp::default();
        let got = mixed.call(stamp, &[2 << 32 | 21], table, &message, room);
        met.responses += usize::from(is_response(&got));
        if of_no_three(&mixed.set_up, &message) {
            met.answered += usize::from(got.is_ok());
            met.refused += usize::from(got.is_err());
            let alone = old.call(table, &message, room).map(Heard::Six);
            assert_eq!(got, alone, "{message:?}");
            assert_eq!(mixed.services, before.services);
        } else {
            met.threes += 1;
            assert!(!matches!(got, Ok(Heard::Six(_))), "{message:?}");
            assert!(got.is_ok() || mixed == before, "{message:?}");
            old = mixed.platform.clone();
        }
        assert_eq!(mixed.platform, old, "{message:?}");
    }
    met
}

#[test]
fn with_nobody_on_issue_3() {
    let met = walk(&[], 8);
    assert!(met.answered > 3_000 && met.refused > 3_000);
    assert!(met.threes == 0 && met.responses > 30, "{}", met.responses);
}

#[test]
fn sixes_among_threes() {
    let met = walk(&[1, 7], 9);
    assert!(met.answered > 2_000 && met.refused > 3_000 && met.threes > 3_000);
    assert!(met.responses > 30, "{}", met.responses);
    // Platform 0 too: byte 3 of every platform message of Issue 6 is 0.
    let met = walk(&[0, 1, 2, 3, 9], 10);
    assert!(met.answered > 1_000 && met.threes > 3_000);
    assert!(met.responses > 30, "{}", met.responses);
}
