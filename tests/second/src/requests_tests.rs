//! Requests and their responses worked out by hand: 02, request 1.

use crate::hex::bytes;
use crate::message::{read, Content};
use crate::pending::Pending;
use crate::platform::*;

/// Operations 5 (event), 7 and 8 (requests we send), 9 (requests we serve); nothing to pull.
const TABLE: &str = "0001 0000 0008 0000 0000 0000 0000 0004 00000005 0000 FFFF \
                     00000007 0002 0000 FFFF 00000008 0002 FFFF 0000 00000009 0003 0000 0000";

fn platform(next: u32, list: &[u64]) -> Platform {
    Platform {
        next,
        list: Pending::of(list),
        ..Platform::new(1)
    }
}

/// Place words: these numbers, all for ID 7.
fn numbered(numbers: impl IntoIterator<Item = u32>) -> Vec<u64> {
    let each = numbers.into_iter();
    each.map(|number| u64::from(number) << 32 | 7).collect()
}

fn send(platform: &mut Platform, id: u32) -> Result<u32, u8> {
    let sent = platform.send(&bytes(TABLE), id, 2, &[], 20);
    sent.map(|(number, _)| number)
}

fn hear(platform: &mut Platform, message: &str) -> Result<What, u8> {
    let heard = platform.call(&bytes(TABLE), &bytes(message), 48);
    heard.map(|answer| answer.what)
}

#[test]
fn asked_and_answered() {
    let mut one = Platform::new(1);
    let (number, request) = one.send(&bytes(TABLE), 7, 300, &[0xAB, 0xCD], 22).unwrap();
    assert_eq!(number, 1);
    assert_eq!(
        request,
        bytes("EC0A0201 00000001 00000007 00000002 00000001 ABCD")
    );
    let content = Content::Operation {
        id: 7,
        payload: vec![0xAB, 0xCD],
    };
    assert_eq!(read(2, &request).unwrap().content, content);
    assert_eq!(one.list.asked(1), Some((7, 300)));
    let response = "EC0A0201 0000012C 00000007 00000001 00000001 EF";
    let got = hear(&mut one, response).unwrap();
    let response_heard = What::Response {
        id: 7,
        sequence: 1,
        payload: vec![0xEF],
    };
    assert_eq!(got, response_heard);
    // Delivered once; the place is free again, and the next number is the one behind.
    assert_eq!(hear(&mut one, response), Err(61));
    assert_eq!(one, platform(2, &[]));
}

#[test]
fn what_is_not_the_response() {
    let mut one = platform(0, &[]);
    assert_eq!(send(&mut one, 7), Ok(1));
    assert_eq!(send(&mut one, 8), Ok(2));
    let before = one.clone();
    for message in [
        // Another sender, one with the same low byte, another number, 0, another request's.
        "EC0A0201 00000003 00000007 00000000 00000001",
        "EC0A0201 00000102 00000007 00000000 00000001",
        "EC0A0201 00000002 00000007 00000000 00000003",
        "EC0A0201 00000002 00000007 00000000 00000000",
        "EC0A0201 00000002 00000007 00000000 00000002",
        "EC0A0201 00000002 00000008 00000000 00000001",
    ] {
        assert_eq!(hear(&mut one, message), Err(61), "{message}");
    }
    // 1 to 9 come before: here 5 and 6.
    let longer = "EC0A0201 00000003 00000007 00000001 00000001";
    assert_eq!(hear(&mut one, longer), Err(5));
    let own = "EC0A0201 00000001 00000007 00000000 00000001";
    assert_eq!(hear(&mut one, own), Err(6));
    assert_eq!(one, before);
    // Kind 3 is an operation, with a number that is pending too; domain 0 is never 61.
    let served = hear(&mut one, "EC0A0201 00000002 00000009 00000000 00000001");
    assert!(matches!(served, Ok(What::Operation { id: 9, .. })));
    let unknown = hear(
        &mut one,
        "EC0A0200 00000002 00000003 00000004 00000001 00000007",
    );
    assert_eq!(unknown, Ok(What::Unknown(7)));
    for id in [5u32, 7, 9, 0xFFFF_FFFF] {
        let pull = format!("EC0A0200 00000002 00000004 00000004 00000001 {id:08X}");
        assert_eq!(hear(&mut one, &pull), Ok(What::PullUnknown(id)));
    }
    assert_eq!(one, before);
}

#[test]
fn which_number_is_free() {
    assert_eq!(send(&mut platform(0, &[]), 7), Ok(1));
    assert_eq!(send(&mut platform(u32::MAX, &[]), 7), Ok(u32::MAX));
    let mut round = platform(u32::MAX, &numbered([1, u32::MAX]));
    assert_eq!((send(&mut round, 7), round.next), (Ok(2), 3));
    let mut last = platform(u32::MAX, &[]);
    assert_eq!((send(&mut last, 7), last.next), (Ok(u32::MAX), 0));
    // 63 in a row, across the round and the 0: the next but them is taken, in the place left.
    let row = (0xFFFF_FFF0..=u32::MAX).chain(1..=47);
    let mut full = platform(0xFFFF_FFF0, &numbered(row));
    assert_eq!((send(&mut full, 7), full.next), (Ok(48), 49));
    assert_eq!((full.list.place(48), full.list.free()), (Some(63), None));
    assert_eq!((send(&mut full, 7), full.next), (Err(60), 49));
    // Passed over once, a number is not offered again before the round is over.
    let mut behind = platform(5, &numbered([5, 6]));
    assert_eq!(send(&mut behind, 7), Ok(7));
    assert!(behind.cancel(5));
    assert_eq!(send(&mut behind, 7), Ok(8));
    assert_eq!(behind.list.place(8), Some(0));
}

#[test]
fn the_order_of_send() {
    let mut full = platform(9, &numbered(100..164));
    let before = full.clone();
    assert_eq!(full.send(&bytes("0000"), 5, 2, &[], 0), Err(31));
    for id in [5, 6, 9, 0xFFFF_FFFF] {
        assert_eq!(full.send(&bytes(TABLE), id, 2, &[], 0), Err(62), "{id}");
    }
    assert_eq!(full.send(&bytes(TABLE), 7, 2, &[], 0), Err(60));
    assert_eq!(full, before);
    let mut fresh = platform(9, &[]);
    assert_eq!(fresh.send(&bytes(TABLE), 7, 2, &[1], 20), Err(10));
    assert_eq!(fresh, platform(9, &[]));
    assert!(fresh.send(&bytes(TABLE), 7, 2, &[1], 21).is_ok());
}

/// The pair at DOWN to UP takes the next two own numbers, though they are pending.
#[test]
fn the_pair_does_not_look_at_the_list() {
    let mut one = platform(5, &numbered([5, 6, 7]));
    let up = bytes("EC0A0200 00000002 00000001 00000004 00000000 00000001");
    let owed = one.call(&bytes(TABLE), &up, 48).unwrap().owed;
    assert_eq!((owed[19], owed[43], one.next), (5, 6, 7));
    assert_eq!(send(&mut one, 7), Ok(8));
    // Its going down and coming up leave the list as it is.
    let down = "EC0A0200 00000002 00000001 00000004 00000000 00000000";
    let list = one.list.clone();
    assert!(hear(&mut one, down).is_ok());
    assert_eq!(one.list, list);
}

#[test]
fn cancelled() {
    let mut one = platform(9, &numbered([3, 4]));
    let before = one.clone();
    assert!(!one.cancel(0) && !one.cancel(5) && one == before);
    assert!(one.cancel(3) && !one.cancel(3));
    assert_eq!(one, platform(9, &[0, 4 << 32 | 7]));
    assert_eq!((one.list.asked(3), one.list.asked(4)), (None, Some((7, 0))));
    // To ourselves: its response would be 6, so that only a cancel frees it.
    let (number, _) = one.send(&bytes(TABLE), 7, 1, &[], 20).unwrap();
    let own = "EC0A0201 00000001 00000007 00000000 00000009";
    assert_eq!((number, hear(&mut one, own)), (9, Err(6)));
    assert!(one.cancel(9));
}

/// A list made by hand: the first place that bears the number is meant, and a target too wide for
/// a platform is nobody's.
#[test]
fn forged_lists() {
    let mut words = vec![0; 128];
    (words[0], words[64]) = (7, 2);
    (words[1], words[65]) = (5 << 32 | 7, 2);
    (words[2], words[66]) = (5 << 32 | 8, 3);
    (words[3], words[67]) = (6 << 32 | 7, 1 << 32 | 2);
    let mut one = platform(5, &words);
    // Place 0 has an ID and a target, and is free.
    let at_0 = "EC0A0201 00000002 00000007 00000000 00000000";
    assert_eq!(hear(&mut one, at_0), Err(61));
    assert_eq!(one.list.asked(0), None);
    let second = "EC0A0201 00000003 00000008 00000000 00000005";
    assert_eq!(hear(&mut one, second), Err(61));
    assert_eq!(one.list.asked(5), Some((7, 2)));
    assert!(one.cancel(5));
    assert_eq!(one.list.asked(5), Some((8, 3)));
    let is_5 = |what: &What| matches!(what, What::Response { sequence: 5, .. });
    assert!(hear(&mut one, second).is_ok_and(|what| is_5(&what)));
    assert_eq!(one.list.asked(6), Some((7, 0x1_0000_0002)));
    let wide = "EC0A0201 00000002 00000007 00000000 00000006";
    assert_eq!(hear(&mut one, wide), Err(61));
    // What is free is overwritten whole.
    assert_eq!(send(&mut one, 8), Ok(5));
    assert_eq!(one.list.asked(5), Some((8, 2)));
    assert!(one.cancel(6));
    assert_eq!(one.list, Pending::of(&numbered_8_at_0()));
    // One number everywhere but in the last place: the next one is free.
    let mut same = platform(5, &[5 << 32; 63]);
    assert_eq!((send(&mut same, 7), send(&mut same, 7)), (Ok(6), Err(60)));
}

/// Number 5 for ID 8 and platform 2 in place 0.
fn numbered_8_at_0() -> Vec<u64> {
    let mut words = vec![0; 128];
    (words[0], words[64]) = (5 << 32 | 8, 2);
    words
}
