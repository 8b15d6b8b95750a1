//! Joining on datagrams worked out by hand: outcomes and the bytes that are delivered.

use crate::hex::bytes;
use crate::joiner::*;

/// Sender 1 in a room of 24.
fn one(datagrams: &[&str]) -> Vec<Fate> {
    let datagrams: Vec<Vec<u8>> = datagrams.iter().map(|text| bytes(text)).collect();
    let lent: Vec<&[u8]> = datagrams.iter().map(Vec::as_slice).collect();
    fates(
        &Setup {
            room: 24,
            senders: vec![1, 0x102],
        },
        &lent,
    )
}

fn delivered(missed: u32, text: &str) -> Fate {
    Fate::Delivered {
        missed,
        message: bytes(text),
    }
}

/// 000, Tables 14 to 16: platform 1, channel 2, counters 302 to 304, begin, middle, end.
#[test]
fn header_of_000() {
    let got = one(&["0102 012E 41", "1102 012F 42", "2102 0130 43"]);
    let held = |bytes| Fate::Held { missed: 0, bytes };
    assert_eq!(got, [held(1), held(2), delivered(0, "414243")]);
}

/// Lines show lengths only; here the bytes that are delivered.
#[test]
fn bytes_are_those_of_the_pieces_in_order() {
    let got = one(&[
        "0001 0000 4142",
        "2001 0001 43",
        "3001 0002 44",
        "0001 0003 45*23",
        "2001 0004 46",
    ]);
    assert_eq!(got[1], delivered(0, "414243"));
    assert_eq!(got[2], delivered(0, "44"));
    assert_eq!(got[4], delivered(0, "45*23 46"));
}

/// The fault that the project began with: no tail of another message on a beginning.
#[test]
fn a_beginning_that_is_dropped_leaves_no_byte() {
    let got = one(&[
        "0001 0000 41*20",
        "0001 0001 4242",
        "1001 0002 43",
        "2001 0003 44",
    ]);
    assert_eq!(got[3], delivered(0, "42424344"));
    let got = one(&[
        "0001 0000 41",
        "2001 0002 42",
        "0001 0003 43",
        "2001 0004 44",
    ]);
    assert_eq!(got[1], Fate::Stray { missed: 1 });
    assert_eq!(got[3], delivered(0, "4344"));
}

#[test]
fn a_repeat_adds_no_byte_and_takes_none() {
    let got = one(&[
        "0001 0000 41",
        "0001 0000 99",
        "1001 0001 42",
        "1001 0001 98",
        "2001 0002 43",
    ]);
    assert_eq!(got[1], Fate::Repeated);
    assert_eq!(got[3], Fate::Repeated);
    assert_eq!(got[4], delivered(0, "414243"));
}

#[test]
fn missed_is_the_formula_of_step_2() {
    for (last, counter, missed) in [
        (0, 1, 0),
        (0, 2, 1),
        (65535, 0, 0),
        (65535, 1, 1),
        (1, 0, 65534),
        (0, 65535, 65534),
        (9, 8, 65534),
    ] {
        let got = one(&[
            &format!("3001 {last:04X} 41"),
            &format!("3001 {counter:04X} 42"),
        ]);
        assert_eq!(got[1], delivered(missed, "42"), "{counter} after {last}");
    }
}

#[test]
fn channels_do_not_touch_each_other() {
    let got = one(&[
        "0001 0000 41",
        "0102 0007 51",
        "3001 0001 42",
        "2102 0008 52",
    ]);
    assert_eq!(got[2], delivered(0, "42"));
    assert_eq!(got[3], delivered(0, "5152"));
}
