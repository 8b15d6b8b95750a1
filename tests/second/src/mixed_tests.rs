//! Which form a message has, worked out by hand: 02, request 8, the rows of what both forms could
//! claim.

use crate::hex::bytes;
use crate::message::HEADER as SIX;
use crate::message3::HEADER as THREE;
use crate::mixed::*;

/// `six`, `three` with the sender, or the number of a refusal.
fn reads(threes: &[u8], bytes: &[u8]) -> Result<(&'static str, u32), u8> {
    let got = read(9, &SetUp::of(threes), bytes)?;
    Ok(match got {
        Message::Six(got) => ("six", got.from),
        Message::Three(got) => ("three", u32::from(got.from)),
    })
}

fn said(threes: &[u8], text: &str) -> Result<(&'static str, u32), u8> {
    reads(threes, &bytes(text))
}

const STATUS_UP: &str = "EC0A 10 07 00000001 00000005 00000006 00000008 00000009 00000001 11223344";

#[test]
fn the_worked_status_at_each_reader() {
    assert_eq!(said(&[7], STATUS_UP), Ok(("three", 7)));
    let status = bytes(STATUS_UP);
    for length in 0..=status.len() {
        let first = &status[..length];
        let as_six = if length < SIX { Err(1) } else { Err(3) };
        assert_eq!(reads(&[], first), as_six, "{length}");
        assert_eq!(reads(&[1, 6, 8], first), as_six, "{length}");
        let as_three = match length {
            32 => Ok(("three", 7)),
            THREE.. => Err(5),
            _ => Err(1),
        };
        assert_eq!(reads(&[7], first), as_three, "{length}");
    }
}

#[test]
fn the_worked_request_of_issue_6() {
    let request = "EC0A 02 00 00000005 00000002 00000000 00000001";
    for threes in [&[][..], &[0], &[0, 1, 2, 3], &[2, 4, 6]] {
        assert_eq!(said(threes, request), Ok(("six", 5)), "{threes:?}");
    }
    assert_eq!(said(&[5], request), Err(3));
    assert_eq!(said(&[0, 5], request), Err(3));
    let domain_7 = "EC0A 02 07 00000005 00000002 00000000 00000001";
    assert_eq!(said(&[7], domain_7), Err(4));
    assert_eq!(said(&[5, 7], domain_7), Err(3));
}

/// Every byte 2, with byte 3 and the number of bytes 4 to 7 of either issue: the table's rows.
#[test]
fn what_both_forms_could_claim() {
    let set_ups: [&[u8]; 4] = [&[], &[7], &[5], &[5, 7]];
    for second in 0..=255u8 {
        for threes in set_ups {
            let (byte_3, bytes_4) = (threes.contains(&7), threes.contains(&5));
            // Platform 7's operation 5 in Issue 3's form; in Issue 6's, of domain 7 and from 5.
            let head = format!("EC0A{second:02X}07 00000005 00000000");
            let three = format!("{head} 00000000 00000000 00000000");
            let expected = match second {
                2 if bytes_4 => Err(3),
                // Byte 3 is its domain.
                2 => Err(4),
                0x11 if byte_3 => Ok(("three", 7)),
                // Domain 0, and 5 is UNKNOWN_OPERATION, of 4 bytes.
                0x10 if byte_3 => Err(8),
                0x12..=0x1F if byte_3 => Err(4),
                _ => Err(3),
            };
            assert_eq!(said(threes, &three), expected, "{second} {threes:?}");
            for length in 20..24 {
                let short = &bytes(&three)[..length];
                let expected = match second {
                    2 => expected,
                    _ if byte_3 => Err(1),
                    _ => Err(3),
                };
                assert_eq!(reads(threes, short), expected, "{second} {threes:?}");
            }
            let no_mark = [&[0, 0][..], &bytes(&three)[2..]].concat();
            assert_eq!(reads(threes, &no_mark), Err(2), "{second} {threes:?}");
        }
    }
}

/// A sender above 255 is in no set-up, though its low byte may be a three's.
#[test]
fn senders_above_255() {
    let all: Vec<u8> = (0..=255).collect();
    for from in [256u32, 263, 448, 0x0700_0007, 0xFFFF_FFFF] {
        let request = format!("EC0A0200 {from:08X} 00000002 00000000 00000001");
        assert_eq!(said(&all, &request), Ok(("six", from)));
    }
    let set_up = SetUp::of(&[192, 7, 7, 0, 192]);
    let threes = [0, 7, 192].map(|platform| set_up.is_three(platform));
    assert_eq!((threes, set_up.count()), ([true; 3], 3));
    let none = [1, 256, 263, 448, 1 << 31].map(|platform| set_up.is_three(platform));
    assert_eq!(none, [false; 5]);
    let ends = [0, 7, 192].map(|platform| set_up.block_end(platform));
    assert_eq!(ends, [256, 512, 768]);
}

/// 6 is this platform's in both forms; in Issue 3's only where it is set up so.
#[test]
fn our_own_messages() {
    let three = "EC0A 10 09 00000002 00000000 00000000 00000000 00000001";
    let six = "EC0A 02 00 00000009 00000002 00000000 00000001";
    assert_eq!((said(&[9], three), said(&[9], six)), (Err(6), Err(3)));
    assert_eq!((said(&[], three), said(&[], six)), (Err(3), Err(6)));
}

/// 000's Tables 3 and 4 at a reader among threes: every ID at every length, and its reserved values.
#[test]
fn every_id_of_issue_6_at_every_length() {
    for id in 0..=9u32 {
        for length in 0..=12usize {
            for byte in [0u8, 1, 255] {
                let head = format!("EC0A0200 00000005 {id:08X} {length:08X} 00000001");
                let message = [bytes(&head), vec![byte; length]].concat();
                let right = match id {
                    1 | 3 | 4 => Some(4),
                    2 => Some(0),
                    _ => None,
                };
                let expected = match right {
                    None => Err(7),
                    Some(right) if right != length => Err(8),
                    // 01010101 and FFFFFFFF are reserved.
                    _ if id == 1 && byte != 0 => Err(9),
                    _ => Ok(("six", 5)),
                };
                for threes in [&[][..], &[0, 1, 2, 3, 4, 9]] {
                    assert_eq!(reads(threes, &message), expected, "{id}: {length}");
                }
                assert_eq!(reads(&[5], &message), Err(3), "{id}: {length}");
            }
        }
    }
    for (status, expected) in [(0, Ok(("six", 5))), (1, Ok(("six", 5))), (2, Err(9))] {
        let text = format!("EC0A0200 00000005 00000001 00000004 00000001 {status:08X}");
        assert_eq!(said(&[0, 1], &text), expected);
    }
}
