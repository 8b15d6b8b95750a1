//! Messages read and written, worked out by hand: 000, Tables 2 to 4, and each number of 01.

use crate::hex::bytes;
use crate::message::*;

const STATUS_UP: &str = "EC0A 02 00 00000001 00000001 00000004 00000009 00000001";

fn at_2(text: &str) -> Result<Message, u8> {
    read(2, &bytes(text))
}

fn refused(text: &str) -> u8 {
    at_2(text).err().unwrap_or(0)
}

#[test]
fn each_message_of_tables_3_and_4() {
    let from_1 = |sequence, content| {
        Ok(Message {
            from: 1,
            sequence,
            content,
        })
    };
    assert_eq!(at_2(STATUS_UP), from_1(9, Content::Status { up: true }));
    assert_eq!(
        at_2("EC0A0200 00000001 00000001 00000004 00000000 00000000"),
        from_1(0, Content::Status { up: false })
    );
    // 20 bytes and accepted: the header has no timestamp.
    assert_eq!(
        at_2("EC0A0200 00000001 00000002 00000000 00000007"),
        from_1(7, Content::Request)
    );
    assert_eq!(
        at_2("EC0A0200 00000001 00000003 00000004 00000007 01020304"),
        from_1(7, Content::Unknown(0x0102_0304))
    );
    assert_eq!(
        at_2("EC0A0200 00000001 00000004 00000004 00000007 FFFFFFFF"),
        from_1(7, Content::Pull(ALL))
    );
    assert_eq!(
        at_2("EC0A0201 00000001 00000005 00000002 FFFFFFFF ABCD"),
        from_1(
            0xFFFF_FFFF,
            Content::Operation {
                id: 5,
                payload: bytes("ABCD")
            }
        )
    );
    assert_eq!(
        at_2("EC0A0201 000000FF 00000000 00000000 00000000"),
        Ok(Message {
            from: 255,
            sequence: 0,
            content: Content::Operation {
                id: 0,
                payload: vec![]
            }
        })
    );
}

/// R4: 6 is this platform's; the low byte of a larger number is nobody's.
#[test]
fn senders_above_255() {
    for (sender, from) in [
        ("0000012C", 300),
        ("00000100", 256),
        ("00000102", 258),
        ("02000002", 0x0200_0002),
        ("FFFFFFFF", 0xFFFF_FFFF),
    ] {
        let operation = format!("EC0A0201 {sender} 00000005 00000001 00000007 AB");
        let content = Content::Operation {
            id: 5,
            payload: bytes("AB"),
        };
        let sequence = 7;
        assert_eq!(
            at_2(&operation),
            Ok(Message {
                from,
                sequence,
                content
            })
        );
        let request = format!("EC0A0200 {sender} 00000002 00000000 00000007");
        let content = Content::Request;
        assert_eq!(
            at_2(&request),
            Ok(Message {
                from,
                sequence,
                content
            })
        );
    }
    assert_eq!(
        refused("EC0A0201 00000002 00000005 00000001 00000007 AB"),
        6
    );
    assert_eq!(refused("EC0A0200 0000012C 00000005 00000000 00000007"), 7);
}

#[test]
fn refusals() {
    for length in 0..20 {
        assert_eq!(read(2, &bytes(STATUS_UP)[..length]), Err(1), "{length}");
    }
    assert_eq!(refused("EC0B0200 00000001 00000002 00000000 00000007"), 2);
    assert_eq!(refused("EC0A0300 00000001 00000002 00000000 00000007"), 3);
    assert_eq!(refused("EC0A0100 00000001 00000002 00000000 00000007"), 3);
    assert_eq!(refused("EC0A0202 00000001 00000002 00000000 00000007"), 4);
    assert_eq!(refused("EC0A02FF 00000001 00000002 00000000 00000007"), 4);
    assert_eq!(refused("EC0A0200 00000001 00000002 00000001 00000007"), 5);
    assert_eq!(
        refused("EC0A0200 00000001 00000002 00000000 00000007 00"),
        5
    );
    assert_eq!(refused("EC0A0200 00000002 00000002 00000000 00000007"), 6);
    assert_eq!(refused("EC0A0200 00000001 00000000 00000000 00000007"), 7);
    assert_eq!(refused("EC0A0200 00000001 00000005 00000000 00000007"), 7);
    assert_eq!(refused("EC0A0200 00000001 FFFFFFFF 00000000 00000007"), 7);
    assert_eq!(refused("EC0A0200 00000001 00000001 00000000 00000007"), 8);
    assert_eq!(
        refused("EC0A0200 00000001 00000002 00000004 00000007 00000000"),
        8
    );
    assert_eq!(
        refused("EC0A0200 00000001 00000003 00000005 00000007 0000000000"),
        8
    );
    assert_eq!(
        refused("EC0A0200 00000001 00000001 00000004 00000007 00000002"),
        9
    );
    assert_eq!(
        refused("EC0A0200 00000001 00000001 00000004 00000007 01000001"),
        9
    );
    // Status 2 and a length that is wrong: 8 first.
    assert_eq!(
        refused("EC0A0200 00000001 00000001 00000005 00000007 0000000200"),
        8
    );
    assert_eq!(
        refused("EC0A0200 00000001 00000001 00000020 00000007 FF*32"),
        8
    );
}

#[test]
fn lowest_first() {
    assert_eq!(refused("000000FF 00000002 00000000 00000001 00000000"), 2);
    assert_eq!(refused("EC0A00FF 00000002 00000000 00000001 00000000"), 3);
    assert_eq!(refused("EC0A02FF 00000002 00000000 00000001 00000000"), 4);
    assert_eq!(refused("EC0A0200 00000002 00000000 00000001 00000000"), 5);
    assert_eq!(refused("EC0A0200 00000002 00000000 00000000 00000000"), 6);
}

#[test]
fn written() {
    assert_eq!(
        write(1, 0, STATUS, 9, &[0, 0, 0, 1], 24),
        Ok(bytes(STATUS_UP))
    );
    assert_eq!(write(1, 0, STATUS, 9, &[0, 0, 0, 1], 23), Err(10));
    assert_eq!(write(1, 2, 9, 9, &[], 0), Err(4));
    assert_eq!(write(1, 0, 5, 9, &[], 0), Err(7));
    assert_eq!(write(1, 0, 0, 9, &[], 99), Err(7));
    assert_eq!(write(1, 0, PULL, 9, &[], 0), Err(8));
    assert_eq!(write(1, 0, STATUS, 9, &[0, 0, 0, 2], 0), Err(9));
    let operation = write(255, 1, 7, 8, b"hi", 22).unwrap();
    assert_eq!(
        operation,
        bytes("EC0A0201 000000FF 00000007 00000002 00000008 6869")
    );
    let content = Content::Operation {
        id: 7,
        payload: b"hi".to_vec(),
    };
    assert_eq!(
        read(0, &operation),
        Ok(Message {
            from: 255,
            sequence: 8,
            content
        })
    );
    assert_eq!(read(255, &operation), Err(6));
}
