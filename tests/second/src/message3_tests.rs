//! Messages of Issue 3 worked out by hand: 001, Tables 2 to 4, and each number of 01.

use crate::hex::bytes;
use crate::message3::*;

/// At 5 s 6 ns, number 9, from 7, with composite 0x11223344.
const STATUS_UP: &str = "EC0A 10 07 00000001 00000005 00000006 00000008 00000009 00000001 11223344";

const AT: Time = Time {
    seconds: 5,
    nanoseconds: 6,
};

/// A platform message from 7 at that time, with number 9.
fn message(id: u32, payload: &[u8]) -> Vec<u8> {
    let size = payload.len() as u32;
    let head = format!("EC0A1007 {id:08X} 00000005 00000006 {size:08X} 00000009");
    [bytes(&head), payload.to_vec()].concat()
}

fn said(content: Content) -> Result<Message, u8> {
    Ok(Message {
        from: 7,
        time: AT,
        sequence: 9,
        content,
    })
}

fn refused(text: &str) -> u8 {
    read(2, &bytes(text)).err().unwrap_or(0)
}

/// Each ID of Table 3: a payload, and what it says.
fn each() -> Vec<(u32, &'static str, Content)> {
    use Content::*;
    let status = |up| Status {
        up,
        composite: 0x1122_3344,
    };
    vec![
        (1, "00000001 11223344", status(true)),
        (1, "00000000 11223344", status(false)),
        (2, "", Request),
        (3, "00000000", Services(vec![])),
        (
            3,
            "00000001 FFFFFFFF 00000000",
            Services(vec![(ALL, false)]),
        ),
        (
            3,
            "00000003 0000004D 00000001 00000000 00000000 0000004D 00000000",
            Services(vec![(77, true), (0, false), (77, false)]),
        ),
        (4, "0000004D", ServicesRequest(77)),
        (4, "FFFFFFFF", ServicesRequest(ALL)),
        (5, "01020304", Unknown(0x0102_0304)),
        (6, "FFFFFFFF", NotAvailable(ALL)),
        (7, "00000006", Pull(6)),
        (7, "FFFFFFFF", Pull(ALL)),
        (8, "00000002", Composite(2)),
        (9, "00000000", CompositeAck { agree: false }),
        (9, "00000001", CompositeAck { agree: true }),
    ]
}

#[test]
fn each_message_of_tables_3_and_4() {
    assert_eq!(bytes(STATUS_UP), message(1, &bytes("00000001 11223344")));
    for (id, payload, content) in each() {
        let payload = bytes(payload);
        let whole = message(id, &payload);
        assert_eq!(read(2, &whole), said(content), "{id}");
        // What is written is these bytes, with no byte to spare.
        let room = 24 + payload.len();
        assert_eq!(write(7, AT, 0, id, 9, &payload, room), Ok(whole), "{id}");
        assert_eq!(write(7, AT, 0, id, 9, &payload, room - 1), Err(10), "{id}");
    }
}

/// Every length from 0 to 40 but the ID's own is 8, whatever the bytes say; for services the
/// length must be that of their count.
#[test]
fn every_id_at_every_length() {
    for id in 0..=12 {
        for length in 0..=40 {
            for byte in [0u8, 1, 255] {
                let payload = vec![byte; length];
                let right = match id {
                    0 | 10.. => None,
                    1 => Some(8),
                    2 => Some(0),
                    // Its count is 0; any other here is far above 40 bytes.
                    3 if byte == 0 => Some(4),
                    3 => Some(usize::MAX),
                    _ => Some(4),
                };
                let above_1 = byte != 0 && (id == 1 || id == 9);
                let expected = match right {
                    None => Err(7),
                    Some(right) if right != length => Err(8),
                    _ if above_1 => Err(9),
                    _ => Ok(()),
                };
                let got = read(2, &message(id, &payload)).map(|_| ());
                assert_eq!(got, expected, "{id}: {length} of {byte}");
                let got = write(7, AT, 0, id, 9, &payload, 99).map(|_| ());
                assert_eq!(got, expected, "{id}: {length} of {byte}, written");
            }
        }
    }
    for id in [16, 256, 259, 0x0100_0001, 0x8000_0003, 0xFFFF_FFFF] {
        assert_eq!(read(2, &message(id, &[0; 4])), Err(7), "{id}");
    }
}

#[test]
fn reserved_values() {
    for value in ["00000002", "00000100", "01000001", "80000000", "FFFFFFFF"] {
        let cases = [
            (1, format!("{value} 00000000")),
            (9, value.to_string()),
            (3, format!("00000001 0000004D {value}")),
            (3, format!("00000002 0000004D {value} 0000004E 00000001")),
            (3, format!("00000002 0000004D 00000001 0000004E {value}")),
        ];
        for (id, payload) in cases {
            let payload = bytes(&payload);
            assert_eq!(read(2, &message(id, &payload)), Err(9), "{id} {value}");
            assert_eq!(write(7, AT, 0, id, 9, &payload, 0), Err(9), "{id} {value}");
        }
        // Where these stand they are a number like any other.
        for (id, payload) in [
            (1, format!("00000001 {value}")),
            (3, format!("00000001 {value} 00000001")),
            (4, value.to_string()),
            (5, value.to_string()),
            (6, value.to_string()),
            (7, value.to_string()),
            (8, value.to_string()),
        ] {
            assert!(read(2, &message(id, &bytes(&payload))).is_ok(), "{id}");
        }
    }
}

/// The count is a number without end: 4 + 8 times 2^29 is 4 in 32 bits, and so is 2^31's.
#[test]
fn as_many_services_as_the_length_says() {
    for count in ["20000000", "40000000", "80000000", "E0000000"] {
        assert_eq!(read(2, &message(3, &bytes(count))), Err(8), "{count}");
        let pair = format!("{count} 0000004D 00000001");
        assert_eq!(read(2, &message(3, &bytes(&pair))), Err(8), "{count}");
    }
    let one_more = "20000001 0000004D 00000001";
    assert_eq!(read(2, &message(3, &bytes(one_more))), Err(8));
    // Two announced and one there, one announced and two there, one and a half.
    for payload in [
        "00000002 0000004D 00000001",
        "00000001 0000004D 00000001 0000004E 00000001",
        "00000001 0000004D 00000001 00000000",
        "00000002 0000004D 00000001 00000000",
    ] {
        assert_eq!(read(2, &message(3, &bytes(payload))), Err(8), "{payload}");
    }
    let reserved = "00000002 0000004D 00000001 0000004E 00000002";
    assert_eq!(read(2, &message(3, &bytes(reserved))), Err(9));
    let most = (1 << 29) - 1;
    assert_eq!(services_count(most), Ok(most as u32));
    for count in [1 << 29, (1 << 29) + 1, 1 << 32] {
        assert_eq!(services_count(count), Err(5), "{count}");
    }
}

#[test]
fn refusals() {
    for length in 0..24 {
        assert_eq!(read(2, &bytes(STATUS_UP)[..length]), Err(1), "{length}");
    }
    let cases = [
        ("EC0B1007 00000002 00000000 00000000 00000000 00000007", 2),
        ("0A0C1007 00000002 00000000 00000000 00000000 00000007", 2),
        ("EC0A0007 00000002 00000000 00000000 00000000 00000007", 3),
        ("EC0A0107 00000002 00000000 00000000 00000000 00000007", 3),
        ("EC0A2007 00000002 00000000 00000000 00000000 00000007", 3),
        ("EC0A9007 00000002 00000000 00000000 00000000 00000007", 3),
        ("EC0A1207 00000002 00000000 00000000 00000000 00000007", 4),
        ("EC0A1F07 00000002 00000000 00000000 00000000 00000007", 4),
        ("EC0A1007 00000002 00000000 00000000 00000001 00000007", 5),
        ("EC0A1007 00000002 00000000 00000000 00000004 00000007", 5),
        (
            "EC0A1007 00000002 00000000 00000000 00000000 00000007 00",
            5,
        ),
        ("EC0A1002 00000002 00000000 00000000 00000000 00000007", 6),
        ("EC0A1102 00000002 00000000 00000000 00000000 00000007", 6),
        ("EC0A1007 00000000 00000000 00000000 00000000 00000007", 7),
        ("EC0A1007 0000000A 00000000 00000000 00000000 00000007", 7),
        // The lowest first.
        ("00005F02 00000000 00000000 00000000 00000001 00000000", 2),
        ("EC0A5F02 00000000 00000000 00000000 00000001 00000000", 3),
        ("EC0A1F02 00000000 00000000 00000000 00000001 00000000", 4),
        ("EC0A1002 00000000 00000000 00000000 00000001 00000000", 5),
        ("EC0A1002 00000000 00000000 00000000 00000000 00000000", 6),
        // An own status that is reserved and too long: 6, and from another 8.
        (
            "EC0A1002 00000001 00000000 00000000 00000004 00000000 00000002",
            6,
        ),
        (
            "EC0A1007 00000001 00000000 00000000 00000004 00000000 00000002",
            8,
        ),
    ];
    for (text, number) in cases {
        assert_eq!(refused(text), number, "{text}");
    }
}

/// Every number of one byte as the sender, and the fields at their ends.
#[test]
fn operations_and_fields() {
    for from in 0..=255u8 {
        let text = format!("EC0A11{from:02X} 00000000 FFFFFFFF 80000000 00000002 FFFFFFFE ABCD");
        let got = read(200, &bytes(&text));
        if from == 200 {
            assert_eq!(got, Err(6));
            continue;
        }
        let (id, payload) = (0, bytes("ABCD"));
        let time = Time {
            seconds: 0xFFFF_FFFF,
            nanoseconds: 0x8000_0000,
        };
        let message = Message {
            from,
            time,
            sequence: 0xFFFF_FFFE,
            content: Content::Operation {
                id,
                payload: payload.clone(),
            },
        };
        assert_eq!(got, Ok(message));
        let written = write(from, time, 1, id, 0xFFFF_FFFE, &payload, 26);
        assert_eq!(written, Ok(bytes(&text)));
    }
    // An operation has any ID and any length.
    let empty = "EC0A1107 00000003 00000005 00000006 00000000 00000009";
    let content = Content::Operation {
        id: 3,
        payload: vec![],
    };
    assert_eq!(read(2, &bytes(empty)), said(content));
}

/// Writing: 4, 7, 8, 9, 10 in this order.
#[test]
fn the_order_of_writing() {
    let write = |domain, id, payload: &str, room| {
        let written = write(7, AT, domain, id, 9, &bytes(payload), room);
        written.err().unwrap_or(0)
    };
    assert_eq!(write(2, 0, "00", 0), 4);
    assert_eq!(write(16, 1, "00000001 00000000", 99), 4);
    assert_eq!(write(255, 5, "00", 0), 4);
    assert_eq!(write(0, 0, "00", 0), 7);
    assert_eq!(write(0, 10, "00000000", 0), 7);
    assert_eq!(write(0, 1, "00000002", 0), 8);
    assert_eq!(write(0, 1, "00000002 00000000", 0), 9);
    assert_eq!(write(0, 1, "00000001 00000000", 31), 10);
    assert_eq!(write(0, 1, "00000001 00000000", 32), 0);
    assert_eq!(write(1, 0, "00", 24), 10);
    assert_eq!(write(1, 0, "00", 25), 0);
}
