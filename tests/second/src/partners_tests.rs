//! The platform call among partners of both issues, worked out by hand: 001, 6.3, and each reply of
//! its Table 4; 02, request 8.

use crate::hex::bytes;
use crate::message3::Time;
use crate::partners::*;
use crate::pending::Pending;

/// Operations 5 (event), 6 (versioned data), 7 (requests we send) and 9 (requests we serve).
pub const TABLE: &str = "0001 0000 0008 0000 0000 0000 0000 0004 00000005 0000 FFFF \
                         00000006 0001 0000 00000007 0002 0000 FFFF 00000009 0003 0000 0000";
pub const EVENTS_ONLY: &str = "0001 0000 0008 0000 0000 0000 0000 0001 00000005 0000 FFFF";

/// Our services 21, AVAILABLE, and 22, UNAVAILABLE.
pub const OURS: [u64; 2] = [2 << 32 | 21, 1 << 32 | 22];

pub const STAMP: Stamp = Stamp {
    time: Time {
        seconds: 2,
        nanoseconds: 2,
    },
    composite: 99,
};

pub fn hear(partners: &mut Partners, message: &str, room: usize) -> Result<Heard, u8> {
    partners.call(STAMP, &OURS, &bytes(TABLE), &bytes(message), room)
}

/// A three's message with room to spare: what it was, and what is owed.
pub fn ask(partners: &mut Partners, message: &str) -> (What, Vec<u8>) {
    match hear(partners, message, 999) {
        Ok(Heard::Three(answer)) => (answer.what, answer.owed),
        other => panic!("{other:?}"),
    }
}

/// What platform 2 says in Issue 3's form: domain, ID, number and payload.
pub fn of_2(domain: u8, id: u32, number: u32, payload: &str) -> String {
    let size = bytes(payload).len();
    format!("EC0A1{domain}02 {id:08X} 00000005 00000006 {size:08X} {number:08X} {payload}")
}

/// The same of platform 1, at 2 s 2 ns.
pub fn of_1(id: u32, number: u32, payload: &str) -> Vec<u8> {
    let size = bytes(payload).len();
    bytes(&format!(
        "EC0A1001 {id:08X} 00000002 00000002 {size:08X} {number:08X} {payload}"
    ))
}

pub const UP: &str = "EC0A1002 00000001 00000005 00000006 00000008 00000009 00000001 11223344";
pub const DOWN: &str = "EC0A1002 00000001 00000005 00000006 00000008 00000009 00000000 11223344";

/// A status of these services of platform 2.
pub fn told(ids: impl Iterator<Item = u32>) -> String {
    let pairs: Vec<String> = ids.map(|id| format!("{id:08X} 00000001")).collect();
    let payload = format!("{:08X} {}", pairs.len(), pairs.join(" "));
    of_2(0, 3, 0, &payload)
}

#[test]
fn the_worked_start_up() {
    let mut one = Partners::new(1, &[2]);
    let fresh = one.clone();
    for room in [0, 31, 32, 60, 87] {
        assert_eq!(hear(&mut one, UP, room), Err(10), "{room}");
        assert_eq!(one, fresh);
    }
    let owed = "EC0A 10 01 00000001 00000002 00000002 00000008 00000000 00000001 00000063 \
                EC0A 10 01 00000004 00000002 00000002 00000004 00000001 FFFFFFFF \
                EC0A 10 01 00000007 00000002 00000002 00000004 00000002 FFFFFFFF";
    let answer = Answer {
        what: What::Status {
            up: true,
            composite: 0x1122_3344,
        },
        from: 2,
        time: Time {
            seconds: 5,
            nanoseconds: 6,
        },
        owed: bytes(owed),
    };
    assert_eq!(hear(&mut one, UP, 88), Ok(Heard::Three(answer)));
    assert_eq!((one.platform.next, one.platform.is_up(2)), (3, true));
    // No change: nothing, and no room is needed.
    let again = one.clone();
    assert!(matches!(hear(&mut one, UP, 0), Ok(Heard::Three(a)) if a.owed.is_empty()));
    assert_eq!(one, again);
}

/// One counter for partners of both issues; round the end it goes on with 0.
#[test]
fn own_numbers() {
    let six = "EC0A0200 00000003 00000001 00000004 00000000 00000001";
    let mut one = Partners::new(1, &[2, 4]);
    one.platform.next = 0xFFFF_FFFE;
    let owed = ask(&mut one, UP).1;
    let number = |owed: &[u8], at: usize| owed[at..at + 4].to_vec();
    let three = [20, 52, 80].map(|at| number(&owed, at));
    assert_eq!(three, [vec![255, 255, 255, 254], vec![255; 4], vec![0; 4]]);
    let Ok(Heard::Six(answer)) = hear(&mut one, six, 48) else {
        panic!("3 speaks Issue 6");
    };
    assert_eq!(
        (answer.owed[19], answer.owed[43], answer.owed.len()),
        (1, 2, 48)
    );
    let four = UP.replacen("EC0A1002", "EC0A1004", 1);
    assert_eq!(ask(&mut one, &four).1[23], 3);
    assert_eq!(one.platform.next, 6);
}

#[test]
fn pulls_operations_and_requests() {
    let mut one = Partners::new(1, &[2]);
    let fresh = one.clone();
    let request = ask(&mut one, &of_2(0, 2, 0x0A0B_0C0D, ""));
    let status = of_1(1, 0x0A0B_0C0D, "00000001 00000063");
    assert_eq!(request, (What::Request, status));
    let pull = ask(&mut one, &of_2(0, 7, 3, "00000006"));
    assert_eq!(pull, (What::Pull(6), vec![]));
    for id in [5, 7, 8, 9] {
        let owed = of_1(5, 3, &format!("{id:08X}"));
        let pull = ask(&mut one, &of_2(0, 7, 3, &format!("{id:08X}")));
        assert_eq!(pull, (What::PullUnknown(id), owed));
    }
    // A pull of all owes nothing, also where nothing can be pulled; to a six it does there.
    let all = of_2(0, 7, 3, "FFFFFFFF");
    assert_eq!(ask(&mut one, &all), (What::PullAll, vec![]));
    let got = one.call(STAMP, &OURS, &bytes(EVENTS_ONLY), &bytes(&all), 0);
    assert!(matches!(got, Ok(Heard::Three(a)) if a.what == What::PullAll));
    let six = bytes("EC0A0200 00000003 00000004 00000004 00000003 FFFFFFFF");
    let got = one.call(STAMP, &OURS, &bytes(EVENTS_ONLY), &six, 0);
    assert_eq!(got, Err(10));
    for (id, payload) in [(5, "AB"), (6, ""), (9, "0102030405")] {
        let payload_bytes = bytes(payload);
        let operation = What::Operation {
            id,
            payload: payload_bytes,
        };
        let got = ask(&mut one, &of_2(1, id, 1, payload));
        assert_eq!(got, (operation, vec![]));
    }
    let unknown = ask(&mut one, &of_2(1, 8, 0, "AB"));
    let owed = of_1(5, 0, "00000008");
    assert_eq!(unknown, (What::OperationUnknown(8), owed));
    assert_eq!(hear(&mut one, &of_2(1, 8, 0, "AB"), 27), Err(10));
    assert_eq!(one, fresh);
}

/// Read and reported, and never acted on.
#[test]
fn reported_alone() {
    let mut one = Partners::new(1, &[2]);
    ask(&mut one, UP);
    ask(&mut one, &told(0..3));
    let before = one.clone();
    let agree = |agree| What::CompositeAck { agree };
    let cases = [
        (5, "00000007", What::Unknown(7)),
        (6, "00000007", What::NotAvailable(7)),
        (8, "00000063", What::Composite(99)),
        (9, "00000001", agree(true)),
        (9, "00000000", agree(false)),
    ];
    for (id, payload, what) in cases {
        let got = ask(&mut one, &of_2(0, id, 7, payload));
        assert_eq!(got, (what, vec![]));
        assert!(hear(&mut one, &of_2(0, id, 7, payload), 0).is_ok());
    }
    assert_eq!(one, before);
}

/// The pending list goes by ID, number and sender, and sees no issue.
#[test]
fn responses_in_either_form() {
    let mut one = Partners::new(1, &[2]);
    for target in [2, 3, 2] {
        let sent = one.platform.send(&bytes(TABLE), 7, target, &[], 20);
        assert!(sent.is_ok());
    }
    let before = one.clone();
    // Another number, 0, and 3's request.
    for number in [4, 0, 2] {
        assert_eq!(hear(&mut one, &of_2(1, 7, number, ""), 0), Err(61));
    }
    // 2 in Issue 6's form, and 3 in Issue 3's: 3 comes before 61.
    let as_six = "EC0A0201 00000002 00000007 00000000 00000001";
    assert_eq!(hear(&mut one, as_six, 0), Err(3));
    let as_three = of_2(1, 7, 2, "").replacen("EC0A1102", "EC0A1103", 1);
    assert_eq!(hear(&mut one, &as_three, 0), Err(3));
    assert_eq!(one, before);
    let response = |sequence| What::Response {
        id: 7,
        sequence,
        payload: vec![0xEF],
    };
    assert_eq!(ask(&mut one, &of_2(1, 7, 3, "EF")), (response(3), vec![]));
    assert_eq!(hear(&mut one, &of_2(1, 7, 3, "EF"), 0), Err(61));
    assert!(hear(&mut one, "EC0A0201 00000003 00000007 00000000 00000002", 0).is_ok());
    assert_eq!(ask(&mut one, &of_2(1, 7, 1, "EF")), (response(1), vec![]));
    assert_eq!(one.platform.list, Pending::of(&[]));
    // A target with 2 as its low byte is another.
    let mut words = vec![0; 128];
    (words[0], words[64]) = (5 << 32 | 7, 0x102);
    one.platform.list = Pending::of(&words);
    assert_eq!(hear(&mut one, &of_2(1, 7, 5, ""), 0), Err(61));
}

#[test]
fn the_order_of_refusals() {
    let mut one = Partners::new(1, &[2]);
    let spoilt = |table: &str, message: &str| {
        let mut one = Partners::new(1, &[2]);
        one.lent = 0;
        let got = one.call(STAMP, &OURS, &bytes(table), &bytes(message), 0);
        got.err().unwrap_or(0)
    };
    assert_eq!(spoilt("00", ""), 30);
    assert_eq!(spoilt("0000", ""), 31);
    assert_eq!(spoilt(TABLE, ""), 1);
    assert_eq!(spoilt(TABLE, &of_2(1, 7, 0, "")), 61);
    assert_eq!(spoilt(TABLE, &told(0..300)), 10);
    assert_eq!(hear(&mut one, &told(0..300), 0), Err(63));
    assert_eq!(one, Partners::new(1, &[2]));
}
