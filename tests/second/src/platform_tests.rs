//! Platform states and replies worked out by hand: 000, 6.3, and each reply of 01.

use crate::hex::bytes;
use crate::message::ALL;
use crate::platform::*;

/// Operations 5 (event, no type), 6 (versioned data) of a uint16.
const TABLE: &str = "0001 0000 0008 0000 0000 0000 0000 0002 00000005 0000 FFFF 00000006 0001 0000";
const EVENTS_ONLY: &str = "0001 0000 0008 0000 0000 0000 0000 0001 00000005 0000 FFFF";

fn ask(platform: &mut Platform, message: &str) -> Answer {
    platform.call(&bytes(TABLE), &bytes(message), 48).unwrap()
}

/// 000, 6.3, Figure 4's text: messages 1 to 4, 6 and 7, then silence.
#[test]
fn two_platforms_start_up() {
    let (mut one, mut two) = (Platform::new(1), Platform::new(2));
    // 1 is sent before platform 2 is there. 2 is its own broadcast (R30: not an own number).
    let second = "EC0A0200 00000002 00000001 00000004 00000000 00000001";
    let got = ask(&mut one, second);
    assert_eq!(got.what, What::Status { up: true });
    let third = "EC0A0200 00000001 00000001 00000004 00000000 00000001";
    let fourth = "EC0A0200 00000001 00000004 00000004 00000001 FFFFFFFF";
    assert_eq!(got.owed, bytes(&format!("{third} {fourth}")));
    let got = ask(&mut two, third);
    let sixth = "EC0A0200 00000002 00000001 00000004 00000000 00000001";
    let seventh = "EC0A0200 00000002 00000004 00000004 00000001 FFFFFFFF";
    assert_eq!(got.owed, bytes(&format!("{sixth} {seventh}")));
    assert_eq!(
        ask(&mut two, fourth),
        Answer {
            what: What::PullAll,
            from: 1,
            owed: vec![]
        }
    );
    assert_eq!(ask(&mut one, sixth).owed, []);
    assert_eq!(
        ask(&mut one, seventh),
        Answer {
            what: What::PullAll,
            from: 2,
            owed: vec![]
        }
    );
    assert_eq!((one.count(), two.count(), one.next, two.next), (2, 2, 2, 2));
}

#[test]
fn down_is_noted_and_owes_nothing() {
    let mut one = Platform::new(1);
    let up = "EC0A0200 000000FF 00000001 00000004 00000000 00000001";
    let down = "EC0A0200 000000FF 00000001 00000004 00000000 00000000";
    assert_eq!(ask(&mut one, down).owed, []);
    assert_eq!(
        (one.count(), one.is_up(255), one.is_up(1)),
        (1, false, true)
    );
    assert_eq!(ask(&mut one, up).owed.len(), 48);
    assert_eq!((one.count(), one.is_up(255)), (2, true));
    assert_eq!(ask(&mut one, up).owed, []);
    let got = ask(&mut one, down);
    assert_eq!((got.what, got.owed.len()), (What::Status { up: false }, 0));
    assert_eq!((one.count(), one.is_up(255), one.next), (1, false, 2));
    assert_eq!(ask(&mut one, up).owed[16..20], [0, 0, 0, 2]);
}

/// R4: 300 has no state; its low byte, 44, is another platform's, and stays as it was.
#[test]
fn a_platform_above_255() {
    let mut one = Platform::new(1);
    let up = "EC0A0200 0000012C 00000001 00000004 00000009 00000001";
    let down = "EC0A0200 0000012C 00000001 00000004 00000009 00000000";
    let as_44 = "EC0A0200 0000002C 00000001 00000004 00000009 00000001";
    let heard = |up| Answer {
        what: What::Status { up },
        from: 300,
        owed: vec![],
    };
    for (count, forty_four) in [(1, false), (2, true)] {
        let before = one.clone();
        assert_eq!(ask(&mut one, up), heard(true));
        assert_eq!(ask(&mut one, down), heard(false));
        assert_eq!(one, before);
        let states = (one.count(), one.is_up(300), one.is_up(44), one.is_up(257));
        assert_eq!(states, (count, false, forty_four, false));
        if !forty_four {
            assert_eq!(ask(&mut one, as_44).owed.len(), 48);
        }
    }
    // Everything else from it is answered as anybody's.
    let got = ask(&mut one, "EC0A0200 0000012C 00000002 00000000 00000007");
    let reply = "EC0A0200 00000001 00000001 00000004 00000007 00000001";
    assert_eq!(
        got,
        Answer {
            what: What::Request,
            from: 300,
            owed: bytes(reply)
        }
    );
    let got = ask(&mut one, "EC0A0201 0000012C 00000009 00000000 00000007");
    let reply = "EC0A0200 00000001 00000003 00000004 00000007 00000009";
    assert_eq!(
        got,
        Answer {
            what: What::OperationUnknown(9),
            from: 300,
            owed: bytes(reply)
        }
    );
    // 257 is not this platform, which is 1.
    let ours = "EC0A0200 00000001 00000002 00000000 00000007";
    assert_eq!(one.call(&bytes(TABLE), &bytes(ours), 48), Err(6));
    let like_ours = "EC0A0200 00000101 00000002 00000000 00000007";
    assert_eq!(ask(&mut one, like_ours).from, 257);
}

#[test]
fn own_numbers_go_round() {
    let mut one = Platform {
        next: 0xFFFF_FFFF,
        ..Platform::new(1)
    };
    let got = ask(
        &mut one,
        "EC0A0200 00000002 00000001 00000004 00000000 00000001",
    );
    assert_eq!(
        (&got.owed[16..20], &got.owed[40..44]),
        (&[0xFF; 4][..], &[0; 4][..])
    );
    assert_eq!(one.next, 1);
}

/// Replies to what was asked repeat its number, 0 too, and draw none.
#[test]
fn replies_repeat_the_number() {
    let mut one = Platform::new(1);
    let got = ask(&mut one, "EC0A0200 00000002 00000002 00000000 0A0B0C0D");
    assert_eq!(
        got.owed,
        bytes("EC0A0200 00000001 00000001 00000004 0A0B0C0D 00000001")
    );
    let got = ask(&mut one, "EC0A0200 00000002 00000002 00000000 00000000");
    assert_eq!(
        got.owed,
        bytes("EC0A0200 00000001 00000001 00000004 00000000 00000001")
    );
    // A request changes no state.
    assert_eq!(one, Platform::new(1));
}

#[test]
fn pulls() {
    let mut one = Platform::new(1);
    let got = ask(
        &mut one,
        "EC0A0200 00000002 00000004 00000004 00000007 00000006",
    );
    assert_eq!(
        got,
        Answer {
            what: What::Pull(6),
            from: 2,
            owed: vec![]
        }
    );
    // An event is not versioned data, and 9 is nothing here.
    for id in ["00000005", "00000009"] {
        let got = ask(
            &mut one,
            &format!("EC0A0200 00000002 00000004 00000004 00000007 {id}"),
        );
        assert!(matches!(got.what, What::PullUnknown(_)));
        assert_eq!(
            got.owed,
            bytes(&format!(
                "EC0A0200 00000001 00000003 00000004 00000007 {id}"
            ))
        );
    }
    // R7: all, where there is no versioned data at all.
    let all = bytes("EC0A0200 00000002 00000004 00000004 00000007 FFFFFFFF");
    let got = one.call(&bytes(EVENTS_ONLY), &all, 24).unwrap();
    assert_eq!(got.what, What::PullUnknown(ALL));
    assert_eq!(
        got.owed,
        bytes("EC0A0200 00000001 00000003 00000004 00000007 FFFFFFFF")
    );
}

#[test]
fn operations_and_unknown() {
    let mut one = Platform::new(1);
    let got = ask(
        &mut one,
        "EC0A0201 00000002 00000006 00000002 00000007 0102",
    );
    assert_eq!(
        got.what,
        What::Operation {
            id: 6,
            payload: vec![1, 2]
        }
    );
    // R29: the payload is not judged against the type.
    let got = ask(&mut one, "EC0A0201 00000002 00000006 00000000 00000007");
    assert_eq!(
        (got.what, got.owed.len()),
        (
            What::Operation {
                id: 6,
                payload: vec![]
            },
            0
        )
    );
    let got = ask(&mut one, "EC0A0201 00000002 00000009 00000000 00000007");
    assert_eq!(got.what, What::OperationUnknown(9));
    assert_eq!(
        got.owed,
        bytes("EC0A0200 00000001 00000003 00000004 00000007 00000009")
    );
    let got = ask(
        &mut one,
        "EC0A0200 00000002 00000003 00000004 00000007 00000009",
    );
    assert_eq!(
        got,
        Answer {
            what: What::Unknown(9),
            from: 2,
            owed: vec![]
        }
    );
}

#[test]
fn refusals_change_nothing() {
    let mut one = Platform::new(1);
    let up = bytes("EC0A0200 00000002 00000001 00000004 00000000 00000001");
    for room in [0, 23, 24, 47] {
        assert_eq!(one.call(&bytes(TABLE), &up, room), Err(10), "{room}");
    }
    assert_eq!(one.call(&bytes("0000"), &[], 0), Err(31));
    assert_eq!(one.call(&bytes(TABLE), &[], 0), Err(1));
    let own = bytes("EC0A0200 00000001 00000001 00000004 00000000 00000000");
    assert_eq!(one.call(&bytes(TABLE), &own, 99), Err(6));
    assert_eq!(one, Platform::new(1));
    assert!(one.call(&bytes(TABLE), &up, 48).is_ok());
}
