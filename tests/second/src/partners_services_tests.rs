//! Services told, asked for and marked by the platform call, worked out by hand: 001, 6.3, and the
//! notes under Table 4; 02, request 8.

use crate::hex::bytes;
use crate::message3::ALL;
use crate::partners::*;
use crate::partners_tests::{ask, hear, of_1, of_2, told, DOWN, STAMP, TABLE, UP};
use crate::prng::Prng;
use crate::services;

#[test]
fn availability_requests() {
    let mut one = Partners::new(1, &[2]);
    let fresh = one.clone();
    let (what, owed) = ask(&mut one, &of_2(0, 4, 1, "FFFFFFFF"));
    assert_eq!(what, What::ServicesRequest(ALL));
    let all = "00000002 00000015 00000001 00000016 00000000";
    assert_eq!(owed, of_1(3, 1, all));
    let each = [
        ("00000015", "00000001 00000015 00000001"),
        ("00000016", "00000001 00000016 00000000"),
        ("00000005", "00000001 00000005 00000000"),
    ];
    for (id, payload) in each {
        let owed = ask(&mut one, &of_2(0, 4, 70, id)).1;
        assert_eq!(owed, of_1(3, 70, payload));
        assert_eq!(hear(&mut one, &of_2(0, 4, 70, id), 35), Err(10));
        assert!(hear(&mut one, &of_2(0, 4, 70, id), 36).is_ok());
    }
    assert_eq!(hear(&mut one, &of_2(0, 4, 1, "FFFFFFFF"), 43), Err(10));
    assert!(hear(&mut one, &of_2(0, 4, 1, "FFFFFFFF"), 44).is_ok());
    // No services of ours: a status of none.
    let message = bytes(&of_2(0, 4, 0, "FFFFFFFF"));
    let got = one.call(STAMP, &[], &bytes(TABLE), &message, 28);
    assert!(matches!(got, Ok(Heard::Three(a)) if a.owed == of_1(3, 0, "00000000")));
    assert_eq!(one, fresh);
}

/// What is told is noted, of a sender that is DOWN too; DOWN marks the sender's own.
#[test]
fn services_of_a_partner() {
    let mut one = Partners::new(1, &[2, 4]);
    let told = of_2(0, 3, 0, "00000002 0000004D 00000001 0000004E 00000001");
    let (what, owed) = ask(&mut one, &told);
    assert_eq!(what, What::Services(vec![(77, true), (78, true)]));
    assert!(owed.is_empty());
    let of_4 = told.replacen("EC0A1002", "EC0A1004", 1);
    ask(&mut one, &of_4);
    // DOWN already: no change, so nothing is marked.
    ask(&mut one, DOWN);
    assert_eq!(one.services.state(2, 77), Some(true));
    ask(&mut one, UP);
    assert_eq!(one.services.state(2, 77), Some(true));
    let (what, owed) = ask(&mut one, DOWN);
    let down = What::Status {
        up: false,
        composite: 0x1122_3344,
    };
    assert_eq!((what, owed), (down, vec![]));
    assert!(!one.platform.is_up(2));
    assert_eq!(one.services.known(2), [(77, false), (78, false)]);
    assert_eq!(one.services.known(4), [(77, true), (78, true)]);
    ask(&mut one, UP);
    assert_eq!(one.services.known(2), [(77, false), (78, false)]);
    ask(&mut one, &of_2(0, 3, 0, "00000000"));
    ask(&mut one, &of_2(0, 3, 0, "00000001 0000004E 00000001"));
    assert_eq!(one.services.known(2), [(77, false), (78, true)]);
}

#[test]
fn the_257th_service() {
    let mut one = Partners::new(1, &[2]);
    ask(&mut one, &told(0..250));
    let before = one.clone();
    assert_eq!(hear(&mut one, &told(250..257), 0), Err(63));
    // 9 comes before: a state of 2 behind 300 good ones.
    let reserved = told(300..600).replace("00000257 00000001", "00000257 00000002");
    assert_eq!(hear(&mut one, &reserved, 0), Err(9));
    assert_eq!(one, before);
    ask(&mut one, &told((250..256).chain([250])));
    assert_eq!(one.services.known(2).len(), 256);
    assert_eq!(hear(&mut one, &told(256..257), 0), Err(63));
}

/// A block that does not lie whole in the lent words: 10, behind 9 and before 63, and only where
/// it is needed.
#[test]
fn a_block_that_is_not_there() {
    for (lent, there) in [(0, false), (256, false), (511, false), (512, true)] {
        let mut one = Partners::new(1, &[0, 2, 200]);
        one.lent = lent;
        let too_many = hear(&mut one, &told(0..257), 0);
        assert_eq!(too_many, Err(if there { 63 } else { 10 }), "{lent}");
        let none = hear(&mut one, &of_2(0, 3, 0, "00000000"), 0);
        assert_eq!(none.is_ok(), there, "{lent}");
        assert_eq!(hear(&mut one, &of_2(0, 3, 0, "00000001"), 0), Err(8));
        let reserved = of_2(0, 3, 0, "00000001 00000000 00000002");
        assert_eq!(hear(&mut one, &reserved, 0), Err(9));
        // Everything else is answered as if it were there.
        ask(&mut one, DOWN);
        ask(&mut one, UP);
        ask(&mut one, &of_2(0, 4, 0, "FFFFFFFF"));
        let up = one.clone();
        assert_eq!(hear(&mut one, DOWN, 0).is_ok(), there, "{lent}");
        assert_eq!(one.platform.is_up(2), !there);
        assert_eq!(one == up, !there);
    }
}

/// End to end: what we answer to a request for all leaves at the partner, for each ID of ours, the
/// state that our words have, and nothing else of ours moved.
#[test]
fn what_we_tell_is_what_the_partner_knows() {
    let rng = &mut Prng::new(4);
    for _ in 0..300 {
        let count = rng.pick(&[0, 1, 3, 40, 250]);
        let state = |rng: &mut Prng| rng.pick(&[0u64, 1, 2, 2, 3]) << 32;
        let ours: Vec<u64> = (0..count)
            .map(|_| state(rng) | rng.below(300) as u64)
            .collect();
        let mut one = Partners::new(1, &[2]);
        let mut two = Partners::new(2, &[1]);
        let before: Vec<(u32, bool)> = (290..296).map(|id| (id, true)).collect();
        two.services.note(1, &before).unwrap();
        let request = bytes(&of_2(0, 4, 9, "FFFFFFFF"));
        let got = one.call(STAMP, &ours, &bytes(TABLE), &request, 70_000);
        let Ok(Heard::Three(answer)) = got else {
            panic!("{got:?}");
        };
        let heard = two.call(STAMP, &[], &bytes(TABLE), &answer.owed, 0);
        assert!(matches!(heard, Ok(Heard::Three(a)) if a.owed.is_empty()));
        for id in 0..300 {
            let told = ours.iter().rev().find(|word| **word as u32 == id);
            let state = told.map(|word| word >> 32 == 2);
            let kept = before.contains(&(id, true)).then_some(true);
            assert_eq!(two.services.state(1, id), state.or(kept), "{id}");
            let asked = services::own_state(&services::ours(&ours), id);
            assert_eq!(asked, state.unwrap_or(false), "{id}");
        }
    }
}
