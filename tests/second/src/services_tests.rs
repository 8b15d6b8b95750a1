//! What is known of services, worked out by hand: 02, request 8, B16 to B20 of its reading.

use crate::services::*;

fn told(ids: impl Iterator<Item = u32>) -> Vec<(u32, bool)> {
    ids.map(|id| (id, id % 2 == 0)).collect()
}

/// 250 are known of platform 7, and one of 8.
fn with_250() -> Services {
    let mut services = Services::default();
    services.note(7, &told(0..250)).unwrap();
    services.note(8, &[(0, false)]).unwrap();
    services
}

#[test]
fn the_257th() {
    let mut services = with_250();
    let before = services.clone();
    // 7 new ones, alone and behind some that are known: nothing changes, not even a state.
    assert_eq!(services.note(7, &told(250..257)), Err(63));
    let with_known = [&[(0, false), (1, true)][..], &told(300..307)].concat();
    assert_eq!(services.note(7, &with_known), Err(63));
    let known_last = [&told(300..307)[..], &[(0, false)]].concat();
    assert_eq!(services.note(7, &known_last), Err(63));
    assert_eq!(services, before);
    // 7 pairs that name 6 new ones.
    let six_new = [&told(250..256)[..], &[(250, false)]].concat();
    assert_eq!(services.note(7, &six_new), Ok(()));
    assert_eq!(services.known(7).len(), 256);
    assert_eq!(services.state(7, 250), Some(false));
    // Full: known ones are noted, and no new one is.
    assert_eq!(services.note(7, &told((0..256).rev())), Ok(()));
    assert_eq!(services.state(7, 250), Some(true));
    assert_eq!(services.note(7, &[(256, true)]), Err(63));
    assert_eq!(services.state(7, 256), None);
    // Another platform has its own places.
    assert_eq!(services.note(8, &told(1000..1255)), Ok(()));
    assert_eq!(services.note(8, &[(9, true)]), Err(63));
    assert_eq!(services.note(9, &told(0..256)), Ok(()));
    assert_eq!(services.note(10, &told(0..257)), Err(63));
    assert!(services.known(10).is_empty());
}

#[test]
fn six_more_than_250() {
    let mut services = with_250();
    assert_eq!(services.note(7, &told(250..256)), Ok(()));
    assert_eq!(services.known(7), told(0..256));
}

/// The last of two pairs counts, what is not named stays, and the order is that of first hearing.
#[test]
fn pair_by_pair() {
    let mut services = Services::default();
    let pairs = [
        (9, true),
        (5, true),
        (9, false),
        (u32::MAX, true),
        (5, true),
    ];
    services.note(0, &pairs).unwrap();
    assert_eq!(services.known(0), [(9, false), (5, true), (u32::MAX, true)]);
    services.note(0, &[]).unwrap();
    services.note(0, &[(1, false), (9, true)]).unwrap();
    assert_eq!(
        services.known(0),
        [(9, true), (5, true), (u32::MAX, true), (1, false)]
    );
    assert_eq!(services.state(0, 1), Some(false));
    assert_eq!(services.state(0, 2), None);
    assert_eq!((services.state(1, 9), services.state(256, 9)), (None, None));
    assert!(services.known(256).is_empty() && services.known(u32::MAX).is_empty());
}

#[test]
fn went_down() {
    let mut services = with_250();
    let eight = services.known(8).to_vec();
    services.note(8, &[(1, true)]).unwrap();
    services.went_down(7);
    let down: Vec<(u32, bool)> = (0..250).map(|id| (id, false)).collect();
    assert_eq!(services.known(7), down);
    assert_eq!(services.known(8), [eight, vec![(1, true)]].concat());
    services.went_down(9);
    assert!(services.known(9).is_empty());
    services.note(7, &[(3, true)]).unwrap();
    assert_eq!(services.state(7, 3), Some(true));
}

/// A word for each of ours: only a state of 2 is AVAILABLE, and no word is left out.
#[test]
fn our_own() {
    let words = [
        2 << 32 | 21,
        1 << 32 | 22,
        23,
        3 << 32 | 24,
        u64::MAX,
        2 << 32,
        2 << 32 | 22,
        (2 << 32 | 21) + (1 << 34),
    ];
    let services = ours(&words);
    let expected = [
        (21, true),
        (22, false),
        (23, false),
        (24, false),
        (u32::MAX, false),
        (0, true),
        (22, true),
        (21, false),
    ];
    assert_eq!(services, expected);
    let states = [21, 22, 23, 0, 5].map(|id| own_state(&services, id));
    assert_eq!(states, [false, true, false, true, false]);
    assert!(!own_state(&[], 0));
}
