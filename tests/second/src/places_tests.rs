//! Where a walk stops (02, request 3): against values made without the model, and what a place
//! means apart from any walk.

use crate::calls_tables::{good, Draft};
use crate::calls_values::{outside, outside_wire, payload, value, words, Leaf};
use crate::payload::{pack, unpack, Place, Refused};
use crate::prng::Prng;

const PLENTY: usize = 70_000;
const SHORT: u64 = 300;

fn refused(number: u8, at: usize, leaves: usize) -> Refused {
    Refused {
        number,
        place: Some(Place { at, leaves }),
    }
}

/// A table, one of its types and a value of it, of some leaves.
fn made(rng: &mut Prng) -> (Draft, u16, Vec<Leaf>) {
    loop {
        let draft = good(rng);
        let of = rng.below(draft.types.len());
        if draft.sizes[of] <= SHORT {
            let leaves = value(rng, &draft, of as u16);
            return (draft, of as u16, leaves);
        }
    }
}

/// Where each leaf begins, and behind them the payload's length.
fn begins(leaves: &[Leaf]) -> Vec<usize> {
    let mut all = vec![0];
    for leaf in leaves {
        all.push(all[all.len() - 1] + leaf.wire.len());
    }
    all
}

/// A leaf made wrong is refused where it begins, with as many leaves before it as there are.
#[test]
fn a_wrong_leaf_is_found() {
    let mut rng = Prng::new(21);
    let (mut in_bytes, mut in_words) = ([0; 2], [0; 2]);
    for _ in 0..3000 {
        let (draft, of, mut leaves) = made(&mut rng);
        let (table, of, at) = (draft.bytes(), usize::from(of), rng.below(leaves.len()));
        let leaf = &mut leaves[at];
        (leaf.word, leaf.wire) = (outside(&mut rng, leaf), outside_wire(&mut rng, leaf));
        // Of some leaves every byte is allowed.
        if let Err(told) = unpack(&table, of, &payload(&leaves), PLENTY) {
            assert_eq!(told, refused(told.number, begins(&leaves)[at], at));
            in_bytes[usize::from(told.number - 42)] += 1;
        }
        if let Err(told) = pack(&table, of, &words(&leaves), PLENTY) {
            assert_eq!(told, refused(told.number, at, at));
            in_words[usize::from(told.number - 42)] += 1;
        }
    }
    let all = [in_bytes, in_words].concat();
    assert!(all.iter().all(|met| *met > 100), "{all:?}");
}

/// Cut at each place, and with something behind it.
#[test]
fn ends_are_found() {
    let mut rng = Prng::new(22);
    for _ in 0..400 {
        let (draft, of, leaves) = made(&mut rng);
        let (table, of) = (draft.bytes(), usize::from(of));
        let (begins, mut bytes, mut given) = (begins(&leaves), payload(&leaves), words(&leaves));
        for length in 0..bytes.len() {
            let cut = begins.iter().rposition(|begin| *begin <= length);
            let cut = cut.expect("the first begins at 0");
            let told = unpack(&table, of, &bytes[..length], PLENTY);
            assert_eq!(told, Err(refused(40, begins[cut], cut)));
        }
        for count in 0..given.len() {
            let told = pack(&table, of, &given[..count], PLENTY);
            assert_eq!(told, Err(refused(40, count, count)));
        }
        let (behind, count) = (bytes.len(), given.len());
        bytes.resize(behind + rng.from_to(1, 9), 0x55);
        given.resize(count + rng.from_to(1, 3), 1);
        let told = unpack(&table, of, &bytes, PLENTY);
        assert_eq!(told, Err(refused(41, behind, count)));
        let told = pack(&table, of, &given, PLENTY);
        assert_eq!(told, Err(refused(41, count, count)));
    }
}

/// Apart from any walk: cut off at its place an input ends too early just there, or behind 41 is a
/// value; and of 42 and 43 some first bytes of the item decide, at most eight, or its one word.
#[test]
fn what_a_place_means() {
    let mut rng = Prng::new(23);
    let mut met = [[0; 4]; 2];
    for round in 0..6000 {
        let (draft, of, leaves) = made(&mut rng);
        let (table, of, by_words) = (draft.bytes(), usize::from(of), round % 2);
        let (mut bytes, mut given) = (payload(&leaves), words(&leaves));
        for _ in 0..rng.below(3) {
            let (at, item) = (rng.below(bytes.len()), rng.below(given.len()));
            bytes[at] = rng.below(256) as u8;
            given[item] = rng.draw() >> rng.below(64);
        }
        if rng.chance(1, 3) {
            bytes.resize((bytes.len() + 4).saturating_sub(rng.below(12)), 7);
            given.resize((given.len() + 2).saturating_sub(rng.below(5)), 1);
        }
        // The first so many bytes or words, and any behind them.
        let mut first = |length: usize, more: usize| {
            if by_words == 1 {
                let behind: Vec<u64> = (0..more).map(|_| rng.draw()).collect();
                let told = pack(&table, of, &[&given[..length], &behind].concat(), PLENTY);
                return told.map(|_| length);
            }
            let behind = rng.bytes(more);
            let told = unpack(&table, of, &[&bytes[..length], &behind].concat(), PLENTY);
            told.map(|words| words.len())
        };
        let (length, widest) = [(bytes.len(), 8), (given.len(), 1)][by_words];
        let Err(told) = first(length, 0) else {
            continue;
        };
        let Place { at, leaves } = told.place.expect("a table and a type that are good");
        met[by_words][usize::from(told.number - 40)] += 1;
        assert!(by_words == 0 || at == leaves);
        if told.number == 41 {
            assert!(at < length);
            assert_eq!(first(at, 0), Ok(leaves));
            continue;
        }
        assert_eq!(first(at, 0), Err(refused(40, at, leaves)));
        if told.number != 40 {
            let mut widths = 1..=widest.min(length - at);
            let decides = |width| (0..9).all(|more| first(at + width, more) == Err(told));
            assert!(widths.any(decides), "{told:?}");
        }
    }
    assert!(met.concat().iter().all(|met| *met > 50), "{met:?}");
}
