//! Calls on tables: 4 and 15, and payloads to words and back, 5, 6, 13, 14, 16 and 17.

use crate::calls_compose::{room, Call};
use crate::calls_damage::damaged;
use crate::calls_tables::Draft;
use crate::calls_values::{outside, outside_wire, payload, value, words, Leaf, Of};
use crate::prng::Prng;

const MOST_BYTES: usize = 70_000;
const MOST_WORDS: usize = 65_536;

/// A table's bytes, spoilt once in `seldom`.
pub fn table(rng: &mut Prng, draft: &Draft, seldom: usize) -> Vec<u8> {
    if rng.chance(1, seldom) {
        damaged(rng, draft)
    } else {
        draft.bytes()
    }
}

/// Code 4 on a good table and on a spoilt one alike.
pub fn check(rng: &mut Prng, draft: &Draft) -> Call {
    let bytes = match rng.below(20) {
        0 => {
            let length = rng.below(40);
            rng.bytes(length)
        }
        _ => table(rng, draft, 2),
    };
    Call::new(4).bytes(&bytes)
}

/// Code 15: IDs that are there, the ones beside them, and the ends.
pub fn look_up(rng: &mut Prng, draft: &Draft) -> Call {
    let id = match (rng.below(8), draft.operations.is_empty()) {
        (0, _) => rng.pick(&[0, 1, 0xFFFF_FFFE, 0xFFFF_FFFF]),
        (1, _) | (_, true) => rng.draw() as u32,
        (2, _) => rng.pick(&draft.operations).id.wrapping_add(1),
        (3, _) => rng.pick(&draft.operations).id.wrapping_sub(1),
        _ => rng.pick(&draft.operations).id,
    };
    let bytes = table(rng, draft, 20);
    Call::new(15).bytes(&bytes).number(rng, u64::from(id))
}

/// The size of the types that most calls are about: a file has many calls.
pub const SHORT: u64 = 300;

/// A type's number, of one no larger than `largest`, a composite one where there is any.
fn some_type(rng: &mut Prng, draft: &Draft, largest: u64) -> u16 {
    for _ in 0..6 {
        let known = draft.types.len();
        let of = rng.below(known).max(rng.below(known));
        if draft.sizes[of] <= largest {
            return of as u16;
        }
    }
    0
}

/// Which type number the call is given: now and then one that does not exist.
fn asked(rng: &mut Prng, draft: &Draft, of: u16) -> u64 {
    let known = draft.types.len() as u64;
    match rng.below(40) {
        0 => known,
        1 => rng.pick(&[0xFFFF, 256, known + 1, 0x100 + u64::from(of)]),
        2 => rng.below(known as usize) as u64,
        _ => u64::from(of),
    }
}

pub fn unpack(rng: &mut Prng, draft: &Draft, largest: u64) -> Call {
    let of = some_type(rng, draft, largest);
    let mut leaves = value(rng, draft, of);
    let needed = leaves.len();
    if rng.chance(2, 5) {
        spoil(rng, &mut leaves);
    }
    let mut bytes = payload(&leaves);
    match rng.below(12) {
        0 => bytes.truncate(bytes.len().max(1) - 1),
        1 => bytes.truncate(rng.below(bytes.len() + 1)),
        2 => bytes.push(rng.below(256) as u8),
        _ => {}
    }
    bytes.truncate(MOST_BYTES);
    let (table, of) = (table(rng, draft, 40), asked(rng, draft, of));
    let room = room(rng, needed, MOST_WORDS);
    Call::new(rng.pick(&[5, 13, 16]))
        .bytes(&table)
        .number(rng, of)
        .bytes(&bytes)
        .number(rng, room)
}

pub fn pack(rng: &mut Prng, draft: &Draft, largest: u64) -> Call {
    let of = some_type(rng, draft, largest);
    let mut leaves = value(rng, draft, of);
    let needed = payload(&leaves).len();
    if rng.chance(2, 5) {
        spoil(rng, &mut leaves);
    }
    let mut words = words(&leaves);
    match rng.below(14) {
        0 => words.push(rng.pick(&[0, 1, u64::MAX])),
        1 => words.truncate(rng.below(words.len() + 1)),
        _ => {}
    }
    words.truncate(MOST_WORDS);
    let (table, of) = (table(rng, draft, 40), asked(rng, draft, of));
    let room = room(rng, needed, MOST_BYTES);
    Call::new(rng.pick(&[6, 14, 17]))
        .bytes(&table)
        .number(rng, of)
        .words(&words)
        .number(rng, room)
}

/// One leaf or two made wrong; with two, the order decides which is said.
fn spoil(rng: &mut Prng, leaves: &mut Vec<Leaf>) {
    for _ in 0..rng.pick(&[1, 1, 1, 2]) {
        if leaves.is_empty() {
            return;
        }
        let at = rng.below(leaves.len());
        match rng.below(10) {
            0 => leaves.truncate(at),
            1 => {
                let again = leaves[at].clone();
                leaves.push(again);
            }
            2 => {
                leaves.remove(at);
            }
            3 | 4 => recount(rng, leaves),
            _ => {
                leaves[at].word = outside(rng, &leaves[at]);
                leaves[at].wire = outside_wire(rng, &leaves[at]);
            }
        }
    }
}

/// A count changed, over its maximum or to another that is allowed, so that what follows is read
/// as something else.
fn recount(rng: &mut Prng, leaves: &mut [Leaf]) {
    let counts: Vec<usize> = (0..leaves.len())
        .filter(|at| matches!(leaves[*at].of, Of::Count(_)))
        .collect();
    let Some(most) = counts.first().map(|_| rng.pick(&counts)) else {
        return;
    };
    let leaf = &mut leaves[most];
    if rng.chance(1, 2) {
        leaf.word = outside(rng, leaf);
        leaf.wire = outside_wire(rng, leaf);
    } else {
        leaf.word = rng.pick(&[0, leaf.word.wrapping_add(1), leaf.word.max(1) - 1]);
        leaf.wire = (leaf.word as u32).to_be_bytes().to_vec();
    }
}

#[cfg(test)]
mod tests {
    use super::*;
    use crate::calls_tables::{good, CHAR8};
    use crate::payload::Place;
    use crate::{payload as model, types};

    /// Every good table is accepted, with the sizes it was made to have.
    #[test]
    fn good_tables_are_good() {
        let mut rng = Prng::new(11);
        for _ in 0..600 {
            let draft = good(&mut rng);
            let table = types::check(&draft.bytes()).expect("a good table");
            assert_eq!(table.types.len(), draft.types.len());
            assert_eq!(table.members, draft.members.len());
            assert_eq!(table.values, draft.values.len());
            assert_eq!(table.operations.len(), draft.operations.len());
            assert!(draft.sizes.iter().all(|size| *size <= 65536));
        }
    }

    /// Demand 2 from the maker's side: its words and its bytes are each other's, for every kind of
    /// type, with each true boolean as 1.
    #[test]
    fn values_are_values() {
        let mut rng = Prng::new(12);
        let (mut codes, mut enums, mut counts) = ([0; 13], [0; 13], 0);
        for _ in 0..1500 {
            let draft = good(&mut rng);
            let of = some_type(&mut rng, &draft, SHORT);
            let leaves = value(&mut rng, &draft, of);
            let (table, of) = (draft.bytes(), usize::from(of));
            let given = model::unpack(&table, of, &payload(&leaves), MOST_WORDS);
            assert_eq!(given, Ok(words(&leaves)));
            let mut as_one = leaves.clone();
            for leaf in &mut as_one {
                match &leaf.of {
                    Of::Base(0) => leaf.wire = vec![leaf.word as u8],
                    Of::Base(code) => codes[usize::from(*code)] += 1,
                    Of::Enum(code, _) => enums[usize::from(*code)] += 1,
                    Of::Count(_) => counts += 1,
                }
            }
            let written = model::pack(&table, of, &words(&leaves), MOST_BYTES);
            assert_eq!(written, Ok(payload(&as_one)));
        }
        assert!(codes[1..].iter().all(|n| *n > 100), "{codes:?}");
        let each = [1, 3, 4, 5, 6, 7, 8, 9, 10];
        assert!(each.iter().all(|base| enums[*base] > 20), "{enums:?}");
        assert!(counts > 300, "{counts}");
    }

    /// One char8 of a good value made wrong, wherever it stands, is 42 both ways, and there.
    #[test]
    fn a_wrong_char8_is_42() {
        let mut rng = Prng::new(13);
        let mut places = 0;
        for _ in 0..1500 {
            let draft = good(&mut rng);
            let of = some_type(&mut rng, &draft, SHORT);
            let mut leaves = value(&mut rng, &draft, of);
            let at = |leaf: &Leaf| leaf.of == Of::Base(CHAR8);
            let texts: Vec<usize> = (0..leaves.len()).filter(|i| at(&leaves[*i])).collect();
            if texts.is_empty() {
                continue;
            }
            places += 1;
            let wrong = rng.pick(&texts);
            let leaf = &mut leaves[wrong];
            (leaf.word, leaf.wire) = (outside(&mut rng, leaf), outside_wire(&mut rng, leaf));
            let (table, of) = (draft.bytes(), usize::from(of));
            let refused = |at| model::Refused {
                number: 42,
                place: Some(Place { at, leaves: wrong }),
            };
            let read = model::unpack(&table, of, &payload(&leaves), MOST_WORDS);
            assert_eq!(read, Err(refused(payload(&leaves[..wrong]).len())));
            let written = model::pack(&table, of, &words(&leaves), MOST_BYTES);
            assert_eq!(written, Err(refused(wrong)));
        }
        assert!(places > 200, "{places}");
    }
}
