//! The operations of a table from a seed: entries of both widths, good and spoilt.

use crate::calls_tables::{Draft, NO_TYPE};
use crate::prng::Prng;
use std::collections::BTreeSet;

/// An operation's entry as its bytes have it.
#[derive(Clone, Copy, Debug)]
pub struct Entry {
    pub id: u32,
    pub kind: u16,
    pub of: u16,
    /// Two bytes more. Nothing keeps a kind that has none from having them, or the other way round.
    pub response: Option<u16>,
}

impl Entry {
    pub fn bytes(&self) -> Vec<u8> {
        let mut out = self.id.to_be_bytes().to_vec();
        out.extend(self.kind.to_be_bytes());
        out.extend(self.of.to_be_bytes());
        out.extend(self.response.iter().flat_map(|of| of.to_be_bytes()));
        out
    }

    /// A good entry, of 10 bytes or of 8.
    pub fn good(rng: &mut Prng, id: u32, types: usize, wide: bool) -> Entry {
        let (of, other) = (rng.below(types) as u16, rng.below(types) as u16);
        let (kind, of, response) = if wide {
            let (of, response) = (
                rng.pick(&[of, of, NO_TYPE]),
                rng.pick(&[other, other, NO_TYPE]),
            );
            (rng.pick(&[2, 3]), of, Some(response))
        } else {
            let (kind, of) = rng.pick(&[(0, NO_TYPE), (0, of), (1, of), (1, of)]);
            (kind, of, None)
        };
        Entry {
            id,
            kind,
            of,
            response,
        }
    }
}

/// IDs that rise, the first and the last possible among them.
fn rising(rng: &mut Prng, count: usize) -> BTreeSet<u32> {
    let mut ids = BTreeSet::new();
    while ids.len() < count {
        ids.insert(match rng.below(12) {
            0 => 0,
            1 => 0xFFFF_FFFE,
            2 => rng.draw() as u32 % 0xFFFF_FFFF,
            3 => 0x7FFF_FFFF + rng.below(3) as u32,
            _ => rng.below(4 * count) as u32,
        });
    }
    ids
}

impl Draft {
    /// So many operations: of any width, all narrow, all wide, or one wide at either end.
    pub fn operate(&mut self, rng: &mut Prng, count: usize) {
        let mixture = rng.below(8);
        for (place, id) in rising(rng, count).into_iter().enumerate() {
            let wide = match mixture {
                0 => false,
                1 => true,
                2 => place == 0,
                3 => place + 1 == count,
                _ => rng.chance(1, 2),
            };
            let entry = Entry::good(rng, id, self.types.len(), wide);
            self.operations.push(entry);
        }
    }
}

/// Tables for a conversation with requests: the first has two IDs whose requests we send and one
/// whose requests we serve; in the second an entry is gone and another changed. Both are small, since
/// every call has one.
pub fn two_tables(rng: &mut Prng) -> [Draft; 2] {
    let mut first = Draft::default();
    (0..rng.from_to(1, 3)).for_each(|code| first.base(code as u16 + 6));
    let lowest = rng.pick(&[0, 1, 5, 1000, 0xFFFF_FF00]);
    let kinds = [2, 2, 3, rng.below(4) as u16, rng.below(4) as u16];
    let mut id = lowest;
    for kind in kinds {
        let mut entry = Entry::good(rng, id, first.types.len(), kind > 1);
        if kind == 1 && entry.of == NO_TYPE {
            entry.of = 0;
        }
        entry.kind = kind;
        first.operations.push(entry);
        id += rng.pick(&[1, 1, 3]);
    }
    let mut second = first.clone();
    second.operations.remove(rng.below(5));
    let at = rng.below(4);
    let id = second.operations[at].id;
    let wide = rng.chance(1, 2);
    second.operations[at] = Entry::good(rng, id, second.types.len(), wide);
    [first, second]
}

/// One entry changed so that a rule of number 32 is broken; now and then so that none is.
pub fn break_an_operation(rng: &mut Prng, draft: &mut Draft) {
    let known = draft.types.len() as u16;
    let last = draft.operations.len() - 1;
    let at = rng.below(last + 1);
    let none = rng.pick(&[known, NO_TYPE - 1]);
    let entry = &mut draft.operations[at];
    match rng.below(8) {
        0 => draft.operations[last].id = 0xFFFF_FFFF,
        // A kind that does not exist has 8 bytes: 32, or by 10 of them whatever that comes to.
        1 => entry.kind = rng.pick(&[4, 5, 256, 258, 0x0300, 0xFFFF]),
        2 => {
            entry.kind = rng.pick(&[4, 0x0200, 0xFFFF]);
            entry.response = None;
        }
        3 => entry.of = none,
        4 if entry.response.is_some() => entry.response = Some(none),
        4 => (entry.kind, entry.of) = (1, NO_TYPE),
        5 if last > 0 => draft.operations[last].id = draft.operations[last - 1].id,
        6 if last > 0 => draft.operations.swap(0, last),
        _ => entry.of = none,
    }
}

/// Bytes whose widths are not those of their kinds: a wide entry at the end cut by 1, 2 or 3, a
/// kind changed and its bytes left, or two bytes left out or put in.
pub fn misfit(rng: &mut Prng, good: &Draft) -> Vec<u8> {
    let mut draft = good.clone();
    if draft.operations.is_empty() {
        draft.operate(rng, 2);
    }
    let last = draft.operations.len() - 1;
    let anywhere = rng.below(last + 1);
    let at = rng.pick(&[0, last, anywhere]);
    let entry = &mut draft.operations[at];
    match rng.below(6) {
        0..=2 => {
            let id = draft.operations[last].id;
            draft.operations[last] = Entry::good(rng, id, draft.types.len(), true);
            let mut bytes = draft.bytes();
            bytes.truncate(bytes.len() - rng.from_to(1, 3));
            return bytes;
        }
        3 => entry.kind = rng.pick(&[0, 1, 2, 3, 4]),
        4 => entry.response = entry.response.xor(Some(0)),
        _ => {
            // All as wide as the widest.
            for entry in &mut draft.operations {
                entry.response = entry.response.or(Some(NO_TYPE));
            }
        }
    }
    draft.bytes()
}
