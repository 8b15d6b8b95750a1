//! Tables that were good, spoilt so that each of 30 to 33 is met.

use crate::calls_operations::{break_an_operation, misfit};
use crate::calls_tables::{at_the_limits, ends, Draft, NO_TYPE};
use crate::prng::Prng;

/// A spoilt table's bytes. What it is refused with, if at all, the model says.
pub fn damaged(rng: &mut Prng, good: &Draft) -> Vec<u8> {
    match rng.below(22) {
        0..=2 => cut(rng, good.bytes()),
        3 => longer(rng, good.bytes()),
        4 | 5 => miscounted(rng, good),
        6 => any_byte(rng, good.bytes()),
        7 | 8 => too_large(rng),
        20 | 21 => misfit(rng, good),
        9 => {
            // Two at once: which is given is a matter of order.
            let mut draft = good.clone();
            let with = too_large_draft(rng);
            draft.types = with.types;
            draft.members = with.members;
            break_a_rule(rng, &mut draft);
            draft.bytes()
        }
        10 => {
            let mut draft = good.clone();
            break_a_rule(rng, &mut draft);
            match rng.below(3) {
                0 => miscounted(rng, &draft),
                1 => longer(rng, draft.bytes()),
                _ => cut(rng, draft.bytes()),
            }
        }
        _ => {
            let mut draft = good.clone();
            break_a_rule(rng, &mut draft);
            draft.bytes()
        }
    }
}

fn cut(rng: &mut Prng, mut bytes: Vec<u8>) -> Vec<u8> {
    let length = match rng.below(3) {
        0 => bytes.len() - 1,
        1 => rng.below(bytes.len()),
        _ => bytes.len() - rng.from_to(1, bytes.len().min(9)),
    };
    bytes.truncate(length);
    bytes
}

fn longer(rng: &mut Prng, mut bytes: Vec<u8>) -> Vec<u8> {
    for _ in 0..rng.pick(&[1, 1, 2, 8]) {
        bytes.push(rng.pick(&[0, 0, 1, 255]));
    }
    bytes
}

fn any_byte(rng: &mut Prng, mut bytes: Vec<u8>) -> Vec<u8> {
    let at = rng.below(bytes.len());
    match rng.below(4) {
        0 => bytes[at] = rng.below(256) as u8,
        1 => {
            bytes.remove(at);
        }
        2 => bytes.insert(at, rng.below(256) as u8),
        _ => bytes[at] ^= 1 << rng.below(8),
    }
    bytes
}

/// One section's count changed, its entries as they were.
fn miscounted(rng: &mut Prng, draft: &Draft) -> Vec<u8> {
    let counts = [
        draft.types.len(),
        draft.members.len(),
        draft.values.len(),
        draft.operations.len(),
    ];
    let widths = [8, 2, 8, 8];
    let section = rng.below(4);
    let at: usize = (0..section).map(|s| 2 + counts[s] * widths[s]).sum();
    let most = if section == 0 { 256 } else { 1024 };
    let count = match rng.below(7) {
        0 => 0,
        1 => most,
        2 | 3 => most + 1,
        4 => 65535,
        5 => counts[section] + 1,
        _ => counts[section].max(1) - 1,
    };
    let mut bytes = draft.bytes();
    bytes[at..at + 2].copy_from_slice(&(count as u16).to_be_bytes());
    bytes
}

/// A type one step too large: by product, by sum, by an array's own four bytes, or by far.
fn too_large_draft(rng: &mut Prng) -> Draft {
    let mut draft = at_the_limits(rng);
    let number = draft.types.len() as u16;
    match rng.below(5) {
        0 => draft.types[1][3] = (65536 / draft.sizes[0] + 1).min(65535) as u16,
        1 => draft.types[2][3] = ((65536 - 4) / draft.sizes[0] + 1) as u16,
        2 => {
            let first = draft.members.len() as u16;
            draft.members.extend([0, 1, 0]);
            draft.types.push([2, 0, first, 3]);
        }
        // The largest element: 65,535 of it wrap at 32 bits if nothing minds.
        3 => draft.types.push([rng.pick(&[3, 4]), 1, 0, 65535]),
        _ => {
            for of in number - 1..number + 5 {
                draft.types.push([3, of, 0, rng.pick(&[32768, 65535, 2])]);
            }
        }
    }
    draft
}

fn too_large(rng: &mut Prng) -> Vec<u8> {
    too_large_draft(rng).bytes()
}

/// One field changed so that a rule of number 32 is broken; now and then so that none is.
fn break_a_rule(rng: &mut Prng, draft: &mut Draft) {
    if !draft.operations.is_empty() && rng.chance(1, 3) {
        return break_an_operation(rng, draft);
    }
    let at = rng.below(draft.types.len());
    let known = draft.types.len() as u16;
    let [kind, of, first, count] = draft.types[at];
    let section = match kind {
        1 => draft.values.len() as u16,
        _ => draft.members.len() as u16,
    };
    let entry = &mut draft.types[at];
    match (kind, rng.below(6)) {
        (_, 0) => entry[0] = rng.pick(&[5, 6, 256, 0xFFFF]),
        (1..=4, 1) => entry[3] = 0,
        (0, 1) => entry[1] = rng.pick(&[13, 14, 256, 0x0100 + of]),
        (0, 2 | 3) => entry[2] = 1,
        (0, _) => entry[3] = 1,
        (1, 2) => {
            // Nothing is wrong with its values: each base could have them.
            entry[1] = rng.pick(&[0, 2, 11, 12, 13, 0xFFFF]);
            for value in 0..usize::from(count) {
                draft.values[usize::from(first) + value] = value as u64;
            }
        }
        (1, 3) => draft.values[usize::from(first)] = beyond(rng, of),
        (1, 4) if count > 1 => {
            let (one, other) = (first, first + count - 1);
            draft.values[usize::from(other)] = draft.values[usize::from(one)];
        }
        (2, 2) => entry[1] = rng.pick(&[1, 0xFFFF]),
        (2, 3 | 4) => {
            let member = first + rng.below(usize::from(count)) as u16;
            let late = [at as u16, at as u16 + 1, known, NO_TYPE];
            draft.members[usize::from(member)] = rng.pick(&late);
        }
        (3 | 4, 2) => entry[2] = rng.pick(&[1, 0xFFFF]),
        (3 | 4, _) => entry[1] = rng.pick(&[at as u16, at as u16 + 1, known, 0xFFFF]),
        // Beyond the section's end: by one, by far, and beyond 65,535, which must not be cut off.
        (_, _) => match rng.below(4) {
            0 => entry[2] = section,
            1 => entry[3] = section - first + 1,
            2 => entry[2] = 0xFFFF,
            _ => entry[3] = 0xFFFF,
        },
    }
}

/// A word just outside an enum's base, or one that would be inside if it were cut off.
fn beyond(rng: &mut Prng, code: u16) -> u64 {
    let (least, greatest) = ends(code);
    match rng.below(3) {
        0 => (greatest + 1) as u64,
        1 => (least - 1) as u64,
        // An int8 of -1 written as 0xFF.
        _ => (greatest * 2 + 1) as u64,
    }
}
